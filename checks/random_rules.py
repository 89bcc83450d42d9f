"""Small random files of rules, with odd keys, values, blanks, ends of lines and comments, and mutations of them. `checks/rules` uses them."""

from random_files import joined, mutated, spelled, with_line

KEYS = [b"k", b"K", b"team", b"0", b"together", b"#", b"\xff\xfe", b"a\rb", b"k" * 70]
VALUES = [b"x", b"X", b"y", b"0", b"00", b"#", b"\xc3", b"share"]


def named(draw, problem, v):
    """The name of a vertex, which may have leading zeros where it is a number."""
    return (draw.choice([b"", b"", b"0", b"000"]) if problem.objective == "edits" else b"") + problem.names[v]


def random_pair(draw, problem):
    """The fields of a rule on two vertices, which are seldom one."""
    word = draw.choice([b"together", b"together", b"apart", b"apart", b"apart"])
    u, v = draw.randrange(problem.n), draw.randrange(problem.n)
    if u == v and draw.random() < 0.8:
        v = (u + 1) % problem.n
    return [word, named(draw, problem, u), named(draw, problem, v)]


def random_lines(draw, problem):
    """The lines of random rules in some order. Words of a key may have no attributes, and attributes no word."""
    keys = draw.sample(KEYS, draw.choice([0, 1, 1, 2, 3]))
    lines = [random_pair(draw, problem) for _ in range(draw.choice([0, 0, 1, 1, 2, 3]) if problem.n else 0)]
    for key in keys:
        values = draw.sample(VALUES, draw.choice([1, 2, 2, 3, 4]))
        kept = draw.choice([0.3, 0.6, 1])
        lines += [[b"attribute", named(draw, problem, v), key, draw.choice(values)]
                  for v in range(problem.n) if draw.random() < kept]
    for key in keys + draw.sample(KEYS, draw.choice([0, 0, 0, 1])):
        lines += [[draw.choice([b"share", b"differ", b"same", b"same"]), key] for _ in range(draw.choice([0, 1, 1, 1, 2]))]
    lines += [line for line in lines if line[0] != b"attribute" and draw.random() < 0.1]
    draw.shuffle(lines)
    return lines


def few_lines(draw, problem):
    """The lines of rules that leave more to decide, mostly a few pairs, for three vertices or more. There is at least one line."""
    kind = draw.random()
    if kind < 0.2:
        return random_lines(draw, problem) or few_lines(draw, problem)
    if kind < 0.4:
        # two vertices have a partner in common
        w, *others = (named(draw, problem, v) for v in draw.sample(range(problem.n), 3))
        return [[b"apart", w, other] for other in others]
    return [random_pair(draw, problem) for _ in range(draw.choice([1, 2, 2, 3]))]


def written(draw, lines):
    """A text of these lines, with comments, blanks and ends of lines of both kinds."""
    return joined(draw, [spelled(draw, line) for line in lines], (b"#",))


def random_rules(draw, problem):
    return written(draw, random_lines(draw, problem))


# ---- mutations
BYTES = [bytes([byte]) for byte in b" \t\n\r#as019-\x00\xff"]
FIELDS = [b"", b"#", b"together", b"apart", b"attribute", b"share", b"differ", b"same", b"Together", b"apart:", b"k", b"x", b"a", b"nobody",
          b"0", b"00", b"1", b"01", b"2", b"7", b"-1", b"+1", b"1.0", b"1001", b"4294967297", b"18446744073709551617", b"0" * 40 + b"1"]


def bad_rule(draw, problem):
    a = draw.choice(problem.names)
    return draw.choice([b"together " + a, b"together", b"apart %s %s %s" % (a, a, a), b"attribute %s k" % a, b"attribute %s k x x" % a,
                        b"share", b"share k k", b"differ k x", b"same", b"Together %s %s" % (a, a), b"share: k", b"together\x0b%s %s" % (a, a),
                        b"same k # note", b"apart nobody", b"%s together %s" % (a, a), b"%% note", b"\xffshare k", b"shar", b"c note"])


def unknown_vertex(draw, problem):
    a = draw.choice(problem.names)
    none = draw.choice([b"nobody", b"0001000", b"1001", b"4294967297", b"-" + a, a + b"'", a + b"\xff", b"#", *(
        [b"0", b"%d" % (problem.n + 1), b"+1", b"1.0", b"\xd9\xa1"] if problem.objective == "edits" else [b"007", a + a])])
    return draw.choice([b"together %s %s" % (a, none), b"apart %s %s" % (none, a), b"together %s %s" % (none, none),
                        b"attribute %s k x" % none, b"attribute %s k x" % none + b"\nattribute %s k x" % none])


def attribute_twice(draw, problem):
    a = draw.choice(problem.names)
    key, values = draw.choice(KEYS), draw.choices(VALUES, k=2)
    return b"attribute %s %s %s\n" % (a, key, values[0]) + draw.choice([b"", b"share k\n", b"# note\n"]) + b"attribute %s %s %s" % (a, key, values[1])


ON_PURPOSE = (bad_rule, unknown_vertex, attribute_twice)


def mutation(draw, problem, number):
    """A text of rules with one or several changes, in every second case among them one that is made to be refused."""
    text = random_rules(draw, problem)
    if number % 2 and problem.n:
        for _ in range(draw.choice([1, 1, 2])):
            text = with_line(draw, text, draw.choice(ON_PURPOSE)(draw, problem))
        return text
    for _ in range(draw.choice([1, 1, 2, 4])):
        text = mutated(draw, text, BYTES, FIELDS)
    return text
