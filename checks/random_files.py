"""Small random files of both formats, with odd names, blanks, ends of lines and comments, and changes of a text. The checks beside it share it."""

CHOICES = {
    "edits": [[], ["--format", "pace"], ["--objective", "edits"], ["--format", "pace", "--objective", "edits"]],
    "agreement": [["--objective", "agreement"], ["--objective", "agreement", "--format", "edges"]],
    "modularity": [["--objective", "modularity"], ["--format", "edges"], ["--objective", "modularity", "--format", "edges"]],
}
IN_TURN = ("agreement", "modularity", "agreement", "modularity", "edits")
NAMES = [b"a", b"b", b"c", b"p", b"A", b"0", b"00", b"1", b"-1", b"1.5", b"-", b"--x", b"x#y", b"x%", b"\"q\"", b"\\n", b"a,b",
         b"a\rb", b"\x00", b"\x0c", b"\x7f", b"block", "\u00e4".encode(), "a\u0308".encode(), "\u00a0".encode(), "\u2028".encode(),
         "\u540d\u524d".encode(), "\U0001f984".encode(), "\ufeffa".encode(), b"n" * 70, b"#h", b"%h"]


def shuffled(draw, *options):
    """Options in some order, each a list of words."""
    pairs = [words[at:at + 2] for words in options for at in range(0, len(words), 2)]
    return [word for pair in draw.sample(pairs, len(pairs)) for word in pair]


def random_weight(draw, negative):
    """A weight in one of its spellings."""
    whole = draw.choice(["0", "1", "2", "3", "7", "12", "007", "000", ""])
    size = draw.choice([whole or "4", whole or "5", f"{whole or 6}.", *(
        f"{whole}.{draw.randrange(10**places):0{places}}" for places in (1, 1, 2, 3, 9))])
    sign = "-" if negative and draw.random() < 0.5 else draw.choice(["", "", "", "+"])
    return (sign + size).encode()


def spelled(draw, fields):
    """A line of these fields, with blanks between them and around them."""
    def blanks(least):
        return b"".join(draw.choice([b" ", b"\t"]) for _ in range(draw.choice([least, least, least + 2])))

    return blanks(0) + b"".join((blanks(1) if at else b"") + field for at, field in enumerate(fields)) + blanks(0)


def joined(draw, lines, comments):
    """A text of these lines, with others between them that are skipped, and ends of both kinds."""
    skipped = [b"", b" \t", *(draw.choice([b"", b" ", b"\t"]) + mark + draw.choice([b"", b" note", b"x\xff\xfe 1 2 3 4"]) for mark in comments)]
    ends = draw.choice([[b"\n"], [b"\r\n"], [b"\n", b"\r\n"]])
    most = draw.choice([0, 0, 1])
    text = b""
    for line in lines:
        text += b"".join(draw.choice(skipped) + draw.choice(ends) for _ in range(draw.randrange(most + 1)))
        text += line + draw.choice(ends)
    return text.rstrip(b"\r\n") if draw.random() < 0.2 else text


def random_edges(draw, n, negative):
    """The lines of an edge list of at most n names: loops, repeated lines in both orders and lone names are among them."""
    names = draw.sample(NAMES, n)
    lines = []
    for _ in range(draw.randrange(3 * n + 1) if n else 0):
        fields = [draw.choice(names) for _ in range(draw.choice([1, 2, 2, 2, 2, 2, 2]))]
        if len(fields) == 2 and draw.random() < 0.7:
            fields.append(random_weight(draw, negative))
        lines.append(spelled(draw, fields))
        if len(fields) > 1 and draw.random() < 0.2:
            lines.append(spelled(draw, [fields[1], fields[0], *fields[2:]]))
    draw.shuffle(lines)
    return joined(draw, lines, (b"#", b"%"))


def random_pace(draw, n):
    """The text of a random graph."""
    edges = [(u, v) for u in range(1, n + 1) for v in range(1, u) if draw.random() < 0.5]
    draw.shuffle(edges)
    lines = [b"p cep %d %d" % (n, len(edges)), *(b"%d %d" % tuple(draw.sample(edge, 2)) for edge in edges)]
    return joined(draw, [spelled(draw, line.split(b" ")) for line in lines], (b"c",))


def random_file(draw, objective, most):
    """A text of at most so many vertices and the options of its objective."""
    chosen = draw.choice(CHOICES[objective])
    n = draw.randrange(most + 1)
    if objective == "edits":
        return random_pace(draw, n), chosen
    cut = draw.choice([[], [], ["--places", str(draw.choice([0, 1, 2, 9]))], ["--places", "0" + str(draw.randrange(10))]])
    return random_edges(draw, n, objective == "agreement" or draw.random() < 0.1), chosen + cut


def mutated(draw, text, pieces, words):
    """A copy with a change of a byte, for one of the pieces, of a field, for one of the words, or of a line."""
    kind = draw.randrange(8)
    if kind < 2 and text:
        at = draw.randrange(len(text))
        return text[:at] + draw.choice([b"", *pieces]) + text[at + draw.randrange(2):]
    lines = text.split(b"\n")
    at = draw.randrange(len(lines))
    if kind < 5:
        fields = lines[at].split(b" ")
        place = draw.randrange(len(fields))
        fields[place:place + draw.randrange(2)] = [draw.choice(words)]
        lines[at] = b" ".join(fields)
    elif kind == 5:
        del lines[at]
    elif kind == 6:
        lines.insert(draw.randrange(len(lines) + 1), draw.choice([lines[at], b" ".join(reversed(lines[at].split()))]))
    else:
        other = draw.randrange(len(lines))
        lines[at], lines[other] = lines[other], lines[at]
    return b"\n".join(lines)


def with_line(draw, text, line):
    """A copy with one more line somewhere."""
    lines = text.split(b"\n")
    lines.insert(draw.randrange(len(lines)), line)
    return b"\n".join(lines)
