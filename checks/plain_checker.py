#!/usr/bin/env python3
"""A checker of certificates for cluster editing, agreement and modularity, in plain Python by `docs/FORMATS.md` alone.

usage: checks/plain_checker.py GRAPH CERTIFICATE [--format pace|edges] [--objective edits|agreement|modularity] [--places K] [--rules FILE]

It sums over sets of vertices by the conditions themselves and shares nothing with the program, so it is slow, and
`checks/certificates`, `checks/networks` and `checks/rules` compare the program's answers with its own. Called by itself it
prints what `clu check` is to print for these files and good words, and ends with its status. `plain_graphs.py` beside it reads
the graph, and `plain_rules.py` the rules.
"""

import re
import sys
from itertools import combinations

sys.dont_write_bytecode = True
from plain_graphs import Refused, problem_of
from plain_rules import BadRules, Rules, read_rules

CAPPED = 2**88
WHOLE = re.compile(rb"0|-?[1-9][0-9]*")
NATURAL = re.compile(rb"0|[1-9][0-9]*")
KINDS = (b"twin", b"pair", b"heavy", b"light")


# Each answer of `check` with its causes, as the checker below names them.
CAUSES = {
    "accepted": ("optimal", "gap", "a capped bound"),
    "certificate": ("a bad line", "a missing line", "a line behind the end"),
    "rejected 1": ("the objective", "the number of labels"),
    "rejected 2": ("the labels' order",),
    "rejected 3": ("a tied pair in two blocks", "a pair in one block that is apart"),
    "rejected 4": ("the value",),
    "rejected 5": ("a step", "a branch", "a reduction in a part"),
    "rejected 6": ("a part that doesn't rise", "a vertex past the last", "a vertex of an earlier part", "a divided group",
                   "a pair that leaves", "a vertex in no part"),
    "rejected 7": ("the denominator 0", "a large denominator", "the multiplier 0", "a vertex of no member", "a group twice",
                   "large multipliers"),
    "rejected 8": ("an item left over", "an open subtree"),
    "rejected 9": ("the bound", "the capped bound"),
}


class BadText(Exception):
    """The line that no text has there, and the cause."""

    def __init__(self, line, cause):
        super().__init__(line, cause)
        self.line, self.cause = line, cause


class Rejected(Exception):
    """The words behind `rejected`, and the cause."""

    def __init__(self, words, cause):
        super().__init__(words, cause)
        self.words, self.cause = words, cause


# ---- the text
def natural(field, low, high):
    if not NATURAL.fullmatch(field) or len(field) > 40 or not low <= int(field) <= high:
        raise ValueError
    return int(field)


def whole(field):
    if not WHOLE.fullmatch(field) or len(field) > 45 or abs(int(field)) > 2**126:
        raise ValueError
    return int(field)


def places(fields):
    return [natural(field, 1, 1000) - 1 for field in fields]


def fields_of(line, word, count=None):
    fields = line.split(b" ")
    if fields[0] != word or count is not None and len(fields) != count:
        raise ValueError
    return fields[1:]


def counted(line, word, most=2**64 - 1):
    return natural(fields_of(line, word, 2)[0], 0, most)


def pair_of(fields):
    u, v = places(fields)
    return u, v


def row_of(line):
    fields = fields_of(line, b"row")
    y, rest = natural(fields[0], 0, 2**128 - 1), fields[1:]
    slash = rest.index(b"/")
    s, t = places(rest[:slash]), places(rest[slash + 1:])
    if not s or not t:
        raise ValueError
    return y, s, t


def step_of(line):
    fields = line.split(b" ")
    if fields[0] not in KINDS or len(fields) != 3:
        raise ValueError
    return (fields[0], *pair_of(fields[1:]))


def read_text(text):
    """The certificate of a text. It is read a line at a time, and a line that can't stand there is named."""
    *lines, rest = text.split(b"\n")
    number = 0

    def next_line(read):
        nonlocal number
        number += 1
        if number > len(lines):
            raise BadText(number, "a missing line")
        try:
            return read(lines[number - 1])
        except (ValueError, IndexError):
            raise BadText(number, "a bad line") from None

    def constant(want):
        def read(line):
            if line != want:
                raise ValueError
        return read

    def labels(count):
        def read(line):
            found = places(fields_of(line, b"blocks"))
            if len(found) != count:
                raise ValueError
            return found
        return read

    def objective(line):
        word = fields_of(line, b"objective", 2)[0]
        if word not in (b"edits", b"agreement", b"modularity"):
            raise ValueError
        return word

    def part(line):
        found = places(fields_of(line, b"part"))
        if not found:
            raise ValueError
        return found

    def item(line):
        word = line.split(b" ")[0]
        if word == b"branch":
            return ("branch", *pair_of(fields_of(line, b"branch", 3)))
        if word == b"leaf":
            den, rows = fields_of(line, b"leaf", 3)
            return ["leaf", natural(den, 0, 2**64 - 1), natural(rows, 0, 2**64 - 1)]
        return ("reduce", *step_of(line))

    next_line(constant(b"clucert 1"))
    cert = {"objective": next_line(objective).decode()}
    n = next_line(lambda line: counted(line, b"vertices", 1000))
    cert["value"] = next_line(lambda line: whole(fields_of(line, b"value", 2)[0]))
    cert["bound"] = next_line(lambda line: whole(fields_of(line, b"bound", 2)[0]))
    cert["labels"] = next_line(labels(n))
    cert["steps"] = []
    left = next_line(lambda line: counted(line, b"steps"))
    while left > 0:
        cert["steps"].append(next_line(step_of))
        left -= 1
    cert["proofs"] = []
    parts = next_line(lambda line: counted(line, b"parts"))
    while parts > 0:
        vertices, items = next_line(part), []
        left = next_line(lambda line: counted(line, b"items"))
        while left > 0:
            found = next_line(item)
            if found[0] == "leaf":
                rows, found[2] = found[2], []
                while rows > 0:
                    found[2].append(next_line(row_of))
                    rows -= 1
            items.append(found)
            left -= 1
        cert["proofs"].append((vertices, items))
        parts -= 1
    next_line(constant(b"end"))
    if number < len(lines) or rest:
        raise BadText(number + 1, "a line behind the end")
    return cert


# ---- the check
class State:
    """Groups of some vertices, as a list of sets, and pairs whose groups are apart: those of the rules, before any decision."""

    def __init__(self, weight, rules, members, groups=None, apart=None):
        self.weight, self.rules, self.members = weight, rules, members
        self.groups = rules.sets(members) if groups is None else groups
        self.apart = rules.forbidden if apart is None else apart

    def group(self, v):
        return next(group for group in self.groups if v in group)

    def between(self, one, two):
        return sum(self.weight(u, v) for u in one for v in two)

    def is_apart(self, one, two):
        return any(u in one and v in two or u in two and v in one for u, v in self.apart)

    def is_free(self, u, v):
        if u not in self.members or v not in self.members:
            return False
        one, two = self.group(u), self.group(v)
        return one != two and not self.is_apart(one, two)

    def together(self, u, v):
        one, two = self.group(u), self.group(v)
        groups = [group for group in self.groups if group not in (one, two)] + [one | two]
        return State(self.weight, self.rules, self.members, groups, self.apart)

    def kept_apart(self, u, v):
        return State(self.weight, self.rules, self.members, self.groups, self.apart | {(u, v)})

    def gain(self, one, other):
        """What a group could gain by sharing a block with another: nothing where they are apart."""
        return 0 if self.is_apart(one, other) else max(0, self.between(one, other))

    def are_twins(self, one, two, others):
        return self.between(one, two) >= 0 and all(
            self.is_apart(two, other) if self.is_apart(one, other)
            else not self.is_apart(two, other) and self.between(one, other) == self.between(two, other)
            for other in others)

    def is_heavy(self, one, two, others):
        if any(self.is_apart(one, other) and not self.is_apart(two, other) for other in others):
            return False
        stake = sum(abs(self.between(one, other)) for other in others if not self.is_apart(one, other))
        return self.between(one, two) >= stake

    def holds(self, kind, u, v):
        """Whether a reduction holds. A light one need not be of use."""
        if not self.is_free(u, v):
            return False
        one, two = self.group(u), self.group(v)
        weight, others = self.between(one, two), [group for group in self.groups if group not in (one, two)]
        if kind == b"twin":
            return self.are_twins(one, two, others)
        if kind == b"pair":
            return weight >= sum(self.gain(one, other) + self.gain(two, other) for other in others)
        if kind == b"heavy":
            return self.is_heavy(one, two, others)
        return weight < 0 and -weight >= sum(self.gain(one, other) for other in others)

    def reduced(self, kind, u, v):
        return self.kept_apart(u, v) if kind == b"light" else self.together(u, v)

    def within(self, part, steps):
        """The state of a part, with the steps on two of its vertices."""
        state = State(self.weight, self.rules, part)
        for kind, u, v in steps:
            if u in part and v in part:
                state = state.reduced(kind, u, v)
        return state

    def divides(self, part):
        return any(group & part and not group <= part for group in self.groups)

    def leaves(self, part):
        """Whether a group inside could gain by sharing a block with one outside."""
        outside = [group for group in self.groups if not group & part]
        return any(self.gain(one, two) for one in self.groups if one <= part for two in outside)

    def leaf_fault(self, den, rows):
        """Why a leaf has no bound, or None where it has one."""
        if not 1 <= den <= 2**32:
            return "the denominator 0" if den == 0 else "a large denominator"
        spent = 0
        for y, s, t in rows:
            if y == 0:
                return "the multiplier 0"
            if any(v not in self.members for v in s + t):
                return "a vertex of no member"
            if len({self.group(v) for v in s + t}) < len(s + t):
                return "a group twice"
            spent += y * len(s + t) ** 2
            if spent > 2**120:
                return "large multipliers"
        return None

    def leaf_bound(self, den, rows):
        """The bound of a leaf without a fault."""
        inside = sum(self.weight(u, v) for group in self.groups for u, v in combinations(sorted(group), 2))
        right = sum(y * min(len(s), len(t)) for y, s, t in rows)
        left = 0
        for one, two in combinations(self.groups, 2):
            if self.is_apart(one, two):
                continue
            price = 0
            for y, s, t in rows:
                one_s, one_t = any(v in one for v in s), any(v in one for v in t)
                two_s, two_t = any(v in two for v in s), any(v in two for v in t)
                if one_s and two_t or one_t and two_s:
                    price += y
                elif one_s and two_s or one_t and two_t:
                    price -= y
            left += max(0, den * self.between(one, two) - price)
        return inside + (right + left) // den


def upper_of(state, items, earlier, part):
    """The greatest bound of a leaf of the tree; `earlier` is the number of items before these."""
    waiting, bounds = [state], []
    for number, item in enumerate(items, earlier + 1):
        if not waiting:
            raise Rejected(f"8 part {part}", "an item left over")
        here = waiting.pop()
        if item[0] == "leaf":
            fault = here.leaf_fault(item[1], item[2])
            if fault is not None:
                raise Rejected(f"7 item {number}", fault)
            bounds.append(here.leaf_bound(item[1], item[2]))
        elif item[0] == "reduce" and here.holds(*item[1:]):
            waiting.append(here.reduced(*item[1:]))
        elif item[0] == "branch" and here.is_free(item[1], item[2]):
            waiting += [here.kept_apart(item[1], item[2]), here.together(item[1], item[2])]
        else:
            raise Rejected(f"5 item {number}", "a branch" if item[0] == "branch" else "a reduction in a part")
    if waiting:
        raise Rejected(f"8 part {part}", "an open subtree")
    return max(bounds)


def whole_state(problem, rules):
    """The state of all vertices before any decision."""
    return State(problem.weight, rules, list(range(problem.n)))


def check_steps(cert, problem, rules):
    """The state after the root steps."""
    state = whole_state(problem, rules)
    for number, step in enumerate(cert["steps"], 1):
        if not state.holds(*step):
            raise Rejected(f"5 item {number}", "a step")
        state = state.reduced(*step)
    return state


def part_fault(part, n, seen, state):
    """Why a part can't stand behind those that were seen, or None where it can."""
    inside = set(part)
    faults = {"a part that doesn't rise": part != sorted(inside), "a vertex past the last": max(part) >= n,
              "a vertex of an earlier part": inside & seen, "a divided group": state.divides(inside),
              "a pair that leaves": state.leaves(inside)}
    return next((fault for fault, holds in faults.items() if holds), None)


def check_parts(cert, n, state):
    seen = set()
    for number, (part, _) in enumerate(cert["proofs"], 1):
        fault = part_fault(part, n, seen, state)
        if fault is not None:
            raise Rejected(f"6 part {number}", fault)
        seen |= set(part)
    if len(seen) < n:
        raise Rejected(f"6 part {len(cert['proofs']) + 1}", "a vertex in no part")


def proved_upper(cert, state):
    """What the items of all parts prove of the weight inside blocks, before the cap."""
    total, earlier = 0, len(cert["steps"])
    for number, (part, items) in enumerate(cert["proofs"], 1):
        total += upper_of(state.within(part, cert["steps"]), items, earlier, number)
        earlier += len(items)
    return total


def proved_bound(cert, problem, state):
    """The printed number that the items prove."""
    return problem.printed(min(proved_upper(cert, state), CAPPED))


def check_labels(problem, cert, rules):
    """The conditions on the partition and its value."""
    labels = cert["labels"]
    if cert["objective"] != problem.objective:
        raise Rejected("1", "the objective")
    if len(labels) != problem.n:
        raise Rejected("1", "the number of labels")
    new = 0
    for label in labels:
        if label > new:
            raise Rejected("2", "the labels' order")
        new = max(new, label + 1)
    pair = rules.broken(labels)
    if pair is not None:
        is_joined = labels[pair[0]] == labels[pair[1]]
        raise Rejected(f"3 {problem.named(pair)}", CAUSES["rejected 3"][is_joined])
    found = problem.value_of(labels)
    if found != cert["value"]:
        raise Rejected(f"4 {found}", "the value")


def check_cert(problem, cert, rules):
    """What is wrong first with a certificate for a problem with rules that don't contradict, as `Rejected`."""
    check_labels(problem, cert, rules)
    state = check_steps(cert, problem, rules)
    check_parts(cert, problem.n, state)
    upper = proved_upper(cert, state)
    best, is_capped = problem.printed(min(upper, CAPPED)), upper >= CAPPED
    if problem.is_better(best, cert["bound"]):
        raise Rejected(f"9 {best}", "the capped bound" if is_capped else "the bound")
    return "a capped bound" if is_capped else "optimal" if cert["value"] == cert["bound"] else "gap"


def expected(problem, text, rules=None):
    """What `check` is to answer: the status, out and err; and the answer's name with its cause. The rules don't contradict."""
    try:
        cert = read_text(text)
        cause = check_cert(problem, cert, Rules(problem.n) if rules is None else rules)
    except BadText as error:
        return (3, b"", b"clu: certificate line %d\n" % error.line), ("certificate", error.cause)
    except Rejected as error:
        answer = f"rejected {error.words.split(' ')[0]}"
        return (3, b"", f"clu: rejected {error.words}\n".encode()), (answer, error.cause)
    verdict = "optimal" if cert["value"] == cert["bound"] else "gap"
    lines = ["accepted", f"objective {problem.objective}", f"vertices {problem.n}", f"value {cert['value']}",
             f"bound {cert['bound']}", f"scale {problem.scale}", f"verdict {verdict}"]
    return (0, "".join(line + "\n" for line in lines).encode(), b""), ("accepted", cause)


def answer(graph, certificate, words, rules=b""):
    """The status, out and err for the bytes of these files and good options. No rules are an empty file of them."""
    try:
        problem = problem_of(graph, *words)
        read = read_rules(rules, problem)
    except (Refused, BadRules) as error:
        return 4, b"", error.err
    pair = read.contradiction()
    if pair is not None:
        return 5, b"", f"clu: contradiction {problem.named(pair)}\n".encode()
    return expected(problem, certificate, read)[0]


def load(name):
    with open(name, "rb") as file:
        return file.read()


def main():
    if len(sys.argv) < 3 or len(sys.argv) % 2 == 0:
        print(__doc__, file=sys.stderr)
        return 6
    options = sys.argv[3:]
    rules = load(options[options.index("--rules") + 1]) if "--rules" in options else b""
    status, out, err = answer(load(sys.argv[1]), load(sys.argv[2]), options, rules)
    sys.stdout.buffer.write(out)
    sys.stderr.buffer.write(err)
    return status


if __name__ == "__main__":
    sys.exit(main())
