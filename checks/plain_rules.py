"""A reader of rules files, and which partitions obey them, in plain Python by what the format says alone.

A file gives the pairs of vertices that are required to share a block and those that are forbidden to, or the first line that
is refused. Chains of required pairs are followed by spreading the least vertex along them until nothing changes.
"""

from itertools import combinations, combinations_with_replacement

from plain_graphs import DIGITS, kept_lines

# How many fields stand behind each word.
WORDS = {b"together": 2, b"apart": 2, b"attribute": 3, b"share": 1, b"differ": 1, b"same": 1}
CAUSES = ("BadRule", "UnknownVertex", "AttributeTwice")


class BadRules(Exception):
    """Why a rules file is refused, at which line, and the line on err."""

    def __init__(self, cause, line):
        super().__init__(cause, line)
        self.cause, self.line = cause, line
        self.err = f"clu: rules {cause} line {line}\n".encode()


class Rules:
    """The required and the forbidden pairs of n vertices: the smaller vertex first, and the two may be one."""

    def __init__(self, n, required=(), forbidden=()):
        self.n, self.required, self.forbidden = n, set(required), set(forbidden)
        self.groups = self.chained()
        self.parted = {frozenset((self.groups[u], self.groups[v])) for u, v in self.forbidden}

    def chained(self):
        """The least vertex that each vertex is tied to."""
        least, before = list(range(self.n)), None
        while least != before:
            before = list(least)
            for u, v in self.required:
                least[u] = least[v] = min(least[u], least[v])
        return least

    def is_tied(self, u, v):
        return self.groups[u] == self.groups[v]

    def sets(self, members):
        """These vertices in the sets that chains tie, none of which they divide."""
        return [frozenset(v for v in members if self.groups[v] == least) for least in members if self.groups[least] == least]

    def is_apart(self, u, v):
        """Whether the sets that two vertices are tied to are forbidden to share a block."""
        return frozenset((self.groups[u], self.groups[v])) in self.parted

    def contradiction(self):
        """The least pair that is forbidden and tied, or None."""
        return next((pair for pair in combinations_with_replacement(range(self.n), 2)
                     if pair in self.forbidden and self.is_tied(*pair)), None)

    def obeys(self, labels):
        """Whether a partition keeps each single rule."""
        return (all(labels[u] == labels[v] for u, v in self.required)
                and all(labels[u] != labels[v] for u, v in self.forbidden))

    def broken(self, labels):
        """The least pair that is tied but divided, or whose sets are apart but that is joined; or None."""
        return next(((u, v) for u, v in combinations(range(self.n), 2)
                     if (self.is_apart(u, v) if labels[u] == labels[v] else self.is_tied(u, v))), None)


# ---- the text
def numbered(n):
    """What finds the vertex of a number from 1, or None."""
    def find(field):
        digits = field.lstrip(b"0")
        if not DIGITS.fullmatch(field) or not digits or len(digits) > 4 or int(digits) > n:
            return None
        return int(digits) - 1
    return find


def finder_of(problem):
    """What finds the vertex of a name of the problem's graph, or None."""
    if problem.objective == "edits":
        return numbered(problem.n)
    return {name: v for v, name in enumerate(problem.names)}.get


def read_lines(text, find):
    """The lines that are no attributes, each its word and vertices or key, and the values by key and vertex."""
    lines, values = [], {}
    for number, _, (word, *fields) in kept_lines(text, (b"#",)):
        if WORDS.get(word) != len(fields):
            raise BadRules("BadRule", number)
        named = {b"together": 2, b"apart": 2, b"attribute": 1}.get(word, 0)
        vertices = [find(name) for name in fields[:named]]
        if None in vertices:
            raise BadRules("UnknownVertex", number)
        if word == b"attribute":
            under = values.setdefault(fields[1], {})
            if vertices[0] in under:
                raise BadRules("AttributeTwice", number)
            under[vertices[0]] = fields[2]
        else:
            lines.append((word, vertices or fields))
    return lines, values


def pairs_by(values, is_equal):
    """The pairs of vertices whose values are equal, or the pairs of those whose values differ."""
    return {pair for pair in combinations(sorted(values), 2) if (values[pair[0]] == values[pair[1]]) == is_equal}


def read_rules(text, problem):
    """The rules of a file for the vertices of a problem, or its refusal as `BadRules`."""
    required, forbidden = set(), set()
    lines, values = read_lines(text, finder_of(problem))
    for word, fields in lines:
        if word in (b"together", b"apart"):
            pairs = {(min(fields), max(fields))}
        else:
            pairs = pairs_by(values.get(fields[0], {}), word != b"same")
        (required if word in (b"together", b"share") else forbidden).update(pairs)
    return Rules(problem.n, required, forbidden)
