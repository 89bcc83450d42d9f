"""Readers of graph files, and what the partitions of their vertices are worth, in plain Python by `docs/FORMATS.md` alone.

A file gives a problem, or the first refusal with its text. A partition's objective is summed straight from the lines of the
file, once in whole units and once in exact fractions of the user's unit. The weights of pairs, with which a certificate
proves its bound, are made apart from these, so that `checks/networks` can compare them.
"""

import re
from collections import defaultdict
from fractions import Fraction
from functools import lru_cache
from itertools import combinations

MOST_VERTICES = 1000
MOST_LINES = 1_000_000
MOST_MODULARITY = 2**43
MOST_AGREEMENT = 2**88
DIGITS = re.compile(rb"[0-9]+")
DECIMAL = re.compile(rb"([+-]?)([0-9]*)(?:\.([0-9]*))?")

# Why a file is refused, by who refuses it.
REFUSALS = {
    "pace": ("NoHeader", "BadHeader", "TooManyVertices", "BadLine", "VertexOut", "Loop", "Repeated", "EdgeCount"),
    "edges": ("TooManyLines", "NotText", "TooManyFields", "BadWeight", "TooManyVertices"),
    "objective": ("NegativeWeight", "NoWeight", "TotalWeight"),
}


class Refused(Exception):
    """Who refuses a file and why, and the line on err."""

    def __init__(self, reader, cause, *numbers, line=None):
        super().__init__(reader, cause, numbers, line)
        self.cause = reader, cause
        place = () if line is None else ("line", line)
        self.err = (" ".join(map(str, ("clu: graph", cause, *place, *numbers))) + "\n").encode()


# ---- lines and numbers
def lines_of(text):
    """The lines and their numbers. Behind the last line feed there is no line, and a carriage return at a line's end goes."""
    pieces = text.split(b"\n")
    if not pieces[-1]:
        pieces.pop()
    return enumerate((piece.removesuffix(b"\r") for piece in pieces), 1)


def fields_of(line):
    return [field for field in line.replace(b"\t", b" ").split(b" ") if field]


def kept_lines(text, comments):
    """The lines that aren't skipped: each with its number, its bytes and its fields."""
    for number, line in lines_of(text):
        fields = fields_of(line)
        if fields and fields[0][:1] not in comments:
            yield number, line, fields


def read_u32(field):
    """The number of a field of digits that is below 2^32, or None."""
    digits = field.lstrip(b"0") or b"0"
    if not DIGITS.fullmatch(field) or len(digits) > 10 or int(digits) >= 2**32:
        return None
    return int(digits)


def read_decimal(field, cut=None):
    """The weight of a field and how many places it has, or None."""
    form = DECIMAL.fullmatch(field)
    if not form:
        return None
    sign, whole, places = form[1], form[2], form[3] or b""
    if not whole + places or len(whole.lstrip(b"0")) > 18 or cut is None and len(places) > 9:
        return None
    if cut is not None:
        places = places[:cut]
    size = Fraction(int((whole + places).lstrip(b"0") or b"0"), 10 ** len(places))
    return -size if sign == b"-" else size, len(places)


# ---- the two formats
def read_header(kept):
    """The numbers of vertices and edges that the first kept line states."""
    number, _, fields = next(kept, (0, b"", [b""]))
    if fields[0] != b"p":
        raise Refused("pace", "NoHeader")
    stated = [read_u32(field) for field in fields[2:]]
    if fields[1:2] != [b"cep"] or len(stated) != 2 or None in stated:
        raise Refused("pace", "BadHeader", line=number)
    if stated[0] > MOST_VERTICES:
        raise Refused("pace", "TooManyVertices", line=number)
    return stated


def read_pace(text):
    """The number of vertices and the edges, which are pairs of numbers from 0 with the smaller first."""
    kept = kept_lines(text, (b"c",))
    n, stated = read_header(kept)
    edges = {}
    for number, _, fields in kept:
        ends = [read_u32(field) for field in fields]
        if len(ends) != 2 or None in ends:
            raise Refused("pace", "BadLine", line=number)
        if not all(1 <= end <= n for end in ends):
            raise Refused("pace", "VertexOut", line=number)
        if ends[0] == ends[1]:
            raise Refused("pace", "Loop", line=number)
        edge = min(ends) - 1, max(ends) - 1
        if edge in edges:
            raise Refused("pace", "Repeated", line=number)
        edges[edge] = None
    if len(edges) != stated:
        raise Refused("pace", "EdgeCount", stated, len(edges))
    return n, list(edges)


class Network:
    """Names, the largest number of places, and lines: each its number, its two ends and its weight in the user's unit."""

    def __init__(self, names, places, lines):
        self.names, self.places, self.lines = names, places, lines
        self.unit = 10**places

    def units(self):
        """The two ends of each line and its weight in units of the last place."""
        return [(u, v, int(weight * self.unit)) for _, u, v, weight in self.lines]


def is_text(line):
    try:
        line.decode()
    except UnicodeDecodeError:
        return False
    return True


def read_network(text, cut=None):
    """The network of an edge list, whose weights are cut behind so many places, where a number is given."""
    names, joined, most = {}, [], 0
    for number, line in lines_of(text):
        if number > MOST_LINES:
            raise Refused("edges", "TooManyLines")
        fields = fields_of(line)
        if not fields or fields[0][:1] in (b"#", b"%"):
            continue
        if not is_text(line):
            raise Refused("edges", "NotText", line=number)
        if len(fields) > 3:
            raise Refused("edges", "TooManyFields", line=number)
        weight = read_decimal(fields[2], cut) if len(fields) == 3 else (Fraction(1), 0)
        if weight is None:
            raise Refused("edges", "BadWeight", line=number)
        ends = [names.setdefault(name, len(names)) for name in fields[:2]]
        if len(names) > MOST_VERTICES:
            raise Refused("edges", "TooManyVertices", line=number)
        if len(ends) == 2:
            joined.append((number, *ends, weight[0]))
            most = max(most, weight[1])
    return Network(list(names), most, joined)


# ---- the objectives
class Problem:
    """What the partitions of a file's vertices are worth.

    `value_of` sums the lines in whole units, and `exact_of` in fractions of the user's unit; `weight`, `base` and `factor`
    give the same number by pairs: base + factor times the weights inside blocks.
    """

    def __init__(self, objective, names, scale, sums, pairs):
        self.objective, self.names, self.n, self.scale = objective, names, len(names), scale
        self.value_of, self.exact_of = sums
        self.base, self.factor, self.weights = pairs

    def weight(self, u, v):
        return self.weights.get((min(u, v), max(u, v)), 0)

    def named(self, vertices):
        return " ".join(self.names[v].decode() for v in vertices)

    def printed(self, inside):
        return self.base + self.factor * inside

    def is_better(self, one, two):
        return one < two if self.objective == "edits" else one > two


def of_graph(n, edges):
    """The number of edits: fewer are better."""
    edge_set = set(edges)
    pairs = list(combinations(range(n), 2))

    def edits_of(labels):
        return sum((pair in edge_set) != (labels[pair[0]] == labels[pair[1]]) for pair in pairs)

    weights = {pair: 1 if pair in edge_set else -1 for pair in pairs}
    names = [b"%d" % v for v in range(1, n + 1)]
    return Problem("edits", names, 1, (edits_of, edits_of), (len(edges), -1, weights))


def of_agreement(network):
    """Positive pairs inside blocks and negative pairs between them, where a pair has the sum of its lines."""
    lines = network.units()
    total = sum(abs(weight) for *_, weight in lines)
    if total > MOST_AGREEMENT:
        raise Refused("objective", "TotalWeight", total)
    weights = defaultdict(int)
    for u, v, weight in lines:
        if u != v:
            weights[min(u, v), max(u, v)] += weight

    def agreement_of(labels):
        return sum(abs(weight) for (u, v), weight in weights.items() if (weight > 0) == (labels[u] == labels[v]))

    def exact_of(labels):
        sums = defaultdict(Fraction)
        for _, u, v, weight in network.lines:
            sums[frozenset((u, v))] += weight
        pairs = [(sorted(ends), weight) for ends, weight in sums.items() if len(ends) == 2]
        friends = sum(max(weight, 0) for (u, v), weight in pairs if labels[u] == labels[v])
        return friends + sum(max(-weight, 0) for (u, v), weight in pairs if labels[u] != labels[v])

    foes = sum(-weight for weight in weights.values() if weight < 0)
    return Problem("agreement", network.names, network.unit, (agreement_of, exact_of), (foes, 1, dict(weights)))


def degrees_of(network):
    """The weight of each vertex's lines, loops counted twice."""
    degrees = [0] * len(network.names)
    for u, v, weight in network.units():
        degrees[u] += weight
        degrees[v] += weight
    return degrees


def of_modularity(network):
    """Modularity in units of the squared double weight: over all blocks 4W in - vol^2, with loops once inside and twice in vol."""
    lines = network.units()
    for number, *_, weight in network.lines:
        if weight < 0:
            raise Refused("objective", "NegativeWeight", line=number)
    whole = sum(weight for *_, weight in lines)
    if whole == 0:
        raise Refused("objective", "NoWeight")
    if whole > MOST_MODULARITY:
        raise Refused("objective", "TotalWeight", whole)

    def modularity_of(labels):
        inside, volumes = 0, defaultdict(int)
        for u, v, weight in lines:
            inside += weight if labels[u] == labels[v] else 0
            volumes[labels[u]] += weight
            volumes[labels[v]] += weight
        return 4 * whole * inside - sum(volume * volume for volume in volumes.values())

    def exact_of(labels):
        all_weight, found = sum(weight for *_, weight in network.lines), Fraction(0)
        for block in set(labels):
            inside = sum(weight for _, u, v, weight in network.lines if labels[u] == labels[v] == block)
            volume = sum(weight * ((labels[u] == block) + (labels[v] == block)) for _, u, v, weight in network.lines)
            found += inside / all_weight - (volume / (2 * all_weight)) ** 2
        return found

    degrees = degrees_of(network)
    weights = {(u, v): -degrees[u] * degrees[v] for u, v in combinations(range(len(degrees)), 2)}
    base = -sum(degree * degree for degree in degrees)
    for u, v, weight in lines:
        if u == v:
            base += 4 * whole * weight
        else:
            weights[min(u, v), max(u, v)] += 2 * whole * weight
    return Problem("modularity", network.names, 4 * whole * whole, (modularity_of, exact_of), (base, 2, weights))


# ---- files and words
def read_options(words):
    """The format, the objective and the number of places that options choose."""
    options = dict(zip(words[::2], words[1::2]))
    objective = options.get("--objective")
    form = options.get("--format", "pace" if objective in (None, "edits") else "edges")
    if objective is None:
        objective = "edits" if form == "pace" else "modularity"
    cut = options.get("--places")
    return form, objective, None if cut is None else int(cut)


def problem_of(text, *words):
    """The problem of a file with these options, which must be good ones, or its refusal as `Refused`."""
    form, objective, cut = read_options(words)
    if form == "pace":
        return of_graph(*read_pace(text))
    network = read_network(text, cut)
    return of_agreement(network) if objective == "agreement" else of_modularity(network)


# ---- optima
@lru_cache(maxsize=None)
def partitions(n):
    """All partitions of so many vertices, each as its labels by first appearance."""
    found = [()]
    for _ in range(n):
        found = [(*labels, label) for labels in found for label in range(max(labels, default=-1) + 2)]
    return found


def best_of_partitions(problem):
    """The best objective, summed from the lines for each partition."""
    pick = min if problem.objective == "edits" else max
    return pick(problem.value_of(labels) for labels in partitions(problem.n))


def best_of_sets(problem):
    """The best objective by pair weights: over all sets, the best block of the set's least vertex beside the best of what is left."""
    n = problem.n
    inside = [0] * (1 << n)
    for block in range(1, 1 << n):
        low = (block & -block).bit_length() - 1
        rest = block & block - 1
        inside[block] = inside[rest] + sum(problem.weight(low, v) for v in range(low + 1, n) if rest >> v & 1)
    most = [0] * (1 << n)
    for vertices in range(1, 1 << n):
        low = vertices & -vertices
        rest = others = vertices ^ low
        best = inside[vertices]
        while others:
            others = others - 1 & rest
            best = max(best, inside[low | others] + most[rest ^ others])
        most[vertices] = best
    return problem.printed(most[-1])
