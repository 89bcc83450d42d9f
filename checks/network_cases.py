"""Tables for `checks/networks`: small networks to be followed by hand, the limits of both formats, and words.

Every number here was calculated by hand or by the brute force of `plain_graphs.py`, and none by the program.
"""

import random

from plain_graphs import MOST_AGREEMENT, MOST_MODULARITY, Network, of_agreement, problem_of, read_network

AGREEMENT = ["--objective", "agreement"]
MODULARITY = ["--objective", "modularity"]
LONGEST = 67_108_864


# ---- small networks. Each has its text, options, scale, best value, and the blocks of a best partition.
#   Agreement: the positive pairs inside blocks and the negative pairs between them, each pair with the sum of its lines.
#   Modularity: W is the sum of all lines, and the value the sum over blocks of 4W in - vol^2, where in is the weight inside the block,
#   loops once, and vol the sum of the degrees, loops twice. The scale is 4W^2.
BY_HAND = [
    # W = 7; each block has in = 3 and vol = 7: 2 * (28 * 3 - 49)
    ("two triangles and a bridge", b"a b\na c\nb c\nc d\nd e\nd f\ne f\n", MODULARITY, 196, 70, [b"a b c", b"d e f"]),
    # W = 1, in = 1, vol = 2: 4 - 4
    ("a loop", b"a a\n", ["--format", "edges"], 4, 0, [b"a"]),
    # W = 3; apart each has in = 1 and vol = 3: 2 * (12 - 9). Together in = 3 and vol = 6: 36 - 36
    ("two loops and a line", b"a a\na b\nb b\n", MODULARITY, 36, 6, [b"a", b"b"]),
    # W = 3; together 36 - 36; with c apart (24 - 25) - 1
    ("a line in both orders", b"a b\nb a\nb c\n", MODULARITY, 36, 0, [b"a b c"]),
    # W = 5; each block has in = 2 and vol = 5: 2 * (40 - 25)
    ("a weighted path", b"a b 2\nb c 1\nc d 2\n", MODULARITY, 100, 30, [b"a b", b"c d"]),
    # with one place W = 20; each block has in = 10 and vol = 20: 2 * (800 - 400)
    ("places that are zeros", b"a b 1.0\nc d 1\n", MODULARITY, 1600, 800, [b"a b", b"c d"]),
    # W = 1; a and b together 4 - 4, and c has no line
    ("a vertex alone", b"a b\nc\n", MODULARITY, 4, 0, [b"a b", b"c"]),
    # W = 11 with one place: {a b} has in = 6 with the loop and vol = 13, c has in = 4 and vol = 9: (264 - 169) + (176 - 81)
    ("loops with decimals", b"a a .1\na b .5\nc c .4\nb c .1\n", MODULARITY, 484, 190, [b"a b", b"c"]),
    # in hundredths: a b 175, b c -100; all are had
    ("decimals of a repeated line", b"# sample\r\na\tb\t0.5\r\nb a 1.25\r\nb c -1\r\n", AGREEMENT, 100, 275, [b"a b", b"c"]),
    # one of the three lines to c, and all three between x, y and z
    ("a signed star", b"c x 2\nc y 2\nc z 2\nx y -2\nx z -2\ny z -2\n", AGREEMENT, 1, 8, [b"c x", b"y", b"z"]),
    # two of the five lines of the cycle, and all five chords
    ("a signed five-cycle", b"a b 2\nb c 2\nc d 2\nd e 2\ne a 2\na c -2\na d -2\nb d -2\nb e -2\nc e -2\n", AGREEMENT, 1, 14,
     [b"a b", b"c d", b"e"]),
    # a b has 3 - 2 = 1, and all three pairs are had; summed by lines it would be 3 + 1 + 1
    ("a pair of both signs", b"a b 3\nb a -2\nb c -1\na c -1\n", AGREEMENT, 1, 3, [b"a b", b"c"]),
    # a pair of sum 0 counts nowhere
    ("a pair of sum zero", b"a b 1\nb a -1\n", AGREEMENT, 1, 0, [b"a", b"b"]),
    # two of the three pairs
    ("a frustrated triangle", b"a b\nb c\na c -1\n", AGREEMENT, 1, 2, [b"a b c"]),
    # a loop counts nowhere, but its two places are the network's
    ("a loop of an agreement", b"a a -7.25\na b 1\n", AGREEMENT, 100, 100, [b"a b"]),
    # cut behind two places: a b 12, b c 0
    ("two places of more", b"a b 0.129\nb c -0.009\n", [*AGREEMENT, "--places", "2"], 100, 12, [b"a b", b"c"]),
    # cut at the point: a b -1, b c 1, a c 0
    ("no places", b"a b -1.9\nb c 1.9\na c .9\n", [*AGREEMENT, "--places", "0"], 1, 2, [b"a", b"b c"]),
    # fewer places than are allowed: one
    ("nine places of one", b"a b .5\n", [*AGREEMENT, "--places", "9"], 10, 5, [b"a b"]),
    # one edit
    ("a path of three", b"p cep 3 2\n1 2\n2 3\n", [], 1, 1, [b"1 2", b"3"]),
]


# ---- the limits. Each has its text, or what makes it, its options, and what comes: the status and the line on err, or the problem with its
# optimum. The optimum may be missing where no branchings are made.
def here(optimum):
    """The problem is what the reader here finds."""
    return lambda text, chosen: (problem_of(text, *chosen), optimum)


def like(text, optimum):
    """The problem is that of a shorter file."""
    return lambda _, chosen: (problem_of(text, *chosen), optimum)


def refused(line):
    return 4, b"clu: graph %s\n" % line.encode()


def repeated_block():
    """A thousand random lines over a hundred names, with three places and both signs."""
    draw = random.Random(5)
    lines = (f"v{draw.randrange(100)} v{draw.randrange(100)} {draw.choice(['', '-'])}{draw.randrange(10)}.{draw.randrange(1000):03}\n"
             for _ in range(1000))
    return "".join(lines).encode()


def thousandfold(_, chosen):
    """The problem of a block of lines that stands a thousand times."""
    block = read_network(repeated_block())
    lines = [(number, u, v, 1000 * weight) for number, u, v, weight in block.lines]
    return of_agreement(Network(block.names, block.places, lines)), None


def decimal(units):
    """The weight of so many units of the ninth place."""
    return b"%d.%09d" % divmod(units, 10**9)


def sum_of_a_million(total):
    """A million lines of one pair, whose sizes sum to so many units."""
    size = total // 1_000_000
    return (b"a b " + decimal(size) + b"\n") * 999_999 + b"b a " + decimal(total - 999_999 * size) + b"\n"


def names(count):
    return b"".join(b"v%d\n" % v for v in range(count))


def pairs_of_names(count):
    return b"".join(b"v%d v%d 1\n" % (v, v + 1) for v in range(0, count, 2))


UNWEIGHTED = ["--branchings", "0"]
MOST_PLAIN = b"%d" % MOST_MODULARITY
ALL_NINES = b"9" * 18 + b"." + b"9" * 9
LIMITS = [
    # lines
    ("a line of 64 KiB of blanks", b"a" + b" \t" * 32768 + b"b 3\n", AGREEMENT, like(b"a b 3\n", 3)),
    ("a name of 64 KiB", b"n" * 65536 + b" b 3\n", AGREEMENT, here(3)),
    ("a million lines", lambda: b"a b\n" * 1_000_000, AGREEMENT, like(b"a b 1000000\n", 1_000_000)),
    ("a million lines, the last without a line feed", lambda: b"a b\n" * 999_999 + b"a b", AGREEMENT, like(b"a b 1000000\n", 1_000_000)),
    ("a million lines of 100 names with decimals", lambda: repeated_block() * 1000, [*AGREEMENT, "--branchings", "0"], thousandfold),
    ("a million lines of modularity", lambda: b"a a .5\na b .5\nb b .5\nb a .5\n" * 250_000, MODULARITY,
     like(b"a a 125000.0\na b 250000\nb b 125000\n", 0)),
    ("a line more than a million", lambda: b"a b\n" * 1_000_001, AGREEMENT, refused("TooManyLines")),
    ("a line more without a line feed", lambda: b"a b\n" * 1_000_000 + b"a", MODULARITY, refused("TooManyLines")),
    ("a million skipped lines and one", lambda: b"\n#\n" * 500_000 + b"a b\n", AGREEMENT, refused("TooManyLines")),
    ("a million lines, skipped but the last", lambda: b"\r\n" * 999_999 + b"a b\n", AGREEMENT, like(b"a b\n", 1)),
    ("a fault on line 1,000,000", lambda: b"\n" * 999_999 + b"a b x\na b\n", AGREEMENT, refused("BadWeight line 1000000")),
    ("a fault on line 1,000,001", lambda: b"\n" * 1_000_000 + b"\xff 1 2 3\n", AGREEMENT, refused("TooManyLines")),
    ("names past the limit on line 1,000,001", lambda: names(1000) + b"%\n" * 999_000 + b"x\n", AGREEMENT, refused("TooManyLines")),
    # bytes
    ("64 MiB of one comment", lambda: b"#" + b"x" * (LONGEST - 1), AGREEMENT, like(b"", 0)),
    ("64 MiB of one name", lambda: b"n" * LONGEST, AGREEMENT, here(0)),
    ("64 MiB of blanks between two names", lambda: b"a" + b" " * (LONGEST - 2) + b"b", MODULARITY, like(b"a b", 0)),
    ("64 MiB of fields", lambda: b"a " * (LONGEST // 2), AGREEMENT, refused("TooManyFields line 1")),
    ("64 MiB of digits", lambda: b"a b " + b"1" * (LONGEST - 4), AGREEMENT, refused("BadWeight line 1")),
    ("64 MiB of leading zeros", lambda: b"a b " + b"0" * (LONGEST - 5) + b"7", AGREEMENT, like(b"a b 7", 7)),
    ("64 MiB of places", lambda: b"a b ." + b"1" * (LONGEST - 5), AGREEMENT, refused("BadWeight line 1")),
    ("64 MiB of places that are cut", lambda: b"a b ." + b"1" * (LONGEST - 5), [*AGREEMENT, "--places", "9"], like(b"a b .111111111", 111_111_111)),
    ("64 MiB of line feeds", lambda: b"\n" * LONGEST, MODULARITY, refused("TooManyLines")),
    ("64 MiB that aren't UTF-8 at the end", lambda: b"n" * (LONGEST - 1) + b"\xff", AGREEMENT, refused("NotText line 1")),
    ("a byte more than 64 MiB", lambda: b"#" + b"x" * LONGEST, AGREEMENT, (10, b"clu: too long\n")),
    ("a byte more of an edge list that is refused", lambda: b"a b x\n" + b"\n" * (LONGEST - 5), MODULARITY, (10, b"clu: too long\n")),
    # names
    ("1,000 names", names(1000), AGREEMENT, here(0)),
    ("1,000 names in 500 pairs", pairs_of_names(1000), [*AGREEMENT, *UNWEIGHTED], here(500)),
    ("1,000 names of modularity", pairs_of_names(1000), [*MODULARITY, *UNWEIGHTED], here(None)),
    ("1,001 names", names(1001), AGREEMENT, refused("TooManyVertices line 1001")),
    ("1,001 names, the last ones in a pair", pairs_of_names(1000) + b"x y\n", AGREEMENT, refused("TooManyVertices line 501")),
    ("1,001 names, the last one a second field", names(1000) + b"\nv7 x\n", MODULARITY, refused("TooManyVertices line 1002")),
    ("1,000 names and all again", names(1000) + names(1000), AGREEMENT, here(0)),
    ("a bad weight with the 1,001st name", names(1000) + b"x y z\n", AGREEMENT, refused("BadWeight line 1001")),
    ("names that differ in bytes alone", "\u00e4 a\u0308 3\n".encode(), AGREEMENT, here(3)),
    ("a byte order mark", b"\xef\xbb\xbfa a 1\n", AGREEMENT, here(1)),
    ("names like numbers and options", b"1 01 1\n--x -1 -2\n", AGREEMENT, here(3)),
    ("names like comments in the second field", b"a #b 2\na % -1\n", AGREEMENT, here(3)),
    ("a carriage return in a name", b"a\r b\r\r\n", AGREEMENT, here(1)),
    # which bytes are text
    ("a comment that isn't UTF-8", b"# \xff\n% \xc3\n \t#\x80\na b\n", AGREEMENT, here(1)),
    ("a name that isn't UTF-8", b"a b\na \xff\n", AGREEMENT, refused("NotText line 2")),
    ("a first byte that isn't UTF-8", b"\n\xff#\n", AGREEMENT, refused("NotText line 2")),
    ("a cut character", b"a b\r\n\r\nb \xe5\x90\r\n", AGREEMENT, refused("NotText line 3")),
    ("a character in too many bytes", b"a \xc0\xaf\n", AGREEMENT, refused("NotText line 1")),
    ("half of a pair of UTF-16", b"a \xed\xa0\x80\n", AGREEMENT, refused("NotText line 1")),
    ("past the last character", b"a \xf4\x90\x80\x80\n", AGREEMENT, refused("NotText line 1")),
    ("the last character", "a \U0010ffff 2\n".encode(), AGREEMENT, here(2)),
    ("a weight that isn't UTF-8", b"a b \xff\n", AGREEMENT, refused("NotText line 1")),
    ("too many fields that aren't UTF-8", b"a b 1 \xff\n", AGREEMENT, refused("NotText line 1")),
    ("UTF-16", "a b\n".encode("utf-16"), AGREEMENT, refused("NotText line 1")),
    # fields and blanks
    ("a line of tabs", b"\t\t\na b\n\t\r\n", AGREEMENT, here(1)),
    ("ends of both kinds", b"a b 1\r\nb c 2\n\r\nc d 4\r", AGREEMENT, here(7)),
    ("an empty file", b"", AGREEMENT, here(0)),
    ("four fields and a bad weight", b"a b x 1\n", AGREEMENT, refused("TooManyFields line 1")),
    ("a note behind a line", b"a b 1\na b 1 # note\n", AGREEMENT, refused("TooManyFields line 2")),
    ("a comma", b"a,b,1\n", AGREEMENT, here(0)),
    ("the first of two faults", b"a b x\n\xff\n", AGREEMENT, refused("BadWeight line 1")),
    # digits and places
    ("18 digits", b"a b 999999999999999999\n", AGREEMENT, here(10**18 - 1)),
    ("18 digits behind zeros", b"a b -000999999999999999999\n", AGREEMENT, here(10**18 - 1)),
    ("19 digits", b"a b 1000000000000000000\n", AGREEMENT, refused("BadWeight line 1")),
    ("19 digits that are cut behind the point", b"a b 1000000000000000000.5\n", [*AGREEMENT, "--places", "0"], refused("BadWeight line 1")),
    ("nine places", b"a b 0.000000001\n", AGREEMENT, here(1)),
    ("ten places", b"a b 0.0000000000\n", AGREEMENT, refused("BadWeight line 1")),
    ("ten places that are cut", b"a b 0.0000000019\n", [*AGREEMENT, "--places", "9"], here(1)),
    ("18 digits and nine places", b"a b " + b"1" * 18 + b"." + b"1" * 9 + b"\n", AGREEMENT, here(int("1" * 27))),
    *((f"the weight {field.decode()}", b"a b 1\na b " + field + b"\n", AGREEMENT, here(best)) for field, best in (
        (b"-0", 1), (b"-0.0", 10), (b"+.5", 15), (b"-.5", 5), (b"5.", 6), (b"+5", 6), (b"00", 1), (b"-1", 0), (b"0.", 1), (b".0", 10))),
    *((f"the weight {field.decode()}", b"a b 1\na b " + field + b"\n", AGREEMENT, refused("BadWeight line 2")) for field in (
        b".", b"+", b"-", b"+.", b"-.", b"1e5", b"1E5", b"0x10", b"++1", b"--1", b"+-1", b"1.2.3", b"1..2", b"1,5", b"1_000", b"inf", b"nan", b"1/2",
        b"1-", "\u0661".encode(), b"1\x00", b"\xc2\xa01", b"'1'")),
    ("-0 in modularity", b"a b -0\na b 1\n", MODULARITY, here(0)),
    ("a negative weight that is cut to 0", b"a b -.9\na b 1\n", [*MODULARITY, "--places", "0"], here(0)),
    # the sum of modularity's weights
    ("modularity at its limit", b"a b " + MOST_PLAIN + b"\n", MODULARITY, here(0)),
    ("modularity past its limit", b"a b 8796093022209\n", MODULARITY, refused("TotalWeight 8796093022209")),
    ("modularity at its limit, by two lines and a loop", b"a b 8796093022206\nb a\nb b\n", MODULARITY, here(0)),
    ("modularity past its limit by a loop", b"a b " + MOST_PLAIN + b"\nb b\n", MODULARITY, refused("TotalWeight 8796093022209")),
    ("modularity at its limit with nine places", b"a a 8796.093022208\n", MODULARITY, here(0)),
    ("modularity past its limit with nine places", b"a a 8796.093022209\n", MODULARITY, refused("TotalWeight 8796093022209")),
    ("modularity past its limit by another line's place", b"a b " + MOST_PLAIN + b"\na b 0.0\n", MODULARITY, refused("TotalWeight 87960930222080")),
    ("modularity at its limit by a cut place", b"a b " + MOST_PLAIN + b"\na b 0.9\n", [*MODULARITY, "--places", "0"], here(0)),
    ("modularity far past its limit", lambda: (b"a b " + ALL_NINES + b"\n") * 1_000_000, MODULARITY, refused(f"TotalWeight {10**33 - 10**6}")),
    # the sum of agreement's sizes
    ("agreement at its limit", b"a b " + decimal(MOST_AGREEMENT) + b"\n", AGREEMENT, here(MOST_AGREEMENT)),
    ("agreement at its limit, negative", b"a b -" + decimal(MOST_AGREEMENT) + b"\n", AGREEMENT, here(MOST_AGREEMENT)),
    ("agreement past its limit", b"a b " + decimal(MOST_AGREEMENT + 1) + b"\n", AGREEMENT, refused(f"TotalWeight {MOST_AGREEMENT + 1}")),
    ("agreement past its limit by sizes of both signs", b"a b " + decimal(MOST_AGREEMENT) + b"\nb a -.000000001\n", AGREEMENT,
     refused(f"TotalWeight {MOST_AGREEMENT + 1}")),
    ("agreement past its limit by a loop", b"a b " + decimal(MOST_AGREEMENT) + b"\na a -.000000001\n", AGREEMENT,
     refused(f"TotalWeight {MOST_AGREEMENT + 1}")),
    ("agreement at its limit by a million lines", lambda: sum_of_a_million(MOST_AGREEMENT), AGREEMENT,
     like(b"a b " + decimal(MOST_AGREEMENT), MOST_AGREEMENT)),
    ("agreement past its limit by a million lines", lambda: sum_of_a_million(MOST_AGREEMENT + 1), AGREEMENT,
     refused(f"TotalWeight {MOST_AGREEMENT + 1}")),
    ("agreement far past its limit", lambda: (b"a b " + ALL_NINES + b"\nb a -" + ALL_NINES + b"\n") * 500_000, AGREEMENT,
     refused(f"TotalWeight {10**33 - 10**6}")),
    # the order of the objective's refusals
    ("no line", b"a\nb\n", MODULARITY, refused("NoWeight")),
    ("weights of 0", b"a b 0\na a .0\n", MODULARITY, refused("NoWeight")),
    ("weights that are cut to 0", b"a b .9\n", [*MODULARITY, "--places", "0"], refused("NoWeight")),
    ("an empty file of modularity", b"", MODULARITY, refused("NoWeight")),
    ("a negative weight", b"a b\n\n# note\na c -0.5\na d -1\n", MODULARITY, refused("NegativeWeight line 4")),
    ("a negative weight and a sum of 0", b"a b 1\na b -1\n", MODULARITY, refused("NegativeWeight line 2")),
    ("a negative weight and a large sum", b"a b 9999999999999\na a -1\n", MODULARITY, refused("NegativeWeight line 2")),
    ("a negative weight and a fault behind it", b"a b -1\na b x\n", MODULARITY, refused("BadWeight line 2")),
    # graph files
    ("1,000 vertices", b"p cep 1000 0\n", [], here(0)),
    ("1,001 vertices behind a comment", b"c\n\np cep 1001 0\n", [], refused("TooManyVertices line 3")),
    ("1,001 vertices and a bad number of edges", b"p cep 1001 x\n", [], refused("BadHeader line 1")),
    ("an edge list for a graph file", b"a b\n", ["--format", "pace"], refused("NoHeader")),
    ("a graph file for an edge list", b"p cep 2 1\n1 2\n", ["--format", "edges"], refused("TooManyFields line 1")),
    ("a loop past the last vertex", b"p cep 2 1\n3 3\n", [], refused("VertexOut line 2")),
    ("a repeated edge beyond the stated number", b"p cep 2 1\n1 2\n2 1\n", [], refused("Repeated line 3")),
    ("too many edges", b"p cep 3 1\n1 2\n\n1 3\n", [], refused("EdgeCount 1 2")),
    ("too few edges", b"p cep 3 4294967295\n1 2\n", [], refused("EdgeCount 4294967295 1")),
    ("a fault behind too many edges", b"p cep 3 1\n1 2\n1 3\nx\n", [], refused("BadLine line 4")),
]


# ---- words. Each list has the files that lie there, and whether it is taken.
GRAPH = {"g": b"p cep 2 1\n1 2\n"}
EDGES = {"e": b"a b 1.5\n"}


def certificate(objective, value):
    return (f"clucert 1\nobjective {objective}\nvertices 2\nvalue {value}\nbound {value}\nblocks 1 1\nsteps 0\nparts 1\npart 1 2\n"
            "items 1\nleaf 1 0\nend\n").encode()


CHECKED = {**GRAPH, "c": certificate("edits", 0)}
AGREED = {**EDGES, "d": certificate("agreement", 15)}
MODULAR = {**EDGES, "d": certificate("modularity", 0)}
CUT = {**EDGES, "d": certificate("agreement", 1)}


def taken(line, files):
    return line.split(" "), files, True


def not_taken(line):
    return line.split(" ") if line else [], {**CHECKED, **AGREED}, False


WORDS = [
    *(taken(line, GRAPH) for line in (
        "solve g", "solve g --format pace", "solve g --objective edits", "solve g --format pace --objective edits",
        "solve g --objective edits --format pace", "solve g --branchings 0 --objective edits", "solve g --certificate d --format pace --branchings 3")),
    *(taken(line, EDGES) for line in (
        "solve e --format edges", "solve e --objective agreement", "solve e --objective modularity", "solve e --format edges --objective agreement",
        "solve e --objective modularity --format edges", "solve e --objective agreement --places 0", "solve e --places 9 --objective modularity",
        "solve e --places 00000000000000000000009 --format edges", "solve e --format edges --places 3",
        "solve e --certificate d --places 1 --branchings 7 --objective agreement --format edges",
        "solve e --format edges --branchings 0 --objective agreement --certificate d --places 2")),
    *(taken(line, CHECKED) for line in (
        "check g c", "check g c --format pace", "check g c --objective edits", "check g c --objective edits --format pace")),
    *(taken(line, AGREED) for line in (
        "check e d --objective agreement", "check e d --format edges --objective agreement", "check e d --places 5 --objective agreement")),
    *(taken(line, MODULAR) for line in (
        "check e d --format edges", "check e d --objective modularity", "check e d --objective modularity --places 1 --format edges")),
    taken("check e d --objective agreement --places 0", CUT),
    # pairs that don't go together
    *map(not_taken, (
        "solve g --format pace --objective agreement", "solve g --format pace --objective modularity", "solve e --objective modularity --format pace",
        "solve e --format edges --objective edits", "solve e --objective edits --format edges", "solve g --places 2", "solve g --format pace --places 0",
        "solve g --objective edits --places 1", "check g c --places 2", "check g c --format pace --objective modularity",
        "check e d --format edges --objective edits", "check g c --format pace --places 9", "solve none --places 2", "check none none --places 2")),
    # values
    *map(not_taken, (
        "solve e --format PACE", "solve e --format edge", "solve e --format ", "solve e --format gr", "solve e --objective Agreement",
        "solve e --objective agree", "solve e --objective ", "solve e --objective cpm", "solve e --objective agreement --places 10",
        "solve e --objective agreement --places -1", "solve e --objective agreement --places +1", "solve e --objective agreement --places ",
        "solve e --objective agreement --places 1.0", "solve e --objective agreement --places a", "solve e --objective agreement --places 0x1",
        "solve e --objective agreement --places 18446744073709551616", "solve e --objective agreement --places 256",
        "check e d --objective agreement --places 10", "solve e --objective -agreement")),
    # forms
    *map(not_taken, (
        "", "solve", "solve e --format", "solve e --objective", "solve e --objective agreement --places", "solve e --format edges --format edges",
        "solve e --objective agreement --objective agreement", "solve e --objective agreement --objective modularity",
        "solve e --objective agreement --places 1 --places 1", "check e d --objective agreement --objective agreement",
        "solve e --format=edges", "solve e --objective=agreement", "solve e --objective agreement --places=1", "solve e -- --objective agreement",
        "solve -- g", "solve --objective agreement e", "solve --format edges e", "solve --places 1 e --objective agreement",
        "check --objective agreement e d", "check e --objective agreement d", "check e --objective agreement", "check e d d --objective agreement",
        "solve e d --objective agreement", "check g c --certificate d", "check g c --branchings 1", "solve e --objectiv agreement",
        "solve e -objective agreement", "solve e --Objective agreement", "solve e objective agreement", "solve e --objective agreement agreement",
        "solve g --rules", "solve g --bits 8", "solve g --json", "edits g", "demo 3 1", "Solve e --format edges")),
]
