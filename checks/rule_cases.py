"""Tables for `checks/rules`, to be followed by hand: rules that stop, rules whose best partition is known, and certificates under rules."""

PATH = b"p cep 4 3\n1 2\n2 3\n3 4\n"
TRIANGLE = b"p cep 3 3\n1 2\n1 3\n2 3\n"
STAR = b"c x 2\nc y 2\nc z 2\n"
EDGES = ["--objective", "agreement"]

# Each has its graph, options and rules, and the status and the line on err.
STOPS = [
    ("a vertex apart from itself", PATH, [], b"apart 3 3\n", 5, b"contradiction 3 3"),
    ("a vertex apart from itself by two spellings", PATH, [], b"apart 3 003", 5, b"contradiction 3 3"),
    ("a name apart from itself", STAR, EDGES, b"apart z z\n", 5, b"contradiction z z"),
    ("a chain", PATH, [], b"together 1 2\ntogether 3 2\ntogether 4 3\napart 4 1\n", 5, b"contradiction 1 4"),
    ("a chain by values and a line", STAR, EDGES, b"share k\nattribute y k 1\nattribute c k 1\ntogether y z\napart z c\n", 5, b"contradiction c z"),
    ("the least of two pairs", PATH, [], b"apart 2 4\napart 3 1\ntogether 1 2\ntogether 2 3\ntogether 3 4\n", 5, b"contradiction 1 3"),
    ("the first vertex decides", PATH, [], b"apart 2 3\napart 1 4\ntogether 2 3\ntogether 4 1\n", 5, b"contradiction 1 4"),
    ("names by first appearance", STAR, EDGES, b"apart x c\napart y x\ntogether y x\ntogether c x\n", 5, b"contradiction c x"),
    ("a value to share and to differ in", PATH, [], b"share k\ndiffer k\nattribute 2 k v\nattribute 4 k v\n", 5, b"contradiction 2 4"),
    ("different values to share a block", PATH, [], b"same k\ntogether 1 3\nattribute 1 k v\nattribute 3 k w\n", 5, b"contradiction 1 3"),
    ("a contradiction before a refusal", PATH, [], b"apart 1 1\nshare\n", 4, b"rules BadRule line 2"),
    ("an unknown vertex twice", PATH, [], b"attribute 5 k v\nattribute 5 k v\n", 4, b"rules UnknownVertex line 1"),
    ("lines that are skipped count", PATH, [], b"\n# note\r\n \t\r\n#\ntogether 1 2 3\n", 4, b"rules BadRule line 5"),
    ("a value twice", PATH, [], b"attribute 1 k v\nattribute 1 K v\nattribute 01 k v\n", 4, b"rules AttributeTwice line 3"),
    ("a name in another case", STAR, EDGES, b"together c X\n", 4, b"rules UnknownVertex line 1"),
    ("a carriage return inside", PATH, [], b"together 1 2\r\r\n", 4, b"rules UnknownVertex line 1"),
    ("a form feed is no blank", PATH, [], b"share\x0ck\n", 4, b"rules BadRule line 1"),
    ("a percent sign begins no comment", STAR, EDGES, b"% note\n", 4, b"rules BadRule line 1"),
]

# Each has its graph, options and rules, the best value, and the blocks of the only best partition.
SOLVES = [
    # 1 and 3 in one block draw 2 to them, which wants one edge more, and the edge to 4 goes
    ("a tied pair", PATH, [], b"together 3 1\n", 2, [b"1 2 3", b"4"]),
    # 1 to 3 in one block want one edge more, and the edge to 4 goes
    ("a chain of ties", PATH, [], b"share k\nattribute 1 k v\nattribute 2 k v\ntogether 3 1\n", 2, [b"1 2 3", b"4"]),
    # each edge goes
    ("all values differ", PATH, [], b"attribute 1 k a\nattribute 2 k b\nattribute 3 k c\nattribute 4 k d\nsame k\n", 3, [b"1", b"2", b"3", b"4"]),
    # c is kept from x and y, and z has no value
    ("a vertex without the key", STAR, EDGES, b"same k\nattribute c k 1\nattribute x k 2\nattribute y k 3\n", 2, [b"c z", b"x", b"y"]),
    # two of three may not share a block, and c is with one of them
    ("a tie beside differing values", STAR, EDGES, b"differ k\nattribute x k 1\nattribute y k 1\ntogether y c\n", 4, [b"c y z", b"x"]),
]

# ---- certificates. Each has its graph, options and rules, the text, and the line on err of `check` with the rules and without them, or None
# where it is accepted.
#   Of the path an edge weighs 1 and another pair -1, and the printed number is 3 less the weight inside blocks. Without rules and rows a leaf's
#   bound is the 3 edges, which is printed as 0.
PAIRS = b"p cep 4 2\n1 2\n3 4\n"
WHOLE = ["part 1 2 3 4", "items 1", "leaf 1 0"]
HALVES = ["parts 2", "part 1 2", "items 1", "leaf 1 0", "part 3 4", "items 1", "leaf 1 0"]
LEAF = ["steps 0", "parts 1", *WHOLE]


def text(labels, value, bound, lines, objective="edits"):
    head = ["clucert 1", f"objective {objective}", f"vertices {len(labels.split())}", f"value {value}", f"bound {bound}", f"blocks {labels}"]
    return "".join(line + "\n" for line in [*head, *lines, "end"]).encode()


def step(line, vertices="1 2 3 4"):
    """One step, and a part of a bare leaf."""
    return ["steps 1", line, "parts 1", f"part {vertices}", "items 1", "leaf 1 0"]


def items(*lines, count):
    return ["steps 0", "parts 1", "part 1 2 3 4", f"items {count}", *lines]


JUDGED = [
    # 2 3 is inside, and weighs 0 with 1 and with 4
    ("a group of the rules at a leaf", PATH, [], b"together 2 3\n", text("1 2 2 3", 2, 2, LEAF), None, b"rejected 9 0"),
    # 1 2 and 3 4 weigh 1 each
    ("a pair that is apart at a leaf", PATH, [], b"apart 2 3\n", text("1 1 2 2", 1, 1, LEAF), None, b"rejected 9 0"),
    # 1 3 is inside with -1; it would weigh 2 with 2, and weighs 0 with 4
    ("groups that are apart at a leaf", PATH, [], b"together 1 3\napart 2 1\n", text("1 2 1 3", 4, 4, LEAF), None, b"rejected 9 0"),
    # one more is proved than they prove
    ("a bound that is better than is proved", PATH, [], b"together 1 3\napart 2 1\n", text("1 2 1 3", 4, 5, LEAF), b"rejected 9 4", b"rejected 9 0"),
    # the weight 1 of 2 3 leaves no part where the two are apart
    ("parts that rules allow", PATH, [], b"apart 2 3\n", text("1 1 2 2", 1, 1, ["steps 0", *HALVES]), None, b"rejected 6 part 1"),
    ("parts that divide a group of the rules", PAIRS, [], b"together 1 3\n", text("1 2 1 2", 4, 0, ["steps 0", *HALVES]), b"rejected 6 part 1", None),
    # blocks
    ("a tied pair in two blocks", PATH, [], b"together 2 3\n", text("1 1 2 2", 1, 0, LEAF), b"rejected 3 2 3", None),
    ("a pair in one block that is apart", PATH, [], b"apart 1 2\n", text("1 1 2 2", 1, 0, LEAF), b"rejected 3 1 2", None),
    ("a chain in two blocks", PATH, [], b"together 1 2\ntogether 3 2\n", text("1 1 2 2", 1, 0, LEAF), b"rejected 3 1 3", None),
    ("groups in one block that are apart", PATH, [], b"together 1 2\ntogether 3 4\napart 2 4\n", text("1 1 1 1", 3, 0, LEAF), b"rejected 3 1 3", None),
    ("the least of a divided and a joined pair", PATH, [], b"together 3 4\napart 1 2\n", text("1 1 1 2", 2, 0, LEAF), b"rejected 3 1 2", None),
    ("names of a broken pair", STAR, EDGES, b"together z y\n", text("1 1 2 3", 2, 6, LEAF, "agreement"), b"rejected 3 y z", None),
    ("a broken rule before the value", PATH, [], b"together 2 3\n", text("1 1 2 2", 7, 0, LEAF), b"rejected 3 2 3", b"rejected 4 1"),
    ("a broken rule behind the labels", PATH, [], b"together 2 3\n", text("2 2 1 1", 1, 0, LEAF), b"rejected 2", b"rejected 2"),
    # branches
    ("a branch on a tied pair", PATH, [], b"together 2 3\n", text("1 2 2 3", 2, 0, items("branch 2 3", "leaf 1 0", "leaf 1 0", count=3)),
     b"rejected 5 item 1", None),
    ("a branch on groups that are apart", PATH, [], b"together 1 3\napart 1 2\n",
     text("1 2 1 3", 4, 0, items("branch 2 3", "leaf 1 0", "leaf 1 0", count=3)), b"rejected 5 item 1", None),
    # 3 weighs 1 - 1 with 1 and 2
    ("a heavy pair by a tie", PATH, [], b"together 1 2\n", text("1 1 2 2", 1, 1, step("heavy 3 4")), None, b"rejected 5 item 1"),
    # nothing counts of 3, and 2 weighs 1 with 1 and -1 with 4
    ("a heavy pair by pairs that are apart", PATH, [], b"apart 1 3\napart 3 2\n", text("1 1 2 2", 1, 1, step("heavy 2 1")), None,
     b"rejected 5 item 1"),
    # the partner 3 of 1 is none of 2
    ("no heavy pair by a pair that is apart", TRIANGLE, [], b"apart 1 3\n", text("1 1 2", 2, 0, step("heavy 1 2", "1 2 3")),
     b"rejected 5 item 1", None),
    ("a heavy pair in the other order", TRIANGLE, [], b"apart 1 3\n", text("1 1 2", 2, 2, step("heavy 2 1", "1 2 3")), None, b"rejected 9 0"),
    # 1 and 2 have the partner 3, and both weigh -1 with 4
    ("twins by pairs that are apart", PATH, [], b"apart 1 3\napart 3 2\n", text("1 1 2 2", 1, 1, step("twin 1 2")), None, b"rejected 5 item 1"),
    ("no twins by a pair that is apart", TRIANGLE, [], b"apart 1 3\n", text("1 1 2", 2, 0, step("twin 1 2", "1 2 3")), b"rejected 5 item 1", None),
    # nothing is to be had of 1, and 1 of 4
    ("a pair by another that is apart", PATH, [], b"apart 1 2\n", text("1 2 2 3", 2, 2, step("pair 2 3")), None, b"rejected 5 item 1"),
    # 1 weighs 1 - 1 with 2 and 4, which weigh 2 with 3
    ("no pair by a tie", PATH, [], b"together 2 4\n", text("1 2 3 2", 4, 0, step("pair 1 2")), b"rejected 5 item 1", None),
    # 1 and 2 weigh -2 with 4, and 0 with 3
    ("a light pair by a tie", PATH, [], b"together 1 2\n", text("1 1 2 2", 1, 1, items("light 2 4", "leaf 1 0", count=2)), None, b"rejected 5 item 1"),
    # nothing is to be had of 1, and 1 of 3
    ("a light pair by another that is apart", PATH, [], b"apart 2 1\n", text("1 2 2 3", 2, 1, items("light 2 4", "leaf 1 0", count=2)), None,
     b"rejected 5 item 1"),
    ("a row of one group", PATH, [], b"together 2 3\n", text("1 2 2 3", 2, 0, items("leaf 1 1", "row 1 2 / 3", count=1)), b"rejected 7 item 1", None),
]
