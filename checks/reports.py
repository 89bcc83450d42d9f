"""What a report of `solve` has to be: its lines and no others, a partition, and the value of that. The checks beside it share it."""

import re

REPORT = re.compile(rb"objective [a-z]+\nvertices \d+\nvalue (-?\d+)\nbound (-?\d+)\nscale \d+\nverdict [a-z ]+\n"
                    rb"branchings (\d+)\nblocks \d+\n((?:block [^\n]*\n)*)")


class Wrong(Exception):
    """What an answer has that it may not have."""


def expect(holds, text):
    if not holds:
        raise Wrong(text)


def labels_of(problem, blocks):
    """The labels of the printed blocks, which must hold each name once, in the order of first appearance."""
    numbers = {name: v for v, name in enumerate(problem.names)}
    labels = [None] * problem.n
    for label, line in enumerate(blocks):
        for name in line.split(b" ")[1:]:
            expect(name in numbers and labels[numbers[name]] is None, f"a block has {name[:40]!r}")
            labels[numbers[name]] = label
    expect(None not in labels, "a name is in no block")
    return labels


def report_of(problem, status, value, bound, made, labels):
    """The whole report of these numbers."""
    blocks = [[] for _ in range(max(labels, default=-1) + 1)]
    for name, label in zip(problem.names, labels):
        blocks[label].append(name)
    verdict = "optimal" if status == 0 else "gap branchings"
    head = [f"objective {problem.objective}", f"vertices {problem.n}", f"value {value}", f"bound {bound}",
            f"scale {problem.scale}", f"verdict {verdict}", f"branchings {made}", f"blocks {len(blocks)}"]
    return "".join(line + "\n" for line in head).encode() + b"".join(b" ".join([b"block", *block]) + b"\n" for block in blocks)


def check_value(problem, value, labels):
    """The value is that of the blocks, from the lines in two ways and by the weights of pairs."""
    found = problem.value_of(labels)
    expect(value == found, f"the value is {value}, and {found} by the lines")
    exact = problem.exact_of(labels)
    expect(value == exact * problem.scale, f"the value is {value} of {problem.scale}, and {exact} in the user's unit")
    inside = sum(weight for (u, v), weight in problem.weights.items() if labels[u] == labels[v])
    expect(value == problem.printed(inside), f"the value is {value}, and {problem.printed(inside)} by pairs")


def read_answer(problem, got, limit, optimum=None):
    """The value, the bound, the branchings and the labels of an answer of `solve`, as it must be."""
    status, out, err = got
    expect(status in (0, 1) and err == b"", f"status {status}, err {err!r}")
    form = REPORT.fullmatch(out)
    expect(form, f"the report is {out[:400]!r}")
    value, bound, made = (int(number) for number in form.groups()[:3])
    labels = labels_of(problem, form[4].split(b"\n")[:-1])
    expect(out == report_of(problem, status, value, bound, made, labels), f"the report is {out[:400]!r}")
    check_value(problem, value, labels)
    expect((status == 0) == (value == bound), f"status {status} with value {value} and bound {bound}")
    expect(made <= limit and (status == 0 or made == limit), f"{made} branchings of {limit} with status {status}")
    expect(not problem.is_better(value, bound), f"the value {value} is better than the bound {bound}")
    if optimum is not None:
        expect(not problem.is_better(optimum, bound), f"the optimum {optimum} is better than the bound {bound}")
        expect(not problem.is_better(value, optimum), f"the value {value} is better than the optimum {optimum}")
    return value, bound, made, labels
