"""Alterations of certificates: one change of a text, one of the reductions or parts, and for each cause of a rejection some on purpose,
which break that condition and, where this can be, no later one. The checks beside it share it.
"""

from plain_checker import KINDS

from made_certificates import places_of, reductions

OBJECTIVES = ("edits", "agreement", "modularity")


# ---- of any kind
def moved_vertex(draw, proofs):
    """The proofs with a vertex in another part, or in one of its own that has a bare leaf."""
    proofs = [(list(part), items) for part, items in [*proofs, ([], [["leaf", 1, []]])]]
    here, there = draw.sample(range(len(proofs)), 2)
    if proofs[here][0]:
        v = proofs[here][0].pop(draw.randrange(len(proofs[here][0])))
        proofs[there] = sorted([*proofs[there][0], v]), proofs[there][1]
    return [(part, items) for part, items in proofs if part]


def altered_steps(draw, cert):
    """A copy with a vertex in another part, or with one reduction elsewhere, of another kind or pair, dropped or doubled."""
    if draw.random() < 0.25:
        return {**cert, "proofs": moved_vertex(draw, cert["proofs"])}
    n, lists = len(cert["labels"]), [[("reduce", *step) for step in cert["steps"]], *(list(items) for _, items in cert["proofs"])]
    found = [(items, i) for items in lists for i, item in enumerate(items) if item[0] == "reduce"]
    if not found:
        lists[0].append(("reduce", draw.choice(KINDS), draw.randrange(n + 1), draw.randrange(n + 1)))
    else:
        items, i = draw.choice(found)
        _, kind, u, v = step = items.pop(i)
        change = draw.randrange(7)
        if change == 0:
            items.insert(i, ("reduce", draw.choice([other for other in KINDS if other != kind]), u, v))
        elif change == 1:
            items.insert(i, ("reduce", kind, v, u))
        elif change == 2:
            items.insert(i, ("reduce", kind, u, draw.randrange(n + 1)))
        elif change == 3:
            items.insert(draw.randrange(len(items) + 1), step)
        elif change == 4:
            other = draw.choice(lists)
            other.insert(draw.randrange(len(other) + 1), step)
        elif change == 5:
            items[i:i] = [step, step]
    parts = [part for part, _ in cert["proofs"]]
    return {**cert, "steps": [item[1:] for item in lists[0]], "proofs": list(zip(parts, lists[1:]))}


def altered(draw, text):
    """A copy with one change."""
    lines = text.split(b"\n")
    i = draw.randrange(len(lines) - 1)
    fields = lines[i].split(b" ")
    kind = draw.randrange(9)
    if kind == 0:
        del lines[i]
    elif kind == 1:
        lines.insert(i, draw.choice([b"leaf 1 0", b"branch 1 2", b"pair 1 2", b"", b"end", lines[i]]))
    elif kind == 2:
        j = draw.randrange(len(lines) - 1)
        lines[i], lines[j] = lines[j], lines[i]
    elif kind == 3:
        return text[:draw.randrange(len(text))]
    elif kind == 4:
        fields[draw.randrange(len(fields))] = draw.choice([b"0", b"01", b"-0", b"1001", b"x", b"", b"-1", b"+1"])
        lines[i] = b" ".join(fields)
    elif kind == 5:
        lines[i] = draw.choice([b" " + lines[i], lines[i] + b" ", lines[i] + b"\r", lines[i].replace(b" ", b"  ")])
    else:
        numbers = [k for k, field in enumerate(fields) if field.lstrip(b"-").isdigit()]
        if not numbers:
            return altered(draw, text)
        k = draw.choice(numbers)
        fields[k] = b"%d" % (int(fields[k]) + draw.choice([-2, -1, 1, 2]))
        lines[i] = b" ".join(fields)
    return b"\n".join(lines)


# ---- on purpose. Each takes a task and a valid certificate for it, and gives a copy with one fault, or nothing where it can't.
def numbered(labels):
    """The labels of the same blocks, numbered by first appearance."""
    names = {}
    return [names.setdefault(label, len(names)) for label in labels]


def another_objective(draw, task, cert):
    return {**cert, "objective": draw.choice([other for other in OBJECTIVES if other != cert["objective"]])}


def another_count(draw, task, cert):
    labels = cert["labels"]
    return {**cert, "labels": labels[:-1] if labels and draw.random() < 0.5 else [*labels, max(labels, default=-1) + 1]}


def another_order(draw, task, cert):
    """Two blocks change their numbers, or a number is left out."""
    labels, count = cert["labels"], max(cert["labels"], default=-1) + 1
    if count == 0:
        return None
    one, two = draw.sample(range(count + 1), 2)
    return {**cert, "labels": [two if label == one else one if label == two else label for label in labels]}


def another_value(draw, task, cert):
    """The value of other blocks, or other blocks, which obey the rules as well."""
    labels, value = list(cert["labels"]), cert["value"]
    if labels and draw.random() < 0.5:
        labels[draw.randrange(len(labels))] = draw.randrange(len(labels))
        if task.rules.obeys(labels) and task.problem.value_of(labels) != value:
            return {**cert, "labels": numbered(labels)}
    return {**cert, "value": value + draw.choice([-1, 1, 2**126 - value])}


def wrong_reduction(draw, state):
    """A reduction that doesn't hold."""
    wrong = reductions(state, False)
    return draw.choice(wrong) if wrong else None


def wrong_step(draw, task, cert):
    step = wrong_reduction(draw, task.state_after(cert))
    return {**cert, "steps": [*cert["steps"], step]} if step else None


def with_proofs(cert, *proofs):
    return {**cert, "proofs": list(proofs)}


def bare(part):
    return sorted(part), [["leaf", 1, []]]


def falling_part(draw, task, cert):
    longer = [i for i, (part, _) in enumerate(cert["proofs"]) if len(part) > 1]
    if not longer:
        return None
    proofs, i = list(cert["proofs"]), draw.choice(longer)
    part, items = proofs[i]
    turned = draw.choice([part[::-1], [part[1], part[0], *part[2:]], [*part, part[-1]]])
    return with_proofs(cert, *proofs[:i], (turned, items), *proofs[i + 1:])


def part_past_last(draw, task, cert):
    """The vertex past the last one in the last part, or in a part of its own."""
    proofs = list(cert["proofs"])
    if proofs and draw.random() < 0.5:
        part, items = proofs.pop()
        return with_proofs(cert, *proofs, ([*part, task.problem.n], items))
    return with_proofs(cert, *proofs, bare([task.problem.n]))


def part_again(draw, task, cert):
    """A part twice, or one of its vertices in a part of its own behind it."""
    if not cert["proofs"]:
        return None
    part, items = draw.choice(cert["proofs"])
    again = (part, items) if draw.random() < 0.5 else bare([draw.choice(part)])
    return with_proofs(cert, *cert["proofs"], again)


def split_part(draw, cert, inside):
    """The part that has these vertices as two: they, and the others."""
    proofs = []
    for part, items in cert["proofs"]:
        halves = [half for half in (set(part) & inside, set(part) - inside) if half]
        proofs += [(part, items)] if len(halves) == 1 else draw.sample([bare(half) for half in halves], 2)
    return with_proofs(cert, *proofs)


def divided_group(draw, task, cert):
    groups = [group for group in task.state_after(cert).groups if len(group) > 1]
    return split_part(draw, cert, {draw.choice(sorted(draw.choice(groups)))}) if groups else None


def leaving_pair(draw, task, cert):
    state = task.state_after(cert)
    groups = [one for one in state.groups if any(state.gain(one, two) for two in state.groups if two != one)]
    return split_part(draw, cert, set(draw.choice(groups))) if groups else None


def dropped_part(draw, task, cert):
    proofs = list(cert["proofs"])
    if not proofs:
        return None
    del proofs[draw.randrange(len(proofs))]
    return with_proofs(cert, *proofs)


def with_items(cert, i, place, put):
    """A copy with these items in the place of one of a part's."""
    proofs = list(cert["proofs"])
    part, items = proofs[i]
    proofs[i] = part, [*items[:place], *put, *items[place + 1:]]
    return with_proofs(cert, *proofs)


def at_leaf(change):
    """The alteration that puts other items in the place of a leaf for which `change` gives some."""
    def alter(draw, task, cert):
        places = places_of(task, cert)
        draw.shuffle(places)
        for i, place, here in places:
            item = cert["proofs"][i][1][place]
            put = change(draw, task.problem.n, here, item) if item[0] == "leaf" else None
            if put is not None:
                return with_items(cert, i, place, put)
        return None
    return alter


def wrong_branch(draw, n, state, leaf):
    pairs = [(u, v) for u in state.members for v in [*state.members, n] if not state.is_free(u, v)]
    return [("branch", *draw.choice(pairs)), leaf, leaf]


def wrong_item(draw, n, state, leaf):
    step = wrong_reduction(draw, state)
    return [("reduce", *step), leaf] if step else None


def without_denominator(draw, n, state, leaf):
    return [["leaf", 0, leaf[2]]]


def large_denominator(draw, n, state, leaf):
    return [["leaf", draw.choice([2**32 + 1, 2**33, 2**64 - 1]), leaf[2]]]


def with_row(draw, leaf, row):
    rows = list(leaf[2])
    rows.insert(draw.randrange(len(rows) + 1), row)
    return [["leaf", leaf[1], rows]]


def with_row_of_two(multiplier):
    """A leaf with one more row, of two groups."""
    def change(draw, n, state, leaf):
        if len(state.groups) < 2:
            return None
        one, two = (draw.choice(sorted(group)) for group in draw.sample(state.groups, 2))
        return with_row(draw, leaf, (multiplier, [one], [two]))
    return change


def row_past_members(draw, n, state, leaf):
    others = [v for v in range(n + 1) if v not in state.members]
    sides = [[draw.choice(state.members)], [draw.choice(others)]]
    return with_row(draw, leaf, (1, *draw.sample(sides, 2)))


def row_with_a_group_twice(draw, n, state, leaf):
    one, two = (draw.choice(sorted(draw.choice(state.groups))) for _ in range(2))
    again = draw.choice(sorted(state.group(one)))
    sides = ([one], [again]) if draw.random() < 0.5 or state.group(one) == state.group(two) else ([one, again], [two])
    return with_row(draw, leaf, (1, *sides))


def left_over_item(draw, task, cert):
    if not cert["proofs"]:
        return None
    proofs, i = list(cert["proofs"]), draw.randrange(len(cert["proofs"]))
    part, items = proofs[i]
    more = draw.choice([["leaf", 1, []], ("branch", part[0], part[-1]), ("reduce", draw.choice(KINDS), part[0], part[-1])])
    proofs[i] = part, [*items, more]
    return with_proofs(cert, *proofs)


def open_subtree(draw, task, cert):
    """The last items of a part are dropped."""
    if not cert["proofs"]:
        return None
    proofs, i = list(cert["proofs"]), draw.randrange(len(cert["proofs"]))
    part, items = proofs[i]
    proofs[i] = part, items[:draw.choice([0, len(items) - 1])]
    return with_proofs(cert, *proofs)


def stated_better(by):
    """The alteration that states a bound which is so much better than what is proved."""
    def alter(draw, task, cert):
        better = draw.choice(by) * (1 if task.problem.objective == "edits" else -1)
        return {**cert, "bound": task.proved(cert) + better}
    return alter


def capped(by):
    """A leaf of the largest multiplier, so that its bound is above the cap, and a stated bound that is so much better."""
    def alter(draw, task, cert):
        made = at_leaf(lambda draw, n, state, leaf: with_row_of_two(2**118)(draw, n, state, ["leaf", leaf[1], []]))(draw, task, cert)
        return made and stated_better(by)(draw, task, made)
    return alter


ON_PURPOSE = [
    ("accepted", "a capped bound", capped([0])),
    ("rejected 1", "the objective", another_objective),
    ("rejected 1", "the number of labels", another_count),
    ("rejected 2", "the labels' order", another_order),
    ("rejected 4", "the value", another_value),
    ("rejected 5", "a step", wrong_step),
    ("rejected 5", "a branch", at_leaf(wrong_branch)),
    ("rejected 5", "a reduction in a part", at_leaf(wrong_item)),
    ("rejected 6", "a part that doesn't rise", falling_part),
    ("rejected 6", "a vertex past the last", part_past_last),
    ("rejected 6", "a vertex of an earlier part", part_again),
    ("rejected 6", "a divided group", divided_group),
    ("rejected 6", "a pair that leaves", leaving_pair),
    ("rejected 6", "a vertex in no part", dropped_part),
    ("rejected 7", "the denominator 0", at_leaf(without_denominator)),
    ("rejected 7", "a large denominator", at_leaf(large_denominator)),
    ("rejected 7", "the multiplier 0", at_leaf(with_row_of_two(0))),
    ("rejected 7", "a vertex of no member", at_leaf(row_past_members)),
    ("rejected 7", "a group twice", at_leaf(row_with_a_group_twice)),
    ("rejected 7", "large multipliers", at_leaf(with_row_of_two(2**118 + 1))),
    ("rejected 7", "large multipliers", at_leaf(with_row_of_two(2**128 - 1))),
    ("rejected 8", "an item left over", left_over_item),
    ("rejected 8", "an open subtree", open_subtree),
    ("rejected 9", "the bound", stated_better([1])),
    ("rejected 9", "the bound", stated_better([2, 3, 1000, 2**64, 2**100])),
    ("rejected 9", "the capped bound", capped([1])),
]
