"""Alterations of certificates for which rules alone decide: blocks that break them, and reductions, branches, rows and parts that would
stand without them, or that stand only with them. `checks/rules` uses them.
"""

from alterations import another_count, another_order, numbered, split_part, stated_better, with_items, with_proofs, with_row, wrong_step
from made_certificates import Task, places_of, reductions
from plain_checker import KINDS
from plain_rules import Rules

# Why rules refuse a reduction or a branch, or let a reduction hold: by its pair, or else by the groups that ties make, or by what is apart.
TIED, APART, BY_TIES, BY_APART = "of a tied pair", "of a pair that is apart", "by ties", "by what is apart"
NAMES = [kind.decode() for kind in KINDS]
# What is apart takes from the sums of a pair and of a light one, and so refuses none.
REFUSED_STEPS = [f"{kind} {why}" for kind in NAMES for why in (TIED, APART, BY_TIES)] + [f"{kind} {BY_APART}" for kind in ("twin", "heavy")]
REFUSED_ITEMS = [*REFUSED_STEPS, f"branch {TIED}", f"branch {APART}"]
HELD_ITEMS = [f"{kind} {why}" for kind in NAMES for why in (BY_TIES, BY_APART)]


# ---- blocks. Each takes a task and a valid certificate for it, and gives a copy with one fault, or nothing where it can't.
def with_labels(task, cert, labels):
    """A copy with other blocks and their value."""
    return {**cert, "labels": numbered(labels), "value": task.problem.value_of(labels)}


def divided_tie(draw, task, cert):
    """Some vertices of a group of the rules are a block of their own."""
    groups = [sorted(group) for group in task.state().groups if len(group) > 1]
    if not groups:
        return None
    group = draw.choice(groups)
    away = draw.sample(group, draw.randrange(1, len(group)))
    return with_labels(task, cert, [-1 if v in away else label for v, label in enumerate(cert["labels"])])


def joined_blocks(draw, task, cert):
    """Two blocks are one in which the rules keep a pair apart."""
    labels = cert["labels"]
    if not task.rules.forbidden:
        return None
    u, v = draw.choice(sorted(task.rules.forbidden))
    return with_labels(task, cert, [labels[u] if label == labels[v] else label for label in labels])


def wrong_value(draw, task, cert):
    return {**cert, "value": cert["value"] + draw.choice([-1, 1])}


def both(one, two):
    """Two alterations, one behind the other."""
    def alter(draw, task, cert):
        made = one(draw, task, cert)
        return made and two(draw, task, made)
    return alter


BROKEN = (("a tied pair in two blocks", divided_tie), ("a pair in one block that is apart", joined_blocks))
ON_BLOCKS = [
    *(("rejected 3", cause, alter) for cause, alter in BROKEN),
    *(("rejected 3", cause, both(alter, later)) for cause, alter in BROKEN for later in (wrong_value, wrong_step, stated_better([1]))),
    *(("rejected 1", "the number of labels", both(alter, another_count)) for _, alter in BROKEN),
    *(("rejected 2", "the labels' order", both(alter, another_order)) for _, alter in BROKEN),
]


# ---- what rules decide. Each gives copies of a valid certificate, each with its name, for what it can do.
def eased(task):
    """The task with its rules, with the required pairs alone, and without rules."""
    return task, Task(task.problem, task.options, Rules(task.rules.n, task.rules.required)), Task(task.problem, task.options)


def eased_states(task, steps):
    """The states of all vertices with these steps, as they are eased. The steps need not hold in the later ones."""
    return [one.state().within(list(range(task.problem.n)), steps) for one in eased(task)]


def eased_places(task, cert):
    """The items of a valid certificate: the number of its part, its place there, the item, and the states where it is read, as they are eased."""
    places = zip(*(places_of(one, cert) for one in eased(task)))
    return [(i, place, cert["proofs"][i][1][place], (state, *(other[2] for other in others))) for (i, place, state), *others in places]


def why(states, kind, u, v):
    """Why the rules refuse a reduction or a branch that stands without them."""
    state, tied, _ = states
    if not state.is_free(u, v):
        return TIED if state.group(u) == state.group(v) else APART
    return BY_APART if tied.holds(kind, u, v) else BY_TIES


def refused(states):
    """The reductions that hold without the rules and not with them, by kind and reason."""
    state, _, bare = states
    return [(f"{step[0].decode()} {why(states, *step)}", step) for step in reductions(bare) if not state.holds(*step)]


def refused_branches(states):
    """The pairs that are free without the rules and not with them, by reason."""
    state, _, bare = states
    return [(f"branch {why(states, None, u, v)}", (u, v)) for u in bare.members for v in bare.members
            if bare.is_free(u, v) and not state.is_free(u, v)]


def held(states):
    """The reductions that hold with the rules and not without them, by kind and reason."""
    state, tied, bare = states
    return [(f"{step[0].decode()} {BY_TIES if tied.holds(*step) else BY_APART}", step) for step in reductions(state) if not bare.holds(*step)]


def one_of_each(draw, named):
    """One of those of each name."""
    found = {}
    for name, value in named:
        found.setdefault(name, []).append(value)
    return [(name, draw.choice(values)) for name, values in found.items()]


def refused_steps(draw, task, cert):
    """One more step before the others or behind them, which the rules refuse."""
    made = [(name, [step, *cert["steps"]]) for name, step in refused(eased_states(task, []))]
    made += [(name, [*cert["steps"], step]) for name, step in refused(eased_states(task, cert["steps"]))]
    return [(name, {**cert, "steps": steps}) for name, steps in one_of_each(draw, made)]


def refused_items(draw, task, cert):
    """One more item before the first of a part or one of the others, which the rules refuse."""
    places, made = eased_places(task, cert), []
    for i, place, item, states in [at for at in places if at[1] == 0] + draw.sample(places, min(len(places), 1)):
        made += [(name, (i, place, [("reduce", *step), item])) for name, step in refused(states)]
        made += [(name, (i, place, [("branch", *pair), item])) for name, pair in refused_branches(states)]
    return [(name, with_items(cert, *put)) for name, put in one_of_each(draw, made)]


def held_items(draw, task, cert):
    """A reduction before a bare leaf in the place of a part's items, which only the rules let hold, and the bound that is proved then."""
    made = [(name, (i, step)) for i, place, _, states in eased_places(task, cert) if place == 0 for name, step in held(states)]
    copies = []
    for name, (i, step) in one_of_each(draw, made):
        proofs = list(cert["proofs"])
        proofs[i] = proofs[i][0], [("reduce", *step), ["leaf", 1, []]]
        copy = with_proofs(cert, *proofs)
        copies.append((name, {**copy, "bound": task.proved(copy)}))
    return copies


# ---- groups of the rules. Each takes a task and a valid certificate for it, and gives a copy with one fault, or nothing where it can't.
def tied_row(draw, task, cert):
    """A row with two vertices of one group, which only the rules make."""
    rows = [(i, place, item, (u, v)) for i, place, item, (state, _, bare) in eased_places(task, cert) if item[0] == "leaf"
            for u in bare.members for v in bare.members if state.group(u) == state.group(v) and bare.group(u) != bare.group(v)]
    if not rows:
        return None
    i, place, leaf, (u, v) = draw.choice(rows)
    return with_items(cert, i, place, with_row(draw, leaf, (1, [u], [v])))


def divided_rule(draw, task, cert):
    """A part as two, which divide a group that the rules tie, and none without them."""
    state, _, bare = eased_states(task, cert["steps"])
    groups = [group for group in state.groups if group not in bare.groups]
    if not groups:
        return None
    v = draw.choice(sorted(draw.choice(groups)))
    return split_part(draw, cert, set(bare.group(v)))


ON_GROUPS = [
    ("rejected 6", "a divided group", divided_rule),
    ("rejected 7", "a group twice", tied_row),
]
