"""Random certificates with reductions, branches and rows, for a problem with rules or without, and their text. The checks beside it share it."""

from itertools import combinations

from plain_checker import KINDS, check_steps, expected, proved_bound, whole_state
from plain_graphs import partitions
from plain_rules import Rules


class Task:
    """A problem with rules that don't contradict, and the options of `check` for it. Answers are counted where it says so."""

    is_counted = True

    def __init__(self, problem, options, rules=None):
        self.problem, self.options = problem, options
        self.rules = Rules(problem.n) if rules is None else rules

    def state(self):
        """The state of all vertices before any decision."""
        return whole_state(self.problem, self.rules)

    def state_after(self, cert):
        """The state after the steps of a certificate, which hold."""
        return check_steps(cert, self.problem, self.rules)

    def proved(self, cert):
        """The printed number that the items prove, which are valid."""
        return proved_bound(cert, self.problem, self.state_after(cert))

    def judged(self, text):
        """What `check` is to answer, and the answer's name with its cause."""
        return expected(self.problem, text, self.rules)

    def optimum(self):
        """The best value of a partition that obeys the rules, or None where it isn't known."""
        return None


# ---- their text
def text_of(cert):
    """The text of a certificate."""
    def numbers(word, places):
        return b" ".join([word, *(b"%d" % (place + 1) for place in places)])

    lines = [b"clucert 1", b"objective " + cert["objective"].encode(), b"vertices %d" % len(cert["labels"]),
             b"value %d" % cert["value"], b"bound %d" % cert["bound"], numbers(b"blocks", cert["labels"]),
             b"steps %d" % len(cert["steps"]), *(numbers(step[0], step[1:]) for step in cert["steps"]),
             b"parts %d" % len(cert["proofs"])]
    for part, items in cert["proofs"]:
        lines += [numbers(b"part", part), b"items %d" % len(items)]
        for item in items:
            if item[0] == "leaf":
                lines.append(b"leaf %d %d" % (item[1], len(item[2])))
                lines += [numbers(b"row %d" % y, s) + b" /" + numbers(b"", t) for y, s, t in item[2]]
            elif item[0] == "branch":
                lines.append(numbers(b"branch", item[1:]))
            else:
                lines.append(numbers(item[1], item[2:]))
    return b"".join(line + b"\n" for line in [*lines, b"end"])


# ---- random ones
def reductions(state, is_right=True):
    """The reductions of two members that hold, or those that don't."""
    members = state.members
    return [(kind, u, v) for kind in KINDS for u in members for v in members if state.holds(kind, u, v) == is_right]


def random_steps(draw, state, most):
    """Some reductions that hold one after the other, and the state after them."""
    steps = []
    for _ in range(draw.randrange(most + 1)):
        held = reductions(state)
        if not held:
            break
        kind = draw.choice(sorted({step[0] for step in held}))
        steps.append(draw.choice([step for step in held if step[0] == kind]))
        state = state.reduced(*steps[-1])
    return steps, state


def random_parts(draw, state):
    """A division into parts that are connected by free pairs of positive weight, at times with two of these parts as one."""
    parts = []
    for group in state.groups:
        near = [part for part in parts if any(state.gain(group, other) for other in part)]
        parts = [part for part in parts if part not in near] + [sum(near, [group])]
    draw.shuffle(parts)
    if len(parts) > 1 and draw.random() < 0.3:
        parts = [parts[0] + parts[1], *parts[2:]]
    return [sorted(v for group in part for v in group) for part in parts]


def random_tree(draw, state, depth, most):
    """Items of a tree that reduces and splits free pairs at random, with rows of triangles at its leaves."""
    steps, state = random_steps(draw, state, most)
    items = [("reduce", *step) for step in steps]
    free = [(u, v) for u, v in combinations(state.members, 2) if state.is_free(u, v)]
    if depth > 0 and free and draw.random() < 0.8:
        u, v = draw.choice(free)
        if draw.random() < 0.5:
            u, v = v, u
        return [*items, ("branch", u, v), *random_tree(draw, state.together(u, v), depth - 1, most),
                *random_tree(draw, state.kept_apart(u, v), depth - 1, most)]
    rows = []
    if len(state.groups) > 2:
        for _ in range(draw.randrange(4)):
            s, *t = (draw.choice(sorted(group)) for group in draw.sample(state.groups, 3))
            rows.append((draw.randrange(1, 4), [s], t))
    return [*items, ["leaf", draw.randrange(1, 4), rows]]


def random_labels(draw, task):
    """A random partition that obeys the rules."""
    return list(draw.choice([labels for labels in partitions(task.problem.n) if task.rules.obeys(labels)]))


def random_cert(draw, task, most):
    """A certificate with a random partition, random reductions and branches, and the bound that they prove."""
    labels = random_labels(draw, task)
    steps, state = random_steps(draw, task.state(), 2 * most)
    proofs = [(part, random_tree(draw, state.within(part, steps), 3, most)) for part in random_parts(draw, state)]
    problem = task.problem
    cert = {"objective": problem.objective, "value": problem.value_of(labels), "labels": labels, "steps": steps, "proofs": proofs}
    return {**cert, "bound": proved_bound(cert, problem, state)}


# ---- where their items are read
def tree_places(state, items):
    """The places of the items of a tree, each with the state in which it is read."""
    waiting = [state]
    for place, item in enumerate(items):
        here = waiting.pop()
        yield place, here
        if item[0] == "branch":
            waiting += [here.kept_apart(*item[1:]), here.together(*item[1:])]
        elif item[0] != "leaf":
            waiting.append(here.reduced(*item[1:]))


def places_of(task, cert):
    """The items of a certificate with whole trees: the number of its part, its place there, and the state in which it is read."""
    whole = task.state()
    return [(i, place, here) for i, (part, items) in enumerate(cert["proofs"])
            for place, here in tree_places(whole.within(part, cert["steps"]), items)]
