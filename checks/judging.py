"""A bench on which `check` is compared with plain_checker.py over certificates and altered copies. The checks beside it share it."""

from collections import Counter, defaultdict

from alterations import ON_PURPOSE, altered, altered_steps
from made_certificates import text_of
from plain_checker import read_text
from running import Bench

ENDS = (b"\n", b"x", b"end\n", b"\0", b"clucert 1\n")


class Judge(Bench):
    """A bench on which certificates for the graph that stands under g are checked, and how often each answer was given for each objective."""

    def __init__(self, program, folder):
        super().__init__(program, folder)
        self.reached_of = defaultdict(Counter)

    def check(self, case, task, text, answer=None):
        """Checks a text, which must come to the answer and its cause, where they are given. The answer and its cause."""
        want, found = task.judged(text)
        self.put("c", text)
        got = self.run("check", "g", "c", *task.options)
        self.compare(case, got, want)
        if got == want and task.is_counted:
            self.reached[found] += 1
            self.reached_of[task.problem.objective][found] += 1
        if answer is not None:
            self.compare(f"{case}, the alteration's answer", found, answer)
        best = task.optimum() if want[0] == 0 else None
        if best is not None:
            bound = read_text(text)["bound"]
            self.compare(f"{case}, best {best} better than the bound {bound}", task.problem.is_better(best, bound), False)
        return found

    def check_accepted(self, case, task, text):
        """Checks a text that is valid."""
        self.compare(f"{case}, checked", task.judged(text)[0][0], 0)
        self.check(case, task, text)

    def check_on_purpose(self, draw, case, task, cert, alterations=ON_PURPOSE):
        """Checks a copy of a valid certificate with each alteration that it can have."""
        for answer, cause, alter in alterations:
            made = alter(draw, task, cert)
            if made is not None:
                self.check(f"{case}, {cause}", task, text_of(made), (answer, cause))

    def check_ends(self, case, task, text):
        """Checks a valid text with more behind its end."""
        for end in ENDS:
            self.check(f"{case}, {end} behind the end", task, text + end, ("certificate", "a line behind the end"))

    def check_copies(self, draw, case, task, text, count):
        """Checks copies of a text with one change each."""
        for copy in range(count):
            self.check(f"{case}, copy {copy}", task, altered(draw, text))

    def check_altered_steps(self, draw, case, task, cert, count):
        """Checks copies of a certificate with one change of its reductions or parts each."""
        for copy in range(count):
            self.check(f"{case}, steps {copy}", task, text_of(altered_steps(draw, cert)))
