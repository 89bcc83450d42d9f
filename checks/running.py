"""A folder in which the built program runs, and what was right and wrong there. The checks beside it share it."""

import contextlib
import os
import subprocess
from collections import Counter

SECONDS = 60
LEAST = 10


class Bench:
    """The program, its folder, how much passed and failed, and how often it was seen to give each answer."""

    def __init__(self, program, folder):
        self.program, self.folder = program, folder
        self.passed, self.failed = 0, 0
        self.reached = Counter()

    def put(self, name, content):
        with open(f"{self.folder}/{name}", "wb") as file:
            file.write(content)

    def get(self, name):
        with open(f"{self.folder}/{name}", "rb") as file:
            return file.read()

    def has(self, name):
        return os.path.exists(f"{self.folder}/{name}")

    def remove(self, name):
        with contextlib.suppress(FileNotFoundError):
            os.remove(f"{self.folder}/{name}")

    def run(self, *words, seconds=SECONDS):
        """The status, out and err of a run with these words."""
        try:
            done = subprocess.run([self.program, *words], cwd=self.folder, capture_output=True, stdin=subprocess.DEVNULL,
                                  timeout=seconds)
        except subprocess.TimeoutExpired:
            return None, b"", f"not done after {seconds} seconds".encode()
        return done.returncode, done.stdout, done.stderr

    def compare(self, case, got, want):
        if got == want:
            self.passed += 1
        else:
            self.failed += 1
            print(f"{case}: got {shown(got)}, want {shown(want)}", flush=True)

    def print_reached(self, groups):
        """Prints how often each answer of each group was given, by its causes, and fails what was given too rarely."""
        for group, causes in groups.items():
            counts = {cause: self.reached[group, cause] for cause in causes}
            print(f"{group}: {sum(counts.values())} ({', '.join(f'{cause} {count}' for cause, count in counts.items())})")
            for cause, count in counts.items():
                self.compare(f"{group}, {cause}, at least {LEAST} times", count >= LEAST, True)

    def finish(self):
        """Prints the counts, and answers the status of the check."""
        print(f"{self.passed} passed, {self.failed} failed")
        return 1 if self.failed or not self.passed else 0


def shown(value):
    """A value as a failing case prints it: long ones are cut."""
    text = repr(value)
    return text if len(text) <= 400 else f"{text[:300]} .. {text[-80:]}"
