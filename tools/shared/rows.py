"""Rows that are tried: a line for each, and `N passed, M failed` at the end."""

import sys

from shared.command_line import program_at, words_of


class Rows:
    """What was tried, and how much of it passed."""

    def __init__(self):
        self.passed = self.failed = 0

    def tell(self, name, right, seen=""):
        self.passed, self.failed = self.passed + bool(right), self.failed + (not right)
        print(f"{'ok    ' if right else 'FAILED'} {name}{'' if right else f': {seen}'}", flush=True)

    def end(self):
        """The last line; the exit status."""
        print(f"{self.passed} passed, {self.failed} failed", flush=True)
        return 1 if self.failed else 0


def try_rows(help_text, try_all):
    """A tool of rows: tries the program that its one word names, and ends."""
    (program,) = words_of(help_text, 1, 1)
    rows = Rows()
    try_all(rows, program_at(program))
    sys.exit(rows.end())
