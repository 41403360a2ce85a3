"""How far a job has come, 'NAME: frame 12 of 97', on stderr: on a terminal one line that rewrites itself, else few."""

import sys

LINES = 4  # where stderr is no terminal


class Progress:
    def __init__(self, name, what, total):
        self.name, self.what, self.total, self.told = name, what, total, 0
        self.terminal = sys.stderr.isatty()

    def at(self, number):
        """The job has come to this number."""
        number = min(number, self.total)
        due = number > self.told if self.terminal else number * LINES // self.total > self.told * LINES // self.total
        if due:
            self.told = number
            begin, end = ("\r", "\033[K") if self.terminal else ("", "\n")
            print(f"{begin}{self.name}: {self.what} {number} of {self.total}", end=end, file=sys.stderr, flush=True)

    def done(self):
        """Takes the line away, where there is one to take away."""
        if self.terminal:
            print("\r\033[K", end="", file=sys.stderr, flush=True)
