"""Counts passed and failed checks, prints a line for each, and ends with the line that ./test reads: 'N passed, M failed'."""
import re


class Count:
    """The numbers of passed and failed checks so far."""

    def __init__(self):
        self.passed = self.failed = 0

    def note(self, good, what, told=""):
        """Counts a check, with its name, and an explanation that is printed if it failed."""
        self.passed += bool(good)
        self.failed += not good
        print(f"ok: {what}" if good else f"FAILED: {what}{told and ': '}{told}")

    def told(self, what, right, why=""):
        """Counts a check and prints it immediately, with an explanation in either case."""
        self.passed += bool(right)
        self.failed += not right
        print(f"{'ok' if right else 'FAILED'}: {what}{f': {why}' if why else ''}", flush=True)

    def end(self):
        """Prints the last line, and returns the status of the test."""
        print(f"{self.passed} passed, {self.failed} failed")
        return 1 if self.failed else 0


def matches(want, got):
    """Returns whether lines match the expected ones, where `...` matches any lines."""
    pattern = "".join("(?:.*\n)*" if it == "..." else re.escape(it) + "\n" for it in want)
    return re.fullmatch(pattern, "".join(f"{it}\n" for it in got))
