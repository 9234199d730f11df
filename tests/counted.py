"""What came of a part's checks. Its last line is what the gate reads: 'N passed, M failed', and ', K skipped' where something could not be asked."""

SHOWN = 20  # of what failed


class Count:
    def __init__(self):
        self.passed = self.failed = self.skipped = 0

    def expect(self, held, what):
        self.passed, self.failed = self.passed + bool(held), self.failed + (not held)
        if not held and self.failed <= SHOWN:
            print(what)

    def skip(self, reason):
        self.skipped += 1
        print(f"skipped: {reason}")

    def end(self):
        """Prints the last line, and gives the exit status."""
        print(f"{self.passed} passed, {self.failed} failed" + (f", {self.skipped} skipped" if self.skipped else ""))
        return 1 if self.failed else 0
