"""Tests that are counted: each comparison is one, and so is each count that must be reached."""


class Tests:
    def __init__(self):
        self.passed = self.failed = 0

    def that(self, holds, what):
        if holds:
            self.passed += 1
        else:
            self.failed += 1
            print(f"FAILED: {what}")
        return holds

    def at_least(self, least, counts, what):
        """Each outcome turns up as often as this."""
        for outcome, count in least.items():
            print(f"{outcome}: {counts[outcome]} {what}, at least {count}")
            self.that(counts[outcome] >= count, f"{outcome} is too seldom among {what}")
