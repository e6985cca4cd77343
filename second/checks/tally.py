"""Counting assertions."""


class Tally:
    def __init__(self):
        self.passed = 0
        self.failed = 0

    def expect(self, what, got, wanted):
        """One assertion. A failed one is shown and the run goes on."""
        if got == wanted:
            self.passed += 1
            return
        self.failed += 1
        print(f"  FAILED {what}: {shown(got)} and not {shown(wanted)}")

    def add(self, other):
        self.passed += other.passed
        self.failed += other.failed


def shown(value):
    text = repr(value)
    return text if len(text) <= 100 else text[:100] + ".."
