"""Counts checks that hold and checks that fail, and prints the failures."""


class Tally:
    def __init__(self, name):
        self.name, self.passed, self.failed = name, 0, 0

    def same(self, what, got, wanted):
        if got == wanted:
            self.passed += 1
        else:
            self.failed += 1
            print(f"FAILED {self.name}: {what}: got {got}, wanted {wanted}")

    def true(self, what, held):
        self.same(what, bool(held), True)

    def close(self):
        """Prints the line of this tally; 1 when anything failed."""
        print(f"{self.name}: {self.passed} passed, {self.failed} failed")
        return 1 if self.failed else 0
