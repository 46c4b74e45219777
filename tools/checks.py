"""Counts what a check of this folder tries, and tells what doesn't hold."""


class Checks:
    def __init__(self, name):
        self.name, self.count, self.faults = name, 0, 0

    def check(self, what, holds, seen=""):
        """Counts a check. Where it doesn't hold, tells what and the end of what was seen."""
        self.count += 1
        if not holds:
            self.faults += 1
            print(f"{what}: not so{': ' if seen != '' else ''}{str(seen)[-600:].strip()}")

    def skip(self, why):
        print(f"{self.name}: skipped: {why}")

    def end(self):
        """Prints the last line, and gives the status."""
        print(f"{self.name}: {self.count} checks, {self.faults} faults")
        return 1 if self.faults else 0
