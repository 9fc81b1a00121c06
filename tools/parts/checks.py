"""What was checked: how much of it holds, and a line for each thing that doesn't."""
from __future__ import annotations


class Checks:
    def __init__(self) -> None:
        self.passed = 0
        self.failed = 0

    def __call__(self, holds: object, place: object, what: str) -> bool:
        """Counts it, and tells it if it doesn't hold."""
        if holds:
            self.passed += 1
        else:
            self.failed += 1
            print(f"FAILED {place}: {what}")
        return bool(holds)

    def end(self) -> int:
        """The last line, and the exit status."""
        print(f"{self.passed} passed, {self.failed} failed")
        return 1 if self.failed else 0
