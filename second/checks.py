"""What the self tests share: a count of the checks that passed, and the failed ones by name."""

from typing import List


class Checks:
    """Counts the checks and remembers the failed ones."""

    def __init__(self) -> None:
        self.passed = 0
        self.failed: List[str] = []

    def that(self, holds: bool, what: str) -> None:
        if holds:
            self.passed += 1
        else:
            self.failed.append(what)
