"""What a run of tests comes to: how many passed and failed, and which could not run. `./test` ends with its lines."""
from __future__ import annotations

from dataclasses import dataclass


@dataclass(frozen=True)
class Counts:
    passed: int = 0
    failed: int = 0
    # each test that could not run, with the reason
    skipped: tuple[tuple[str, str], ...] = ()
    # what else is to be read of the run
    told: tuple[str, ...] = ()

    def __add__(self, other: Counts) -> Counts:
        return Counts(self.passed + other.passed, self.failed + other.failed, self.skipped + other.skipped,
                      self.told + other.told)

    def lines(self) -> list[str]:
        """Why each test was skipped, what else is told, and the line that counts them all."""
        reasons = [f"skipped: {test}: {reason}" for test, reason in self.skipped]
        return [*reasons, *self.told, f"{self.passed} passed, {self.failed} failed, {len(self.skipped)} skipped"]

    def status(self, nothing_skipped: bool = False) -> int:
        """The exit status: 1 where a test failed or none passed; and where one was skipped, if none may be."""
        return 1 if self.failed or not self.passed or (nothing_skipped and self.skipped) else 0
