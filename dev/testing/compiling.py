"""Compiles programs side by side while something else is done."""
from __future__ import annotations

import subprocess
from collections.abc import Sequence

from dev.building import programs
from dev.building.progress import TOP, Counter

# What the tests in Python run: programs, and programs that the static library is linked into.
LIBRARY = "embedded"
TESTED = ("registryd", "probe", LIBRARY)


class Builds:
    """Builds of programs; what they still do is ended with this."""

    def __init__(self, names: Sequence[str]) -> None:
        self.failed, self.counter = False, Counter(f"test: compiling {' and '.join(names)}", programs.SECONDS)
        self.running = [subprocess.Popen([TOP / "tools" / "build", "--compiled", name], stdout=subprocess.DEVNULL,
                                         stderr=subprocess.PIPE, text=True) for name in names]

    def __enter__(self) -> Builds:
        return self

    def __exit__(self, *_: object) -> None:
        for build in self.running:
            build.terminate()
            build.communicate()
        self.counter.end()

    def left(self) -> int:
        """How many go on; what those say that have ended is shown."""
        for build in [build for build in self.running if build.poll() is not None]:
            self.running.remove(build)
            self.counter.clear()
            print(build.communicate()[1], end="", flush=True)
            self.failed = self.failed or build.returncode != 0
        if not self.running:
            self.counter.end()
        return len(self.running)
