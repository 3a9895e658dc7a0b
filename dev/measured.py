"""Files of seconds: what crates, or files of tests, take. A run of `./test` notes there what it measured."""
import contextlib
import os
import statistics
import time
from collections.abc import Iterable, Mapping

# A figure stands while a run measures at most so many times as much, or as little, beside the others: so a file changes
# seldom, and a machine that is slower changes none. These seconds are added to both, so that short times change
# nothing.
NEAR, SHORT = 2, 5


def lines_of(path: str | os.PathLike[str]) -> list[str]:
    with contextlib.suppress(FileNotFoundError), open(path, encoding="utf-8") as lines:
        return [*lines]
    return []


def read(path: str | os.PathLike[str]) -> dict[str, float]:
    pairs = [line.split("#")[0].split() for line in lines_of(path)]
    return {name: float(seconds) for name, seconds in filter(None, pairs)}


def note(path: str | os.PathLike[str], took: Mapping[str, float], names: Iterable[str]) -> None:
    """Notes what a run has measured; `names` are all that the file is to have, in order."""
    before = read(path)
    known = before.keys() & took
    pace = statistics.median(before[name] / took[name] for name in known) if known else 1
    new: dict[str, float] = {name: round(seconds * pace) for name, seconds in took.items()}
    stands = {name for name in before
              if name not in new or 1 / NEAR <= (new[name] + SHORT) / (before[name] + SHORT) <= NEAR}
    figures = {name: (before if name in stands else new)[name] for name in names if name in before or name in new}
    if figures != before:
        about = [line for line in lines_of(path) if line.startswith("#")]
        with open(path, "w", encoding="utf-8") as file:
            file.writelines([*about, *(f"{name} {seconds:g}\n" for name, seconds in figures.items())])


class Proofs:
    """What the proof of each crate takes in the kit's gate, which tells of each when it is proved, and begins others at
    that moment: a crate that has begun has its folder `out`."""

    def __init__(self, folders: Mapping[str, str | os.PathLike[str]]) -> None:
        self.folders, self.last = folders, time.monotonic()
        self.begun: dict[str, float] = {}
        self.took: dict[str, float] = {}

    def tell(self, name: str) -> None:
        self.begun.update((crate, self.last) for crate, folder in self.folders.items()
                          if crate not in self.begun and os.path.isdir(os.path.join(folder, "out")))
        self.last = time.monotonic()
        if name in self.begun:
            self.took[name] = self.last - self.begun[name]
