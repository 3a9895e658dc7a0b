"""What an index has of a crate, whatever its form is: its releases in order of publication, with their dependencies as
they stand there. What is left out, or told otherwise than it stands there, is noted with the crate."""
from __future__ import annotations

from collections import Counter
from dataclasses import dataclass, field

from ..check_derivation import read_version
from ..failures import Refused
from ..shapes import Dependency, Iterable, Pairs


class Unusable(Refused):
    """Why an index gives no lines at all."""


class Notes:
    """What was left out, rewritten or missing: of each kind how often, and the first of it."""

    def __init__(self) -> None:
        self.counts: Counter[tuple[str, str]] = Counter()
        self.firsts: dict[tuple[str, str], str] = {}

    def left_out(self, kind: str, example: str) -> None:
        self.add(("left out", kind), example)

    def otherwise(self, kind: str, example: str) -> None:
        self.add(("rewritten", kind), example)

    def missing(self, kind: str, example: str) -> None:
        self.add(("missing", kind), example)

    def add(self, kind: tuple[str, str], example: str, times: int = 1) -> None:
        self.counts[kind] += times
        self.firsts.setdefault(kind, example)

    def take(self, notes: Notes) -> None:
        for kind, times in notes.counts.items():
            self.add(kind, notes.firsts[kind], times)

    def lines(self) -> list[str]:
        return [f"{heading}: {kind}: {self.counts[heading, kind]} (first: {self.firsts[heading, kind]})"
                for heading, kind in sorted(self.counts)]


@dataclass
class Release:
    version: str
    needs: list[Dependency]  # a crate may stand there more than once
    yanked: bool = False


@dataclass
class Crate:
    name: str
    releases: list[Release] = field(default_factory=list)
    notes: Notes = field(default_factory=Notes)


def folded(name: str) -> str:
    """No index of Cargo's has two names that differ in case, or in `-` and `_`, alone."""
    return name.lower().replace("_", "-")


class Index:
    """The names of an index, in small letters. Of those that fold to one the first is taken."""

    def __init__(self) -> None:
        self.spellings: dict[str, str] = {}
        self.notes = Notes()

    def enter(self, name: str) -> bool:
        """Takes a name, and says whether it is not in the way of another."""
        taken = self.spellings.setdefault(folded(name), name.lower())
        if taken != name.lower():
            self.notes.left_out("crates named as another one but for `-`, `_` and capitals", f"{name}, as {taken}")
        return taken == name.lower()

    def spelled(self, name: str) -> str:
        """A name as this index spells it; one that is not there as it stands, in small letters."""
        return self.spellings.get(folded(name), name.lower())

    def has(self, name: str) -> bool:
        return folded(name) in self.spellings

    def names(self) -> list[str]:
        return sorted(self.spellings.values())

    def crate(self, name: str) -> Crate:
        """A crate that is there, by its name as this index spells it."""
        raise NotImplementedError

    def own(self) -> list[Dependency]:
        """The names and versions of what is asked for where nothing is named: of a workspace its own packages."""
        return []

    def locked(self) -> Pairs:
        """The versions that are locked, as pairs of a name and a version."""
        return []


def need(crate: str, release: str, target: str) -> str:
    return f"{crate} {release} needs {target}"


def by_precedence(releases: Iterable[Release]) -> list[Release]:
    """Releases in rising precedence, those whose version is none first."""
    return sorted(releases, key=lambda it: read_version(it.version) or ())
