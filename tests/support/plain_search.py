"""Which selections meet a request, found by trying everything: the rules of selections and of
requirements in plain Python that shares nothing with the program."""
import operator
import re
from collections.abc import Callable, Iterable
from functools import lru_cache
from itertools import product
from typing import Any

from tests.support.reference import precedence

COMPARATOR: Any = re.compile(r"\s*(\^|=|>=|<=|>|<|~)?\s*(\d+)\.(\d+)\.(\d+)(?:-([0-9A-Za-z.-]+))?\s*")
COMPARES: dict[str, Callable[[Any, Any], bool]] = {
    "=": operator.eq, ">": operator.gt, ">=": operator.ge, "<": operator.lt, "<=": operator.le}


def pre_key(pre: str | None) -> tuple[Any, ...]:
    """Pre-release identifiers in rising precedence; a version without is higher than each with."""
    if pre is None:
        return (1,)
    return (0, [(0, int(part), "") if part.isdigit() else (1, 0, part) for part in pre.split(".")])


@lru_cache(maxsize=100_000)
def key(version: str) -> tuple[int, int, int, tuple[Any, ...]]:
    """Versions compare as their keys do, by precedence."""
    major, minor, patch, pre = precedence(version)
    return (int(major), int(minor), int(patch), pre_key(pre))


def compares(op: str, bound: tuple[Any, ...], version: tuple[Any, ...]) -> bool:
    """Whether a version passes one comparator with a full version behind its operator."""
    if op in COMPARES:
        return COMPARES[op](version, bound)
    # a caret keeps the first number that is not zero, a tilde the first two
    kept = 2 if op == "~" else 1 if bound[0] else 2 if bound[1] else 3
    return version[:kept] == bound[:kept] and version >= bound


@lru_cache(maxsize=100_000)
def matches(requirement: str, text: str) -> bool:
    """Whether a version meets a requirement of comparators with full versions, or `*`."""
    version = key(text)
    if requirement == "*":
        return version[3] == (1,)
    opened = version[3] == (1,)
    for part in requirement.split(","):
        op, major, minor, patch, pre = COMPARATOR.fullmatch(part).groups()
        bound = (int(major), int(minor), int(patch), pre_key(pre))
        if not compares(op or "^", bound, version):
            return False
        # a pre-release is let in only where a comparator names one of the same three numbers
        opened = opened or (pre is not None and bound[:3] == version[:3])
    return opened


class Published:
    """What was published: by package the versions in order, each [text, needs, whether yanked]."""

    matches = staticmethod(matches)

    def __init__(self) -> None:
        self.versions: dict[str, list[Any]] = {}

    def apply(self, request: Any) -> None:
        rows = self.versions.setdefault(request["name"], [])
        if request["op"] == "publish":
            rows.append([request["version"], request["needs"], False])
            return
        for row in rows:
            if key(row[0]) == key(request["version"]):
                row[2] = request["op"] == "yank"

    def allowed(self, name: str, lock: list[list[str]]) -> list[tuple[str, list[list[str]]]]:
        """The versions of a package that a request with this lock may have, with their needs."""
        locked = [key(version) for package, version in lock if package == name]
        return [(text, needs) for text, needs, yanked in self.versions.get(name, [])
                if not yanked or key(text) in locked]

    def preferred(self, name: str, needs: list[list[str]], lock: list[list[str]]) -> Any:
        """The preferred version of a package, with its needs, or none."""
        asked = [requirement for package, requirement in needs if package == name]
        locked = [key(version) for package, version in lock if package == name]
        rows: list[Any] = [row for row in self.allowed(name, lock) if all(self.matches(it, row[0]) for it in asked)]
        kept = [row for row in rows if key(row[0]) in locked]
        return kept[0] if kept else max(rows, key=lambda row: key(row[0]), default=None)

    def is_met(self, chosen: dict[str, Any], needs: list[list[str]]) -> bool:
        return all(name in chosen and self.matches(requirement, chosen[name][0]) for name, requirement in needs)

    def reached(self, chosen: dict[str, Any], needs: list[list[str]]) -> set[str]:
        """The packages that are reached from the needs along the needs of chosen versions."""
        found, left = set(), [name for name, _ in needs]
        while left:
            name = left.pop()
            if name not in found:
                found.add(name)
                left += [target for target, _ in chosen[name][1]] if name in chosen else []
        return found

    def selections(self, needs: list[list[str]], lock: list[list[str]],
                   names: Iterable[str] | None = None) -> list[list[list[str]]]:
        """Each selection that meets the request, as a sorted list of names and versions, of all packages or these."""
        names = sorted(self.versions if names is None else names)
        found = []
        for choice in product(*([None, *self.allowed(name, lock)] for name in names)):
            chosen = {name: row for name, row in zip(names, choice) if row}
            met = all(self.is_met(chosen, asked) for asked in [needs, *(row[1] for row in chosen.values())])
            if met and self.reached(chosen, needs) == set(chosen):
                found.append([[name, chosen[name][0]] for name in sorted(chosen)])
        return found

    def preferred_selection(self, needs: list[list[str]], lock: list[list[str]]) -> list[list[str]] | None:
        """The selection of preferred versions, or none where one of them lacks."""
        chosen, left = {}, [name for name, _ in needs]
        while left:
            name = left.pop()
            if name in chosen:
                continue
            row = self.preferred(name, needs, lock)
            if row is None:
                return None
            chosen[name] = row
            left += [target for target, _ in row[1]]
        return [[name, chosen[name][0]] for name in sorted(chosen)]

    def answers(self, request: dict[str, Any]) -> list[Any]:
        """The selections that may be answered: the preferred one alone, where it meets the request."""
        needs, lock = request["needs"], request.get("lock", [])
        lawful, preferred = self.selections(needs, lock), self.preferred_selection(needs, lock)
        return [preferred] if preferred in lawful else lawful
