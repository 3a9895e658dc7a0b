"""Derivations made wrong in one place. Each damage changes the lines, or the request, of a derivation that follows, and
answers whether it surely does not follow then: that says the judge of `refuter.py`."""
import functools
from random import Random
from typing import Any

from tests.support.made_lines import places
from tests.support.refuter import BEYOND, ROOT, Known

STRANGE = [{"fact": "root", "index": 0}, {"fact": "ROOT"}, {}, {"line": 1, "fact": "root"},
           {"fact": "disallowed", "name": ROOT, "versions": []},
           {"fact": "disallowed", "name": "nobody", "versions": [0]},
           {"fact": "line", "line": 1}, {"fact": "judge"}, {"fact": ["root"]}]
# What is changed, of the whole, of a line, of a term of its conclusion, and of its causes.
KINDS = ["last_line", "needs", "lock", "pivot", "conclusion", "cause", "package", "sign", "ordinals",
         "line", "index", "name", "target", "need", "versions", "within"]


class Damage:
    """One derivation that follows, and what it may be damaged by: a method for each kind."""

    def __init__(self, known: Known, request: dict[str, Any], rows: list[dict[str, Any]], _said: Any,
                 rng: Random) -> None:
        self.known, self.rows, self.rng = known, rows, rng
        self.request: dict[str, Any] = {"lock": [], **request}

    def change(self, kind: str) -> bool:
        """Changes one thing of a kind; whether the derivation does not follow then."""
        every = [("last_line", vars(self), "rows"), ("needs", self.request, "needs"), ("lock", self.request, "lock"),
                 *places(self.rows)]
        found = [(holder, key) for held, holder, key in every if held == kind]
        if not found:
            return False
        holder, key = self.rng.choice(found)
        holder[key] = self.other(kind, holder[key])
        return not self.known.follows(self.rows, self.request)

    def other(self, kind: str, old: Any) -> Any:
        """Another thing of a kind."""
        packages = [*self.known.names, "nobody"]
        if kind == "last_line":
            return old[:-1]
        if kind in ("versions", "within", "ordinals"):
            changed = sorted({*old} ^ {self.rng.choice([0, 1, 2, 3, BEYOND])})
            return self.rng.choice([changed, changed, changed, old[::-1], old * 2])
        if kind == "conclusion":
            return self.rng.choice([old[:-1], old[1:], old[::-1], old + old[-1:],
                                    [*old, [self.rng.choice(packages), True, [0]]]])
        choices: Any = {"needs": lambda: [old[:-1], old[1:]],
                        "lock": lambda: [[[name, held[0] + "+locked"]] for name in self.known.names
                                         for held in self.known.releases(name) if held[2]] or [old],
                        "cause": lambda: STRANGE, "sign": lambda: [not old],
                        "line": lambda: [0, *range(1, len(self.rows) + 2), 4294967295],
                        "index": lambda: [*range(len(self.request["needs"]) + 2), 4294967295],
                        "need": lambda: sorted({text for name in self.known.names
                                                for _, needs, _ in self.known.releases(name) for _, text in needs}
                                               | {"=9.9.9"})}
        return self.rng.choice(choices.get(kind, lambda: packages)())


for it in KINDS:
    setattr(Damage, it, functools.partialmethod(Damage.change, it))
