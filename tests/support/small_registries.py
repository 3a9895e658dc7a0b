"""Random registries of a few packages that stand in each other's way, with pre-releases, build metadata and yanks, and
requests with locks: the cases for which all selections can be listed."""
from dataclasses import dataclass
from random import Random
from typing import Any

RELEASES = ["1.0.0", "1.1.0", "1.2.0", "2.0.0", "0.1.0", "2.1.3"]
OTHERS = ["1.1.0-alpha", "2.0.0-rc.1", "3.0.0-beta", "1.3.0+build.5"]
LOOSE = ["<={}", "<{}", ">={}", "*", "^{}", "<={}", "~{}", "={}"]
TIGHT = ["={}", "^{}", ">={}", "<={}", "~{}", "<{}", ">{}", "*", "={}", "={}"]
UNPUBLISHED = "9.9.9"


@dataclass
class Case:
    """The commands that make a registry, and a request."""
    commands: list[dict[str, Any]]
    request: dict[str, Any]


class Maker:
    """Makes a case of what a source of random numbers gives."""

    def __init__(self, rng: Random) -> None:
        self.rng = rng
        self.forms = TIGHT if rng.random() < 0.3 else LOOSE
        pool = RELEASES + (OTHERS if rng.random() < 0.5 else [])
        self.versions = {name: rng.sample(pool, rng.randint(2, 4)) for name in "abcdef"[:rng.randint(2, 5)]}

    def requirement(self, name: str) -> str:
        bound = self.rng.choice(self.versions[name]).split("+")[0]
        return self.rng.choice(self.forms).format(bound)

    def needs(self, name: str, density: float) -> list[list[str]]:
        others = [other for other in self.versions if other != name and self.rng.random() < density]
        self.rng.shuffle(others)
        return [[other, self.requirement(other)] for other in others[:3]]

    def commands(self) -> list[dict[str, Any]]:
        density = self.rng.choice([0.2, 0.35, 0.5, 0.7])
        rows = [(name, version) for name, versions in self.versions.items() for version in versions]
        self.rng.shuffle(rows)
        made = [{"op": "publish", "name": name, "version": version, "needs": self.needs(name, density)} for name,
                version in rows]
        return made + [{"op": "yank", "name": name, "version": version} for name,
                       version in rows if self.rng.random() < 0.12]

    def request(self) -> dict[str, Any]:
        names = list(self.versions)
        asked = self.rng.sample(names, self.rng.randint(1, min(3, len(names))))
        made = {"op": "resolve", "needs": [[name, self.rng.choice(["*", self.requirement(name)])] for name in asked]}
        if self.rng.random() < 0.5:
            locked = self.rng.sample(names, self.rng.randint(0, len(names)))
            made["lock"] = [[name, self.rng.choice(self.versions[name]) if self.rng.random() < 0.9 else UNPUBLISHED]
                            for name in locked]
        return made


def small_case(rng: Random) -> Case:
    maker = Maker(rng)
    return Case(maker.commands(), maker.request())
