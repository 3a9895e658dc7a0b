"""The rules of the registry once more, in plain Python that shares nothing with
the program: what each line is answered, and what it changes."""
import re
from collections.abc import Container
from functools import lru_cache
from typing import Any

from registry_cli.limits import MOST_NAME_BYTES, MOST_NEEDS, MOST_PACKAGES, MOST_VERSION_BYTES, MOST_VERSIONS

NUMBER = r"(0|[1-9]\d*)"
IDENTIFIER = r"(?:0|[1-9]\d*|\d*[A-Za-z-][0-9A-Za-z-]*)"
VERSION = re.compile(
    rf"{NUMBER}\.{NUMBER}\.{NUMBER}(?:-({IDENTIFIER}(?:\.{IDENTIFIER})*))?(?:\+[0-9A-Za-z-]+(?:\.[0-9A-Za-z-]+)*)?",
    re.ASCII)
NAME = re.compile("[a-z][a-z0-9_-]{0,%d}" % (MOST_NAME_BYTES - 1))
REFUSALS = {1: "BadName", 2: "BadVersion", 3: "BadRequirement", 4: "RepeatedDependency", 5: "SelfDependency",
            6: "TooManyDependencies", 7: "AlreadyPublished", 8: "TooManyVersions", 9: "TooManyPackages",
            10: "JournalFull", 11: "NoSuchVersion", 12: "AlreadyYanked", 13: "NotYanked", 18: "NoMemory", 19: "BadLine"}


@lru_cache(maxsize=100_000)
def precedence(text: str) -> Any:
    """The version without its build metadata: equal for versions of equal precedence. None for no version."""
    found = VERSION.fullmatch(text)
    if not found or len(text) > MOST_VERSION_BYTES or any(int(number) >= 2 ** 64 for number in found.groups()[:3]):
        return None
    return found.groups()


class Registry:
    def __init__(self) -> None:
        self.names: list[str] = []  # in order of first mention
        self.versions: dict[str, list[list[Any]]] = {}  # by name: [text, precedence, whether it is yanked]
        self.revision = 0

    def refusal(self, request: Any, requirements: Container[str]) -> int | None:
        """The lowest refusal that applies to a request of the right shape, or none."""
        if request["op"] == "list":
            return None
        name, needs = request["name"], request.get("needs", [])
        if not all(NAME.fullmatch(text) for text in [name, *(need[0] for need in needs)]):
            return 1
        asked = precedence(request["version"])
        if asked is None:
            return 2
        if not all(need[1] in requirements for need in needs):
            return 3
        held = self.versions.get(name, [])
        found = [row for row in held if row[1] == asked]
        if request["op"] == "publish":
            targets = [need[0] for need in needs]
            tests = [(4, len(set(targets)) < len(targets)), (5, name in targets),
                     (6, len(targets) > MOST_NEEDS), (7, found),
                     (8, len(held) >= MOST_VERSIONS), (9, len({*self.names, name, *targets}) > MOST_PACKAGES)]
        else:
            tests = [(11, not found), (12, request["op"] == "yank" and found and found[0][2]),
                     (13, request["op"] == "unyank" and found and not found[0][2])]
        return next((number for number, applies in tests if applies), None)

    def apply(self, request: Any) -> None:
        name = request["name"]
        if request["op"] == "publish":
            for mentioned in [name, *(need[0] for need in request["needs"])]:
                if mentioned not in self.versions:
                    self.names.append(mentioned)
                    self.versions[mentioned] = []
            self.versions[name].append([request["version"], precedence(request["version"]), False])
        else:
            for row in self.versions[name]:
                if row[1] == precedence(request["version"]):
                    row[2] = request["op"] == "yank"
        self.revision += 1

    def refused(self, number: int) -> str:
        return f'{{"error":{number},"name":"{REFUSALS[number]}","revision":{self.revision}}}'

    def answer(self, request: Any, requirements: Container[str]) -> str:
        """The reply to a request of the right shape; an accepted command is carried out."""
        number = self.refusal(request, requirements)
        if number:
            return self.refused(number)
        if request["op"] == "list":
            rows = [[name, [[row[0], row[2]] for row in self.versions[name]]]
                    for name in sorted(self.names) if self.versions[name]]
            text = repr(rows).replace("'", '"').replace(" ", "").replace("True", "true").replace("False", "false")
            return f'{{"packages":{text},"revision":{self.revision}}}'
        self.apply(request)
        return f'{{"ok":true,"revision":{self.revision}}}'
