"""Tables whose rows are many, or too long to be read, and which are therefore made when they are asked.

Each function under `@tables` is one test. It yields tables, each a title and its rows; a row is written as in the
files under rows/, and a table begins a session of its own. The comment of the function is the source of what is
wanted.
"""
import json
from collections.abc import Callable, Iterable, Iterator
from typing import Any

from tests.support.program import publish

Rows = list[dict[str, Any]]
Tables = Callable[[], Iterator[tuple[str, Rows]]]

GENERATORS: list[Tables] = []


def tables(make: Tables) -> Tables:
    GENERATORS.append(make)
    return make


def row(of: str, call: str, gives: Any = None, **given: Any) -> dict[str, Any]:
    return {"of": of, "call": call, **given, "gives": gives}


def pairs(texts: Iterable[str]) -> list[list[str]]:
    """Texts of two words, as `log ^1`, as pairs."""
    return [text.split(" ", 1) for text in texts]


def entered(lines: Iterable[str]) -> Rows:
    """Rows that enter commands, given as request lines, each of which is accepted."""
    commands = map(json.loads, lines)
    return [row("registry", it.pop("op"), revision, **it) for revision, it in enumerate(commands, 1)]


def published(*versions: tuple[str, ...]) -> Rows:
    """Rows that publish versions, each given as a name, a version and what it needs."""
    return entered(publish(name, version, needs) for name, version, *needs in versions)


def premise(package: Any, target: Any, within: Any) -> dict[str, Any]:
    return {"package": package, "versions": [0], "target": target, "need": "^1.0.0", "within": within}


# for so many requirements of a package the matching sets are kept: those that were named first
KEPT_SETS = 128
PATCHES = 70


@tables
def requirements_beyond_those_whose_sets_are_kept() -> Iterator[tuple[str, Rows]]:
    """docs/ARCHITECTURE.md, "A publish line": the first requirements on a package have their sets kept."""
    needs = [f"{sign}0.0.{patch}" for sign in (">=", "<") for patch in range(PATCHES)]
    users = [("b", f"1.{place}.0", f"a {need}") for place, need in enumerate(needs)]
    rows = published(("a", "0.0.0"), *users, ("a", "0.0.7"))
    rows += [row("registry", "is_kept", place < KEPT_SETS, pkg=1, need=need) for place, need in enumerate(needs)]
    yield f"{len(needs)} requirements of a package, each of a version that depends on it", rows


@tables
def many_requests_at_once() -> Iterator[tuple[str, Rows]]:
    """Each request is met by one version alone, and every ninth by none."""
    versions = [f"1.{minor}.0" for minor in range(16)]
    requests: list[Any] = []
    answers: list[Any] = []
    for place in range(256):
        version, is_hopeless = versions[place * 7 % 16], place % 9 == 8
        needs = [["a", f"={version}"], *([["b", "*"]] if is_hopeless else [])]
        requests.append({"needs": needs, "lock": [], **({"budget": 0} if is_hopeless else {})})
        answers.append({"refused": 22} if is_hopeless else {"selected": [["a", version]]})
    rows = published(*(("a", version) for version in versions))
    for workers in (1, 2, 7, 64):
        rows.append(row("pool", "answer_all", answers, workers=workers, requests=requests))
        rows += [row("pool", "answer_in_order", answers[:count], workers=workers, count=count, requests=requests)
                 for count in (256, 100)]
    yield "256 requests have the same answers in the same order, by however many threads", rows
