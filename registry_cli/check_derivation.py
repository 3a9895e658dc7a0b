"""Says whether the derivations of refused requests follow. It shares nothing with the program.

    tools/check_derivation.py REQUESTS REPLIES     the request lines of a session, and its reply lines
    tools/check_derivation.py SESSION              both in one file by turns: a request, its reply, the next request
    tools/check_derivation.py --journal FILE ..    the packages are a journal file's, at the revision of each reply

Each refusal with a derivation gets a line. Status 0: all follow; 1: one does not; 2: there is no judging it. The rules
are those of Semantic Versioning 2.0.0, of the Cargo Book ("Specifying Dependencies", as the crate `semver` reads it)
and of Dart pub's doc/solver.md. The words of explanations are not judged."""
from __future__ import annotations

import re
import sys
from functools import lru_cache

TYPE_CHECKING = False  # for who checks types it is true by its name, as that of `typing` is
if TYPE_CHECKING:
    from collections.abc import Callable, Collection, Iterable, Iterator, Mapping, Sequence
    from typing import Any

    Version = tuple[Any, ...]  # three numbers, then RELEASE or a tuple for the pre-release; of a comparator fewer
    Term = tuple[bool, frozenset[int]]  # that a choice lies in a set, or does not
    Terms = dict[str, Term]
    Object = Mapping[str, Any]  # an object of JSON that nobody has judged

NUMBER = "(0|[1-9][0-9]*)"
IDENTIFIER = "(?:0|[1-9][0-9]*|[0-9]*[A-Za-z-][0-9A-Za-z-]*)"
TAIL = rf"(?:-({IDENTIFIER}(?:\.{IDENTIFIER})*))?(?:\+[0-9A-Za-z-]+(?:\.[0-9A-Za-z-]+)*)?"
# compiled where it is used first
COMPARATOR = (rf"(=|>=|>|<=|<|~|\^)? *{NUMBER}"
              rf"(?:\.(?:{NUMBER}(?:\.(?:{NUMBER}{TAIL}|([*xX])))?|([*xX])(?:\.[*xX])?))?")
NAME = re.compile("[a-z][a-z0-9_-]{0,63}")
MOST_BYTES, MOST_COMPARATORS = 256, 32
RELEASE = (1,)  # what a version without a pre-release has in its place: it stands above each pre-release
UNSEEN = (6, 8, 9, 10, 18, 19)  # refusals for limits, for memory and for a line's form: they are followed, not judged
ROOT = ""  # the package that stands for the request; its one version has the ordinal 0
ALWAYS: Term = (False, frozenset())  # a term says that a choice lies in a set (True) or does not; this one always holds
NEVER: Terms = {ROOT: (True, frozenset({0}))}  # the request can't be met
PAIRS, ORDINALS = [(str, str)], range  # forms of JSON values, as `formed` takes them: ordinals rise
COMMANDS: list[dict[str, object]] = [
    {"op": "publish", "name": str, "version": str, "needs": PAIRS},
    {"op": "yank", "name": str, "version": str}, {"op": "unyank", "name": str, "version": str}]
RESOLVE = {"op": "resolve", "needs": PAIRS, "lock": PAIRS, "explain": bool, "budget": int}
LINE = {"causes": (dict, dict), "conclusion": [(str, bool, ORDINALS)], "pivot": str}
CAUSES: dict[str, dict[str, object]] = {
    "line": {"line": int}, "root": {"fact": "root"}, "need": {"fact": "need", "index": int},
    "disallowed": {"fact": "disallowed", "name": str, "versions": ORDINALS},
    "premise": {"fact": "premise", "name": str, "need": str, "target": str, "versions": ORDINALS, "within": ORDINALS}}


class Fault(Exception):
    """Why a derivation does not follow. What can't be judged at all is a ValueError."""


def demand(holds: object, why: str, kind: type[Exception] = Fault) -> None:
    if not holds:
        raise kind(why)


def formed(value: Any, form: object) -> bool:
    """Whether a JSON value has a form: members, each item or all, rising ordinals, a number, a text, a type."""
    if form is ORDINALS:
        return formed(value, [int]) and all(low < high for low, high in zip(value, value[1:]))
    if form is int:
        return type(value) is int and 0 <= value < 2 ** 32
    if isinstance(form, type):
        return type(value) is form
    if isinstance(form, dict):
        return isinstance(value, dict) and set(value) == set(form) and all(formed(value[it], form[it]) for it in form)
    if isinstance(form, tuple):
        return isinstance(value, list) and len(value) == len(form) and all(map(formed, value, form))
    if isinstance(form, list):
        return isinstance(value, list) and all(formed(it, form[0]) for it in value)
    return bool(value == form)


@lru_cache(maxsize=None)
def read_comparator(text: str) -> tuple[str, Version] | None:
    """An operator, one to three numbers and a pre-release, whose numbers stand below its words; else none."""
    found = re.fullmatch(COMPARATOR, text) if len(text) <= MOST_BYTES else None
    numbers: list[Any] = [int(it) for it in found.groups()[1:4] if it] if found else []
    if not found or max(numbers) >= 2 ** 64:
        return None
    if len(numbers) == 3:
        pre = [(0, int(it), "") if it.isdigit() else (1, 0, it) for it in (found[5] or "").split(".")]
        numbers.append((0, *pre) if found[5] else RELEASE)
    # without an operator a wildcard asks for the numbers before it, and anything else is a caret
    return found[1] or ("=" if found[6] or found[7] else "^"), tuple(numbers)


def read_version(text: str) -> Version | None:
    """A version as it compares by precedence, so without build metadata; none for a text that is no version."""
    _, version = read_comparator(text) or ("", ())
    return version if len(version) == 4 and text[0].isdigit() else None


def precedence(text: str) -> Version:
    version = read_version(text)
    if version is None:
        raise ValueError(f"{text} is no version")
    return version


def read_requirement(text: str) -> list[tuple[str, Version]] | None:
    """The comparators of a requirement; none for a text that is no requirement."""
    parts = [] if text.strip(" ") in ("*", "x", "X") else [read_comparator(it.strip(" ")) for it in text.split(",")]
    read = [it for it in parts if it]
    return None if len(text) > MOST_BYTES or len(parts) > MOST_COMPARATORS or len(read) < len(parts) else read


def passes(sign: str, bound: Version, version: Version) -> bool:
    """Whether a version passes one comparator, which may leave numbers out."""
    head, numbers, plain = version[:len(bound)], bound[:3], len(bound) == 4 or version[3] == RELEASE
    if sign == "^":
        # up to the first not zero
        kept = next((place for place, number in enumerate(numbers, 1) if number), len(numbers))
        return head[:kept] == bound[:kept] and head >= bound
    if sign == "~":
        return head[:2] == bound[:2] and head >= bound and plain
    return ("=" in sign and head == bound and plain) or (">" in sign and head > bound) or ("<" in sign and head < bound)


def admits(requirement: str, version: Version) -> bool:
    """Whether it meets a requirement; a pre-release wants a comparator with a pre-release of the same numbers."""
    comparators = read_requirement(requirement)
    if comparators is None:
        raise ValueError(f"{requirement} is no requirement")
    opened = any(len(bound) == 4 and bound[3] != RELEASE and bound[:3] == version[:3] for _, bound in comparators)
    return (opened or version[3] == RELEASE) and all(passes(*it, version) for it in comparators)


def readable(names: Iterable[str], needs: Sequence[Sequence[str]], versions: Iterable[str]) -> bool:
    """Whether names, pairs of a package and its requirement, and versions may stand, and no package is needed twice."""
    targets = [target for target, _ in needs]
    return (all(map(NAME.fullmatch, [*names, *targets])) and len(set(targets)) == len(targets)
            and None not in [*map(read_version, versions), *(read_requirement(it) for _, it in needs)])


class Release:
    def __init__(self, text: str, version: Version, needs: dict[str, str]) -> None:
        self.text, self.version, self.needs, self.yanked = text, version, needs, False


class Registry:
    """What was published and yanked, by the rules carried out once more."""

    def __init__(self) -> None:
        self.numbers = {ROOT: 0}  # packages are numbered in order of first mention
        # by package in order of publication: the place is the version's ordinal
        self.releases: dict[str, list[Release]] = {}
        self.revision = 0

    def matching(self, name: str, requirement: str) -> frozenset[int]:
        held = self.releases.get(name, [])
        return frozenset(place for place, it in enumerate(held) if admits(requirement, it.version))

    def find(self, name: str, version: str) -> Release | None:
        asked = read_version(version)
        return next((it for it in self.releases.get(name, []) if it.version == asked), None)

    def accepts(self, op: str, name: str, version: str, needs: Sequence[Sequence[str]] = ()) -> bool:
        """Whether a command may be carried out, its limits aside."""
        found = self.find(name, version)
        fitting = found is None if op == "publish" else found is not None and found.yanked == (op == "unyank")
        return fitting and readable([name], needs, [version]) and name not in [target for target, _ in needs]

    def obey(self, command: Object, reply: Object) -> bool:
        """Carries out a command if it was accepted, and says whether the reply to a line is as the rules have it."""
        lawful = any(formed(command, form) for form in COMMANDS) and self.accepts(**command)
        accepted = reply.get("ok") is True
        if not (lawful and accepted):
            return not accepted and (not lawful or reply.get("error") in UNSEEN)
        for it in [command["name"], *(target for target, _ in command.get("needs", []))]:
            self.numbers.setdefault(it, len(self.numbers))
            self.releases.setdefault(it, [])
        name, text = command["name"], command["version"]
        found = self.find(name, text)
        if found:
            found.yanked = command["op"] == "yank"
        else:
            self.releases[name].append(Release(text, precedence(text), dict(command["needs"])))
        self.revision += 1
        return True


def resolve(first: Terms, second: Terms, pivot: str) -> Terms:
    """What follows from two incompatibilities: on the pivot the term of either, on every other package both."""
    terms: Terms = {}
    for name in {*first, *second}:
        pair = [it.get(name, ALWAYS) for it in (first, second)]
        join: Callable[[Iterable[object]], bool] = any if name == pivot else all
        # a choice that neither set has, none among them, makes the terms true that say "not in"
        others = join(not inside for inside, _ in pair)
        named = {it for _, ordinals in pair for it in ordinals}
        apart = {it for it in named if join((it in ordinals) == inside for inside, ordinals in pair) != others}
        terms[name] = (not others, frozenset(apart))
    return {name: term for name, term in terms.items() if term != ALWAYS}


class Judge:
    """An incompatibility is a term by package: they may not all hold, and a missing one always does."""

    def __init__(self, registry: Registry, request: Object) -> None:
        lock = dict(request["lock"]) if formed(request, RESOLVE) else None
        asked = lock is not None and readable(lock, request["needs"], lock.values())
        demand(asked, f"a derivation for what is no request that could be refused: {request}", ValueError)
        self.registry, self.needs = registry, request["needs"]
        self.conclusions: list[Terms] = []
        self.lock = {name: read_version(version) for name, version in request["lock"]}

    def root(self) -> Terms:
        return {ROOT: (False, frozenset({0}))}

    def line(self, line: int) -> Terms:
        demand(1 <= line <= len(self.conclusions), f"line {line} does not stand above it")
        return self.conclusions[line - 1]

    def need(self, index: int) -> Terms:
        """The request needs a package in a version that meets the requirement."""
        demand(index < len(self.needs), f"the request has no need with index {index}")
        target, requirement = self.needs[index]
        return {**NEVER, target: (False, self.registry.matching(target, requirement))}

    def disallowed(self, name: str, versions: Collection[int]) -> Terms:
        """None of the versions is allowed: each is not published, or is yanked and not named by the lock."""
        demand(name in self.registry.releases, f"there is no package {name}")
        held = self.registry.releases[name]
        kept = self.lock.get(name)
        allowed = [it for it in versions if it < len(held) and (not held[it].yanked or held[it].version == kept)]
        demand(not allowed, f"of {name} these ordinals are allowed: {allowed}")
        return {name: (True, frozenset(versions))}

    def premise(self, name: str, need: str, target: str, versions: Collection[int], within: Collection[int]) -> Terms:
        """Each version needs the target with this requirement, and no version that meets it is left out of `within`."""
        held = self.registry.releases.get(name, [])
        needing = versions and all(it < len(held) and held[it].needs.get(target) == need for it in versions)
        demand(needing, f'a premise on {name} has no versions, or one that does not need {target} "{need}"')
        matching = self.registry.matching(target, need)
        demand(matching.issubset(within), f'a version of {target} that meets "{need}" is left out')
        return {name: (True, frozenset(versions)), target: (False, frozenset(within))}

    def cause(self, cause: Object) -> Terms:
        kind = next((it for it in CAUSES if formed(cause, CAUSES[it])), "")
        demand(kind, "a cause of no known form")
        terms: Terms = getattr(self, kind)(**{member: value for member, value in cause.items() if member != "fact"})
        return terms

    def terms(self, rows: Sequence[Sequence[Any]]) -> Terms:
        """A conclusion: its terms in order of package numbers, each package once."""
        numbers = [self.registry.numbers.get(name, -1) for name, _, _ in rows]
        in_order = all(low < high for low, high in zip([-1, *numbers], numbers))
        demand(in_order, "terms out of package order, or on no package")
        return {name: (inside, frozenset(ordinals)) for name, inside, ordinals in rows}

    def conclude(self, row: Object) -> None:
        """Takes the conclusion of a line, which has to be what follows from its two causes on its pivot."""
        (first, second), terms, pivot = map(self.cause, row["causes"]), self.terms(row["conclusion"]), row["pivot"]
        demand(not first.get(pivot, ALWAYS) == ALWAYS == second.get(pivot, ALWAYS), "neither cause speaks of the pivot")
        follows = resolve(first, second, pivot) == terms
        demand(follows, f"the conclusion is not what the causes give on {pivot or 'the request'}")
        self.conclusions.append(terms)

    def judge(self, rows: Any) -> None:
        """Goes on only where the lines are a derivation."""
        demand(rows and formed(rows, [LINE]), "there is no derivation of the right form")
        for number, row in enumerate(rows, 1):
            try:
                self.conclude(row)
            except Fault as fault:
                raise Fault(f"line {number}: {fault}") from None
        demand(self.conclusions[-1] in ({}, NEVER), "the last line does not say that the request can't be met")


def bytes_of(path: str) -> bytes:
    with open(path, "rb") as file:
        return file.read()


def read_lines(path: str) -> list[dict[str, Any]]:
    """The object of each line of a file; an empty one for a line that has none."""
    import json  # who asks for a judge alone does not wait for it
    objects = []
    for line in bytes_of(path).removesuffix(b"\n").split(b"\n"):
        try:
            objects.append(json.loads(line.decode()))
        except (ValueError, RecursionError):
            objects.append({})
    return [it if isinstance(it, dict) else {} for it in objects]


def read_journal(path: str) -> list[dict[str, Any]]:
    lines = bytes_of(path).split(b"\n")
    end = [b"end %d" % (len(lines) - 3), b""]
    head = lines[0] in (b"registry-journal 1", b"registry-journal 2")
    demand(head and lines[-2:] == end, "a cut journal", ValueError)
    return [it for it in read_lines(path)[1:-1] if it.get("op") != "learn"]


def session(requests: Sequence[Object], replies: Sequence[Object],
            journal: Sequence[Object] | None) -> Iterator[tuple[Object, Object, Registry]]:
    """Each request with its reply and the registry that the reply speaks of."""
    registry = Registry()
    for number, (request, reply) in enumerate(zip(requests, replies), 1):
        revision: Any = reply.get("revision")
        if journal is None:
            demand(registry.obey(request, reply), f"reply {number} accepts or refuses against the rules", ValueError)
        elif formed(revision, int):
            registry = registry if registry.revision <= revision else Registry()
            for command in journal[registry.revision:revision]:
                is_lawful = registry.obey(command, {"ok": True})
                demand(is_lawful, "the journal has a command that the rules refuse", ValueError)
        demand(revision == registry.revision, f"reply {number} is not of revision {registry.revision}", ValueError)
        yield request, reply, registry


def audit(requests: Sequence[Object], replies: Sequence[Object], journal: Sequence[Object] | None) -> int:
    """Judges each refusal that has a derivation or was asked for one, says how it went, and answers the status."""
    told = []
    for number, (request, reply, registry) in enumerate(session(requests, replies, journal), 1):
        if "derivation" in reply or (reply.get("refused") is True and request.get("explain") is True):
            try:
                Judge(registry, {"lock": [], "explain": True, "budget": 0, **request}).judge(reply.get("derivation"))
                told.append("follows")
            except Fault as fault:
                told.append(f"does not follow: {fault}")
            print(f"request {number}: the refusal at revision {registry.revision} {told[-1]}")
    if not told:
        print("no refusal has a derivation")
    return int(told.count("follows") < len(told))


def main(words: Sequence[str]) -> int:
    import argparse  # nor for this
    parser = argparse.ArgumentParser(prog="tools/check_derivation.py", description=__doc__,
                                     formatter_class=argparse.RawDescriptionHelpFormatter)
    parser.add_argument("--journal")
    parser.add_argument("lines")
    parser.add_argument("replies", nargs="?")
    options = parser.parse_args(words)
    try:
        lines = read_lines(options.lines)
        requests, replies = (lines, read_lines(options.replies)) if options.replies else (lines[::2], lines[1::2])
        counts = f"{len(requests)} request lines and {len(replies)} replies"
        demand(len(requests) == len(replies), f"there are {counts}", ValueError)
        return audit(requests, replies, read_journal(options.journal) if options.journal else None)
    except (ValueError, OSError) as fault:
        print(f"there is no judging it: {fault}")
        return 2


if __name__ == "__main__":
    sys.exit(main(sys.argv[1:]))
