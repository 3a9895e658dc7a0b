"""Why no selection meets a request, as a tree that a program can walk: each node follows from two others, or from
nothing else. And in sentences, as the reporter of PubGrub tells it.

Of several nodes that rest on the same one, each has that same object. Versions are told by their texts, and one that is
not published by `#` and its number among the publications."""
from __future__ import annotations

import re
from collections.abc import Iterator, Mapping, Sequence
from dataclasses import dataclass, field
from typing import Union

REQUEST = ""  # the package that stands for the request
MOST_NAMED = 4  # of a set of more versions three are named
NAME = "[a-z][a-z0-9_-]*"
LINE = re.compile(r"\d+\. never \((.*?)\), because (.*)")
TERM = re.compile(rf"(not )?(the request|{NAME})(?: \{{([^}}]*)\}})?(?:, |$)")
CAUSE = re.compile(rf'line (?P<line>\d+)|(?P<root>the request must be met)|'
                   rf'(?P<package>the request|{NAME})(?: \{{(?P<versions>[^}}]*)\}})? '
                   rf'(?:needs (?P<target>{NAME}) "(?P<requirement>[^"]*)" in \{{(?P<within>[^}}]*)\}}|is not allowed)')
PLAIN = re.compile(r"[~^][^ ,]*|\*")  # a requirement that looks like no range of versions


@dataclass(frozen=True, eq=False)
class External:
    """What follows from nothing else, by its kind:

    root        the request must be met
    need        the request needs the package `target` in a version that meets `requirement`: those `within`
    premise the `versions` of `package` need `target` in a version that meets `requirement`: of its versions those
    `within` may disallowed the `versions` of `package` are yanked and not in the lock, or not published"""
    kind: str
    package: str = REQUEST
    versions: tuple[str, ...] = ()
    target: str = ""
    requirement: str = ""
    within: tuple[str, ...] = ()


@dataclass(frozen=True, eq=False)
class Derived:
    """What follows from two causes: that these terms can't all hold. A term says of a package, or of the request by the
    empty name, that its version is one of some (True), or is none of them (False). The number counts the steps of the
    explanation."""
    number: int
    terms: Mapping[str, tuple[bool, tuple[str, ...]]]
    causes: tuple[Node, Node] = field(repr=False)

    def steps(self) -> list[Derived]:
        """This node and the derived ones below it, each once and behind those that it follows from."""
        found, open_steps = {self.number: self}, [self]
        while open_steps:
            for cause in open_steps.pop().causes:
                if isinstance(cause, Derived) and cause.number not in found:
                    found[cause.number] = cause
                    open_steps.append(cause)
        return [found[number] for number in sorted(found)]

    def sentences(self) -> list[str]:
        """A sentence for each step. One that begins with "And" follows from the one before it, too; one that others
        cite has a number."""
        steps = self.steps()
        cited = {cause.number for step in steps for cause in step.causes
                 if isinstance(cause, Derived) and cause.number != step.number - 1}
        numbers = {number: f" ({place})" for place, number in enumerate(sorted(cited), 1)}
        return [sentence(step, numbers) for step in steps]


Node = Union[Derived, External]


def tree(explanation: Sequence[str]) -> Derived:
    """The tree of an explanation."""
    nodes: list[Derived] = []
    for line in explanation[:-1]:
        terms, causes = groups(LINE.fullmatch(line), line)
        first = CAUSE.match(causes)
        second = CAUSE.fullmatch(causes, first.end() + len(" and ")) if first else None
        if not first or not second:
            raise ValueError(f"this is no step of an explanation: {line}")
        nodes.append(Derived(len(nodes) + 1, dict(terms_of(terms)), (cause_of(first, nodes), cause_of(second, nodes))))
    return nodes[-1]


def groups(found: re.Match[str] | None, line: str) -> tuple[str, ...]:
    if not found:
        raise ValueError(f"this is no step of an explanation: {line}")
    return found.groups()


def terms_of(text: str) -> Iterator[tuple[str, tuple[bool, tuple[str, ...]]]]:
    for outside, name, versions in TERM.findall(text):
        yield package_of(name), (not outside, set_of(versions))


def cause_of(found: re.Match[str], nodes: Sequence[Derived]) -> Node:
    if found["line"]:
        return nodes[int(found["line"]) - 1]
    if found["root"]:
        return External("root")
    package, versions = package_of(found["package"]), set_of(found["versions"])
    if found["target"] is None:
        return External("disallowed", package, versions)
    kind = "premise" if package else "need"
    return External(kind, package, versions, found["target"], found["requirement"], set_of(found["within"]))


def package_of(name: str) -> str:
    return REQUEST if name == "the request" else name


def set_of(versions: str | None) -> tuple[str, ...]:
    return tuple(versions.split(", ")) if versions else ()


# ---- The sentences

def sentence(step: Derived, numbers: Mapping[int, str]) -> str:
    reasons = [told for cause in step.causes for told in reasons_of(cause, step.number - 1, numbers)]
    follows = any(isinstance(cause, Derived) and cause.number == step.number - 1 for cause in step.causes)
    begun = f"{'And because' if follows else 'Because'} {' and '.join(reasons)}" if reasons else "Thus"
    return f"{begun}, {conclusion(step.terms)}.{numbers.get(step.number, '')}"


def reasons_of(cause: Node, before: int, numbers: Mapping[int, str]) -> Iterator[str]:
    """What a cause says, where that isn't said by the sentence before, and not by the question itself."""
    if isinstance(cause, Derived):
        if cause.number != before:
            yield conclusion(cause.terms) + numbers[cause.number]
    elif cause.kind == "disallowed":
        is_published = not any(it.startswith("#") for it in cause.versions)
        yield f"{some(cause.package, cause.versions)} is {'yanked' if is_published else 'not allowed'}"
    elif cause.kind != "root":
        wanted = cause.requirement if PLAIN.fullmatch(cause.requirement) else f'"{cause.requirement}"'
        yield f"{some(cause.package, cause.versions)} depends on {cause.target} {wanted}"
        if not cause.within:
            yield f"no version of {cause.target} matches {wanted}"


def conclusion(terms: Mapping[str, tuple[bool, tuple[str, ...]]]) -> str:
    """What it means that these terms can't all hold."""
    can_hold = all(versions or name == REQUEST for name, (is_in, versions) in terms.items() if is_in)
    if not can_hold or terms.get(REQUEST, (True, ())) != (True, ()):
        return "nothing is said"  # one of them holds of no choice
    inside = [some(name, versions) for name, (is_in, versions) in terms.items() if is_in and name]
    wanted = " or ".join(some(name, versions) for name, (is_in, versions) in terms.items() if not is_in and versions)
    if wanted:
        who = listed(inside, "and") if inside else "the request"
        return f"{who} {'together require' if len(inside) > 1 else 'requires'} {wanted}"
    if len(inside) == 2:
        return f"{inside[0]} is incompatible with {inside[1]}"
    if inside:
        return f"{listed(inside, 'and')} {'are incompatible' if len(inside) > 1 else 'is forbidden'}"
    return "resolving failed"


def some(package: str, versions: Sequence[str]) -> str:
    """A package and some of its versions, or the request."""
    if not package:
        return "the request"
    if not versions:
        return f"no version of {package}"
    others = f"{len(versions) - MOST_NAMED + 1} others"
    named = versions if len(versions) <= MOST_NAMED else (*versions[:MOST_NAMED - 1], others)
    return f"{package} {listed(named, 'or')}"


def listed(texts: Sequence[str], last: str) -> str:
    """Texts in a row: `a, b and c`."""
    return f"{', '.join(texts[:-1])} {last} {texts[-1]}" if len(texts) > 1 else texts[0]
