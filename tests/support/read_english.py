"""Reads the English of a refusal again, sentence by sentence, and judges it: each fact is one of the registry, and each
conclusion follows from the facts and the conclusions that its sentence names.

A conclusion or a fact is read as an incompatibility: by package the choices, an ordinal or none, that may not all be
had."""
import itertools
import random
import re
from collections.abc import Callable, Iterable, Sequence
from typing import Any

from registry_cli.check_derivation import Registry, Release, admits, read_requirement, read_version

Terms = dict[str, frozenset[int]]
Premises = list[Terms | None]
Numbered = dict[int, tuple[str, Terms | None]]
NONE = -1
TRIES = 3000
NAME = "[a-z][a-z0-9_-]*"
SET = rf"(?:every version of {NAME}|any version of {NAME}|{NAME})(?: .*)?"
CITED = re.compile(r"(.*) \((\d+)\)")
RESOLVED = ("resolving failed", "no selection meets the request")


class Unread(Exception):
    """A text that says nothing that could be judged."""


def pieces(text: str, words: Sequence[str]) -> list[str]:
    """A text cut at each of these words, where what is behind it begins with a name and so is a new thing."""
    parts = re.split("(" + "|".join(words) + ")", text)
    found = [parts[0]]
    for word, part in zip(parts[1::2], parts[2::2]):
        if re.match("[a-z]", part):
            found.append(part)
        else:
            found[-1] += word + part
    return found


class Reader:
    """Reads sentences about a registry and a request."""

    def __init__(self, registry: Registry, request: Any, failed: str = "resolving failed",
                 before: Iterable[tuple[str, str]] = ()) -> None:
        """`before` are the versions that the selection is said to have, as pairs."""
        self.registry, self.request, self.failed, self.before = registry, request, failed, dict(before)

    def held(self, name: str) -> list[Release]:
        return self.registry.releases.get(name, [])

    def choices(self, name: str) -> frozenset[int]:
        return frozenset(range(len(self.held(name)))) | {NONE}

    def demand(self, holds: object, told: str) -> None:
        if not holds:
            raise Unread(told)

    # ---- versions

    def span(self, name: str, text: str) -> frozenset[int]:
        """The ordinals of a version alone or of a range, which goes by precedence; none of `#7`."""
        if re.fullmatch(r"#\d+", text):
            self.demand(int(text[1:]) >= len(self.held(name)), f"{name} {text} is published")
            return frozenset()
        bounds = re.fullmatch(r"(?:>=(\S+))?(?: ?<(\S+))?", text)
        if bounds:
            low, high = (it and read_version(it) for it in bounds.groups())
            self.demand((low is None) == (bounds[1] is None) and (high is None) == (bounds[2] is None),
                        f"{text!r} has no version")
            return frozenset(at for at, it in enumerate(self.held(name))
                             if (not low or it.version >= low) and (not high or it.version < high))
        found = frozenset(at for at, it in enumerate(self.held(name)) if it.text == text)
        self.demand(len(found) == 1, f"{text!r} is no version of {name}")
        return found

    def versions(self, text: str) -> tuple[str, frozenset[int]]:
        """A package and a set of its versions."""
        found: Any = re.fullmatch(rf"(?:every|any) version of ({NAME})(?: but (.*))?|({NAME})(?: (.*))?", text)
        self.demand(found, f"{text!r} names no versions")
        name, without, spans = found[1] or found[3], found[2], found[4]
        told = re.split(", | or | and ", without or spans) if without or spans else []
        named = frozenset[int]().union(*(self.span(name, it) for it in told))
        self.demand(self.held(name) or spans, f"{name} has no versions")
        return name, named if spans else self.choices(name) - {NONE} - named

    def wanted(self, text: str) -> tuple[str, frozenset[int]]:
        """A package and the versions that are asked for, by a requirement or by name."""
        found = re.fullmatch(rf'({NAME}) (?:([~^]\S*|\*)|"([^"]*)")', text)
        if not found:
            return self.versions(text)
        return found[1], self.matching(found[1], found[2] or found[3])

    def matching(self, name: str, requirement: str) -> frozenset[int]:
        self.demand(read_requirement(requirement) is not None, f"{requirement!r} is no requirement")
        return frozenset(at for at, it in enumerate(self.held(name)) if admits(requirement, it.version))

    def without(self, wanted: tuple[str, frozenset[int]]) -> Terms:
        """The choices that are not what is asked for."""
        name, versions = wanted
        return {name: self.choices(name) - versions}

    # ---- facts

    def fact(self, text: str) -> Premises:
        """What a fact forbids, a list; it has to be one."""
        forms: list[tuple[str, Callable[..., Premises]]] = [
            (r"the selection has both (.*) and (.*)", self.has_both),
            (r"the selection has (.*) which depends on (.*)", self.has_through),
            (r"the selection has (.*)", self.has),
            (r"(.*) depends on both (.*) and (.*)", self.both),
            (r"(.*) depends on (.*) which depends on (.*)", self.through),
            (r"(.*) depends on (.*)", self.depends),
            (rf"no version of ({NAME}) matches (.*)", self.unmet),
            (rf"no version of ({NAME}) is published", self.nothing),
            (r"(.*) is yanked(?: and not in the lock)?", self.yanked),
            (r"(.*) is not published", self.missing),
            (r"(.*) is asked for", self.asked)]
        for form, read in forms:
            found = re.fullmatch(form, text)
            if found:
                return read(*found.groups())
        raise Unread(f"{text!r} is no fact")

    def depends(self, subject: str, needed: str) -> Premises:
        target = self.wanted(needed)
        self.demand(re.fullmatch(rf'{NAME} ([~^]\S*|\*|"[^"]*")', needed), f"{needed!r} has no requirement")
        need = [target[0], needed.split(" ", 1)[1].strip('"')]
        if subject == "the request":
            self.demand(need in self.request["needs"], f"the request does not need {need}")
            return [self.without(target)]
        name, versions = self.versions(subject)
        self.demand(versions and all(self.held(name)[it].needs.get(need[0]) == need[1] for it in versions),
                    f"{subject} does not need {need}")
        return [{name: versions, **self.without(target)}]

    def has(self, subject: str) -> Premises:
        name, _, version = subject.partition(" ")
        self.demand(self.before.get(name, "") == version != "", f"the selection does not have {subject}")
        return self.asked(subject)

    def has_both(self, one: str, other: str) -> Premises:
        return self.has(one) + self.has(other)

    def has_through(self, subject: str, needed: str) -> Premises:
        return [*self.has(subject), *self.depends(subject, needed)]

    def both(self, subject: str, one: str, other: str) -> Premises:
        return self.depends(subject, one) + self.depends(subject, other)

    def through(self, subject: str, one: str, other: str) -> Premises:
        name, versions = self.wanted(one)
        found: Any = re.fullmatch(rf'({NAME}) "?(.*?)"?', other)
        target, requirement = found.groups()
        self.demand(all(self.held(name)[it].needs.get(target) == requirement for it in versions),
                    f"not all of {one} depends on {other}")
        return [*self.depends(subject, one), {name: versions, **self.without(self.wanted(other))}]

    def unmet(self, name: str, requirement: str) -> Premises:
        self.demand(self.held(name) and not self.matching(name, requirement.strip('"')),
                    f"a version of {name} matches {requirement}")
        return []

    def nothing(self, name: str) -> Premises:
        self.demand(not self.held(name), f"{name} is published")
        return []

    def yanked(self, subject: str) -> Premises:
        name, versions = self.versions(subject)
        locked = dict(self.request.get("lock", [])).get(name)
        barred = [it.yanked and (locked is None or read_version(locked) != it.version) for it in self.held(name)]
        self.demand(versions and all(barred[it] for it in versions), f"{subject} is allowed")
        return [{name: versions}]

    def missing(self, subject: str) -> Premises:
        name, spans = subject.split(" ", 1)
        self.demand(all(it.startswith("#") and not self.span(name, it) for it in spans.split(" or ")),
                    f"{subject} is published")
        return []

    def asked(self, subject: str) -> Premises:
        name, versions = self.versions(subject)
        self.demand(len(versions) == 1, f"{subject} is not one version")
        return [{name: self.choices(name) - versions}]

    # ---- conclusions

    def conclusion(self, text: str) -> Terms | None:
        """What a conclusion forbids; none where it says nothing."""
        if text in (self.failed, *RESOLVED):
            return {}
        if text.startswith("nothing is said of "):
            return None
        for form in (r"(?P<all>.*) is forbidden", r"(?P<one>.*) is incompatible with (?P<other>.*)",
                     r"(?P<all>.*) are incompatible", r"the (?:request|selection) requires (?P<wanted>.*)",
                     r"(?P<all>.*) together require (?P<wanted>.*)", r"(?P<one>.*) requires (?P<wanted>.*)"):
            found = re.fullmatch(form, text)
            if found:
                parts = found.groupdict()
                terms = [self.versions(it) for it in pieces(parts.get("all") or "", [", ", " and "]) if it]
                terms += [self.versions(parts[it]) for it in ("one", "other") if parts.get(it)]
                wanted = [self.wanted(it) for it in pieces(parts.get("wanted") or "", [" or "]) if it]
                read = dict([*terms, *(row for it in wanted for row in self.without(it).items())])
                self.demand(len(read) == len(terms) + len(wanted), f"{text!r} names a package twice")
                return self.normal(read)
        raise Unread(f"{text!r} is no conclusion")

    def normal(self, terms: Terms) -> Terms | None:
        """An incompatibility without the terms that are true of each choice; none where one is true of no choice."""
        left = {name: term for name, term in terms.items() if term != self.choices(name)}
        return left if all(left.values()) else None

    # ---- sentences

    def read(self, told: Iterable[tuple[int | None, str | None]]) -> Premises:
        """Reads sentences, each with its number or none, and answers what each concludes."""
        concluded: list[Any] = []
        numbered: Numbered = {}
        for number, sentence in told:
            if not sentence:
                self.demand(concluded and concluded[-1] is not Unread, "a break where nothing was told")
                concluded.append(Unread)
                continue
            premises, conclusion, text = self.sentence(sentence, concluded, numbered)
            self.demand(conclusion is None or self.follows(premises, conclusion), f"this does not follow: {sentence}")
            concluded.append(conclusion)
            if number:
                self.demand(number == len(numbered) + 1, f"the number {number} comes out of order")
                numbered[number] = (text, conclusion)
        return [it for it in concluded if it is not Unread]

    def sentence(self, sentence: str, concluded: list[Any],
                 numbered: Numbered) -> tuple[Premises, Terms | None, str]:
        """What a sentence rests on, and what it concludes, in the one way in which it can be read."""
        found: Any = re.fullmatch(r"(Because|And because|Thus)(?: (.*))?, (.*)\.|", sentence)
        self.demand(found and found[1], f"this is no sentence: {sentence}")
        before = {"Because": 0, "And because": 1, "Thus": 2}[found[1]]
        self.demand(before <= len(concluded) and Unread not in concluded[len(concluded) - before:],
                    f"nothing is told before: {sentence}")
        premises = concluded[len(concluded) - before:]
        rest, readings = sentence[len(found[1]):-1], []
        for place in [at.start() for at in re.finditer(", ", rest)]:
            try:
                causes = self.causes(rest[:place].strip(), numbered) if before < 2 else []
                readings.append(([*premises, *causes], self.conclusion(rest[place + 2:]), rest[place + 2:]))
            except Unread as fault:
                why = fault
        self.demand(readings, f"this can't be read: {sentence}" + (f": {why}" if not readings else ""))
        self.demand(all(it[1] == readings[0][1] for it in readings), f"this can be read in two ways: {sentence}")
        return readings[0]

    def causes(self, text: str, numbered: Numbered) -> Premises:
        """The facts and the conclusions above that are named."""
        faults = []
        for place in [it.start() for it in re.finditer(" and |$", text)]:
            try:
                rest = text[place + 5:]
                return self.cause(text[:place], numbered) + (self.causes(rest, numbered) if rest else [])
            except Unread as fault:
                faults.append(fault)
        raise Unread("; ".join(map(str, faults)))

    def cause(self, text: str, numbered: Numbered) -> Premises:
        cited = CITED.fullmatch(text)
        if not cited:
            return self.fact(text)
        said: Any = numbered.get(int(cited[2]))
        self.demand(said and said[0] == cited[1], f"({cited[2]}) does not stand above: {text}")
        return [said[1]]

    def follows(self, premises: Premises, conclusion: Terms) -> bool:
        """Whether no choices meet the premises and not the conclusion: all are tried, or many where they are too
        many."""
        known = [it for it in premises if it is not None]
        names = sorted({name for it in [*known, conclusion] for name in it})
        ranges = [sorted(conclusion.get(name, self.choices(name))) for name in names]
        count, rng = 1, random.Random(len(names))
        for it in ranges:
            count *= len(it)
        # all choices of a name at once, in less time than one after another
        tried = itertools.product(*ranges) if count <= TRIES else zip(*(rng.choices(it, k=TRIES) for it in ranges))
        for choices in tried:
            chosen = dict(zip(names, choices))
            if not any(all(chosen[name] in term for name, term in it.items()) for it in known):
                return False
        return True
