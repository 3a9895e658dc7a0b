"""What a derivation says, step by step. A range of versions means those that are published, by precedence."""
from __future__ import annotations

import json
import re

from .check_derivation import NEVER, ROOT, Judge, read_version
from .shapes import (
    Cause, Collection, Iterable, Iterator, Mapping, Node, Registry, Request, Row, Sequence, Terms, Told, Whose,
)

FAILED, NOTHING = "resolving failed", "nothing is said of {}"
THE_REQUEST = (ROOT, frozenset({0}))
THE_SELECTION = (ROOT, frozenset({0}), "with the versions that it has")
PLAIN = re.compile(r"[~^][^ ,]*|\*")


def listed(texts: Sequence[str], last: str) -> str:
    """Texts in a row: `a, b and c`."""
    return texts[0] if len(texts) == 1 else f"{', '.join(texts[:-1])} {last} {texts[-1]}"


class Versions:
    """Names sets of a package's versions, as a registry has them."""

    def __init__(self, registry: Registry) -> None:
        self.registry = registry
        self.orders: dict[str, list[int]] = {}
        self.admitted: dict[tuple[str, str], frozenset[int]] = {}

    def order(self, name: str) -> list[int]:
        if name not in self.orders:
            held = self.registry.releases.get(name, [])
            self.orders[name] = sorted(range(len(held)), key=lambda ordinal: held[ordinal].version)
        return self.orders[name]

    def matching(self, name: str, requirement: str) -> frozenset[int]:
        if (name, requirement) not in self.admitted:
            self.admitted[name, requirement] = self.registry.matching(name, requirement)
        return self.admitted[name, requirement]

    def text(self, name: str, ordinal: int) -> str:
        return self.registry.releases[name][ordinal].text

    def spans(self, name: str, ordinals: Collection[int]) -> list[list[str]]:
        """Runs of neighbours in a set, the lowest first: each one version, or from one to below another."""
        found: list[list[str]] = []
        first, order = None, self.order(name)
        for place, ordinal in enumerate([*order, None]):
            if ordinal in ordinals:
                first = place if first is None else first
            elif first is not None:
                one = self.text(name, order[first])
                low = [">=" + one] if first else []
                high = [] if ordinal is None else ["<" + self.text(name, ordinal)]
                found.append([one] if place == first + 1 else low + high)
                first = None
        return found

    def every(self, name: str, ordinals: frozenset[int], whole: str = "every version of {}",
              most: str = "every version of {}") -> str:
        """A set of versions as one speaks of each: all, all but some where that is shorter, or those that there are."""
        published = frozenset(self.order(name))
        inside = published & ordinals
        if not inside:
            unpublished = listed([f"#{it}" for it in sorted(ordinals)], "or") if ordinals else ""
            return f"{name} {unpublished}" if ordinals else f"no version of {name}"
        if inside == published:
            return whole.format(name)
        spans, others = self.spans(name, inside), self.spans(name, published - inside)
        if sum(map(len, others)) < sum(map(len, spans)):
            return f"{most.format(name)} but {listed([' '.join(it) for it in others], 'and')}"
        return f"{name} {listed([' '.join(it) for it in spans], 'or')}"

    def some(self, name: str, ordinals: frozenset[int]) -> str:
        """A set of versions as one speaks of any of them."""
        return self.every(name, ordinals, "{}", "any version of {}")


class Fact:
    """What follows from nothing else; the lower rank is told first. It says what is selected of a package `held`."""
    rank = 2
    held: str | None = None

    def __init__(self, said: str, lacking: tuple[str, str] | None = None, names: tuple[str, ...] = ()) -> None:
        """`lacking` is a package and a requirement that nothing meets; `names` are the packages it is of."""
        self.said, self.lacking, self.names = said, lacking, names
        self.admitted: dict[str, Told] = {}


class Question(Fact):
    """What the request has for the sake of the question alone."""
    rank = 1


class Dependency(Fact):
    """Versions of a package, or the request, depend on a package; `within` are the versions that they leave of it."""
    rank, verb = 0, "depends on"

    def __init__(self, subject: str, whose: Whose, target: str, requirement: str,
                 within: frozenset[int], has: str | None = None) -> None:
        # in quotes where it could be taken for a range of versions, which is another thing
        quoted = requirement if PLAIN.fullmatch(requirement) else f'"{requirement}"'
        self.subject, self.whose, self.target, self.within = subject, whose, target, within
        self.wanted = f"{target} {has or quoted}"
        names = tuple(it for it in (whose[0], target) if it != ROOT)
        super().__init__(f"{subject} {self.verb} {self.wanted}", names=names)
        self.unmet = Fact(f"no version of {target} matches {quoted}", (target, requirement), (target,))

    def leads_to(self, other: Dependency, steps: Iterable[Step]) -> bool:
        """Whether all versions that are left here have the other dependency, and no step asks which further ones do."""
        if other.whose[0] != self.target or not self.within <= other.whose[1]:
            return False
        return self.within == other.whose[1] or all(self.target not in step.terms for step in steps)


class Held(Dependency):
    rank, verb = 1, "has"

    def __init__(self, target: str, text: str, requirement: str, within: frozenset[int]) -> None:
        super().__init__("the selection", THE_SELECTION, target, requirement, within, text)
        self.held = target


def joined(first: Fact, second: Fact, steps: Sequence[Step]) -> str:
    """What two facts say, in few words, between these steps."""
    for one, other in ((first, second), (second, first)):
        if isinstance(one, Dependency) and isinstance(other, Dependency) and one.leads_to(other, steps):
            return f"{one.said} which depends on {other.wanted}"
    if isinstance(first, Dependency) and isinstance(second, Dependency) and first.whose == second.whose:
        return f"{first.subject} {first.verb} both {first.wanted} and {second.wanted}"
    return " and ".join(it.said for it in sorted((first, second), key=lambda it: it.rank))


class Holding(Judge):
    """A judge for a request that needs just these versions of some packages: their others are not allowed either."""

    def __init__(self, registry: Registry, request: Request, versions: Mapping[str, str]) -> None:
        super().__init__(registry, request)
        self.versions = versions

    def disallowed(self, name: str, versions: Collection[int]) -> Terms:
        if holds(self.registry, self.versions, name, versions):
            return {name: (True, frozenset(versions))}
        return super().disallowed(name, versions)


def holds(registry: Registry, held: Mapping[str, str], name: str, versions: Collection[int]) -> bool:
    """Whether just one version of a package is asked for, and is none of these."""
    wanted = read_version(held[name]) if name in held else None
    these = [it.version for ordinal, it in enumerate(registry.releases[name]) if ordinal in versions]
    return wanted is not None and wanted not in these


class Step:
    """What follows from two causes: a line of a derivation, or what a dependency means that no version meets."""

    def __init__(self, terms: Terms, causes: list[Node], number: int | None = None) -> None:
        self.terms, self.causes, self.number = terms, causes, number
        # what a requirement admits is told by its text, for as long as just that is asked for
        self.admitted: dict[str, Told] = {name: told for cause in causes for name, told in cause.admitted.items()
                                          if terms.get(name) == (False, told[0])}

    def below(self) -> list[Step]:
        return [it for it in self.causes if isinstance(it, Step)]

    def facts(self) -> list[Fact]:
        return [it for it in self.causes if isinstance(it, Fact)]


class Derivation:
    """A derivation that follows, as the steps that its last one rests on; each stands after those that it cites."""

    def __init__(self, registry: Registry, request: Request, rows: Sequence[Row], asked: tuple[str, str] | None = None,
                 names: Iterable[str] = (), held: Mapping[str, str] | None = None) -> None:
        """`asked`, a name and a version, is the question itself and no need; `held` is what the selection has, and
        `names` are the published packages, where the registry has not all of them."""
        usual: Request = {"lock": [], "explain": True, "budget": 0}
        self.request = usual | request
        self.held = held or {}
        self.only = {**self.held, **dict([asked] if asked else [])}
        judge = Holding(registry, self.request, self.only)
        judge.judge(rows)
        self.registry, self.versions, self.asked, self.names = registry, Versions(registry), asked, names
        self.facts: dict[str, Node] = {}
        lines: list[Step] = []
        for row, terms in zip(rows, judge.conclusions):
            causes, number = [self.cause(it, lines) for it in row["causes"]], len(lines) + 1
            repeated = self.needless(causes)
            if repeated and repeated.number:
                lines.append(repeated)
            else:
                lines.append(Step(terms, repeated.causes if repeated else causes, number))
        self.steps = self.cut(lines)
        self.last = self.steps[-1]

    def needless(self, causes: list[Node]) -> Step | None:
        """The step that a line repeats, where the line only adds that the request must be met."""
        for root, other in (causes, causes[::-1]):
            if root is self.facts.get("root") and isinstance(other, Step) and other.terms == NEVER:
                return other
        return None

    def cut(self, lines: list[Step]) -> list[Step]:
        """The steps that the last line rests on, which are shared and not repeated."""
        used, open_steps = {lines[-1]}, [lines[-1]]
        while open_steps:
            for it in open_steps.pop().below():
                if it not in used:
                    used.add(it)
                    open_steps.append(it)
        return [it for it in dict.fromkeys(lines) if it in used]

    def reached(self) -> dict[Step, None]:
        """The steps, with those that have no line of their own."""
        found = dict.fromkeys(self.steps)
        for step in self.steps:
            found.update(dict.fromkeys(step.below()))
        return found

    def lacking(self) -> dict[tuple[str, str], None]:
        """Each package and requirement that nothing published meets, once."""
        return dict.fromkeys(fact.lacking for step in self.reached() for fact in step.facts() if fact.lacking)

    def cause(self, cause: Cause, lines: Sequence[Step]) -> Node:
        """A cause as a step or a fact, equal ones as one."""
        if "line" in cause:
            return lines[cause["line"] - 1]
        key = "root" if cause["fact"] == "root" else json.dumps(cause, sort_keys=True)
        if key not in self.facts:
            members = {member: value for member, value in cause.items() if member != "fact"}
            self.facts[key] = getattr(self, cause["fact"])(**members)
        return self.facts[key]

    def root(self) -> Fact:
        return Fact("the request must be met")

    def need(self, index: int) -> Node:
        target, requirement = self.request["needs"][index]
        admitted = self.versions.matching(target, requirement)
        fact: Fact = Dependency("the request", THE_REQUEST, target, requirement, admitted)
        if target in self.held:
            fact = Held(target, self.held[target], requirement, admitted)
        if self.asked and target == self.asked[0]:
            fact = self.question()
        return self.depended(fact, target, requirement, admitted, dict(NEVER))

    def question(self) -> Fact:
        assert self.asked
        return Question(" ".join(self.asked) + " is asked for", names=(self.asked[0],))

    def premise(self, name: str, need: str, target: str, versions: Collection[int], within: Collection[int]) -> Node:
        subject, left = frozenset(versions), frozenset(within)
        fact = Dependency(self.versions.every(name, subject), (name, subject), target, need, left)
        return self.depended(fact, target, need, left, {name: (True, subject)})

    def depended(self, fact: Fact, target: str, requirement: str, within: frozenset[int], terms: Terms) -> Node:
        """Where it leaves no version to choose from, that is told as a fact of its own, and both as a step."""
        if not within:
            unpublished = Fact(f"no version of {target} is published", (target, requirement), (target,))
            has_versions = self.registry.releases.get(target)
            nothing = fact.unmet if isinstance(fact, Dependency) and has_versions else unpublished
            return Step(terms, [fact, nothing])
        if isinstance(fact, Dependency) and (not fact.held or len(within) == 1):
            if within & frozenset(self.versions.order(target)) == self.versions.matching(target, requirement):
                fact.admitted = {target: (within, fact.wanted)}
        return fact

    def disallowed(self, name: str, versions: Collection[int]) -> Fact:
        if holds(self.registry, self.only, name, versions):
            return Held(name, self.held[name], "*", frozenset()) if name in self.held else self.question()
        published = frozenset(self.versions.order(name)) & frozenset(versions)
        locked = " and not in the lock" if self.request["lock"] else ""
        told = [f"{self.versions.every(name, published)} is yanked{locked}"] if published else []
        missing = frozenset(versions) - published
        if missing:
            told.append(f"{self.versions.every(name, missing)} is not published")
        return Fact(" and ".join(told) or NOTHING.format(name), names=(name,))

    def conclusion(self, step: Step) -> str:
        terms = {name: term for name, term in step.terms.items() if name != ROOT}
        inside = [(name, ordinals) for name, (is_in, ordinals) in terms.items() if is_in]
        # a term that is true of no choice makes a line that says nothing
        if step.terms.get(ROOT, NEVER[ROOT]) != NEVER[ROOT] or any(not ordinals for _, ordinals in inside):
            return NOTHING.format(listed(list(terms), "and")) if terms else "the request must be met"
        outside = ((name, ordinals) for name, (is_in, ordinals) in terms.items() if not is_in)
        wanted = " or ".join(self.wanted(step, name, ordinals) for name, ordinals in outside)
        if not inside:
            who = "selection" if self.held else "request"
            return f"the {who} requires {wanted}" if wanted else "no selection meets the request"
        if wanted and len(inside) == 1:
            return f"{self.versions.every(*inside[0])} requires {wanted}"
        named = [self.versions.some(*it) for it in inside]
        if wanted:
            return f"{listed(named, 'and')} together require {wanted}"
        return [f"{named[0]} is forbidden", f"{named[0]} is incompatible with {named[-1]}",
                f"{listed(named, 'and')} are incompatible"][min(len(named), 3) - 1]

    def wanted(self, step: Step, name: str, ordinals: frozenset[int]) -> str:
        """By the requirement that admits just what a step asks for, if one did, else by its versions."""
        return step.admitted[name][1] if name in step.admitted else self.versions.some(name, ordinals)


# ---- the English of a refusal
#
# The English of a refusal, from its derivation, put in order and joined as Dart pub's doc/solver.md tells, "Error
# Reporting": a step that is cited more than once has a number, two steps of a chain may share a sentence, and of two
# branches the one that takes more is told first. Each sentence speaks of the selections that meet the request.

class Telling:
    """The sentences of a derivation, each with its number or none; an empty one is a break before another branch.
    `places` has where each step is told, and `leading` the steps that are told for its sake right before it."""

    def __init__(self, derivation: Derivation, failed: str = FAILED) -> None:
        self.derivation, self.failed = derivation, failed
        self.sentences: list[tuple[int | None, str]] = []
        self.numbers: dict[Step, int] = {}
        self.cited: dict[Step, int] = {}
        self.places: dict[Step, int] = {}
        self.leading: dict[Step, list[Step]] = {}
        for step in derivation.reached():
            for it in step.below():
                self.cited[it] = self.cited.get(it, 0) + 1
        self.tell(derivation.last)

    def tell(self, last: Step) -> None:
        """A step hands over those that are to be told first: this needs no stack of calls."""
        open_steps = [(last, self.steps_of(last))]
        while open_steps:
            step, rest = open_steps[-1]
            first = next(rest, None)
            if first is None:
                open_steps.pop()
            else:
                self.leading.setdefault(step, []).append(first)
                open_steps.append((first, self.steps_of(first)))

    def steps_of(self, step: Step) -> Iterator[Step]:
        return (self.of_facts, self.of_one, self.of_two)[len(step.below())](step)

    def of_facts(self, step: Step) -> Iterator[Step]:
        first, second = step.facts()
        self.write(step, f"Because {joined(first, second, [step])}")
        yield from ()

    def of_one(self, step: Step) -> Iterator[Step]:
        (other,), (fact,) = step.below(), step.facts()
        if other in self.numbers:
            self.write(step, f"Because {fact.said} and {self.citing(other)}")
        elif self.may_share(other):
            (prior,), (before,) = other.below(), other.facts()
            yield prior
            self.write(step, f"And because {joined(before, fact, [prior, step])}")
        else:
            yield other
            self.write(step, f"And because {fact.said}")

    def of_two(self, step: Step) -> Iterator[Step]:
        first, second = sorted(step.below(), key=lambda it: (it in self.numbers, not it.below()))
        if first in self.numbers:
            self.write(step, f"Because {self.citing(first)} and {self.citing(second)}")
            return
        if second not in self.numbers and second.below():
            # the first branch is cited from behind the second one
            self.cited[first] += 1
        yield first
        if second in self.numbers:
            self.write(step, f"And because {self.citing(second)}")
            return
        if second.below():
            self.sentences.append((None, ""))
        yield second
        self.write(step, f"And because {self.citing(first)}" if second.below() else "Thus")

    def may_share(self, step: Step) -> bool:
        """Whether a step may be left unsaid: it is cited once, and rests on a fact and on what is told right before."""
        return self.cited[step] == 1 and len(step.below()) == 1 and step.below()[0] not in self.numbers

    def citing(self, step: Step) -> str:
        return f"{self.derivation.conclusion(step)} ({self.numbers[step]})"

    def write(self, step: Step, because: str) -> None:
        is_last = step is self.derivation.last
        if self.cited.get(step, 0) > 1:
            self.numbers[step] = len(self.numbers) + 1
        self.places[step] = len(self.sentences)
        conclusion = self.failed if is_last else self.derivation.conclusion(step)
        self.sentences.append((self.numbers.get(step), f"{because}, {conclusion}."))

    def lines(self) -> list[str]:
        """The sentences as lines, with room for the numbers where there are some."""
        width = max((len(f"({number}) ") for number in self.numbers.values()), default=0)
        return [(f"({number}) " if number else "").ljust(width) + text if text else ""
                for number, text in self.sentences]
