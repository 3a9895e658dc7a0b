"""Derivations of refusals, found by trying the versions of each package in turn: plain Python that shares
nothing with the program, nor with the tool that checks derivations."""
from collections.abc import Iterable, Iterator, Mapping, Set
from random import Random
from typing import Any

from tests.support.plain_search import Published, key, matches

NONE = -1  # the choice of no version
BEYOND = 17  # an ordinal that no small package has published
CHOICES = frozenset(range(NONE, BEYOND + 1))  # what a term may be true of; one that is true of all says nothing
ROOT = ""
Terms = dict[str, frozenset[int]]  # a set of choices by package
Fact = tuple[Terms, dict[str, Any]]
# What a cause of each kind has beside the name of its kind.
MEMBERS = {"line": {"line"}, "root": set(), "need": {"index"}, "disallowed": {"name", "versions"},
           "premise": {"name", "need", "target", "versions", "within"}}


def conclude(first: Mapping[str, Set[int]], second: Mapping[str, Set[int]], pivot: str) -> Terms:
    """What follows from two incompatibilities, each a set of choices by package."""
    terms = {}
    for name in {**first, **second}:
        one, other = first.get(name, CHOICES), second.get(name, CHOICES)
        terms[name] = one | other if name == pivot else one & other
    return without(terms)


def without(terms: Mapping[str, Set[int]]) -> Terms:
    """The terms without those that say nothing."""
    return {name: frozenset(term) for name, term in terms.items() if term != CHOICES}


class Known:
    """The packages of a list of accepted commands, numbered by first mention."""

    def __init__(self, commands: Iterable[Any]) -> None:
        self.published, self.names = Published(), [ROOT]
        for command in commands:
            for name in [command["name"], *(target for target, _ in command.get("needs", []))]:
                if name not in self.names:
                    self.names.append(name)
            self.published.apply(command)

    def releases(self, name: str) -> Any:
        return self.published.versions.get(name, [])

    def matching(self, name: str, requirement: str) -> list[int]:
        # the plain search reads comparators with all three numbers
        asked = {"^1": "^1.0.0"}.get(requirement, requirement)
        return [place for place, row in enumerate(self.releases(name)) if matches(asked, row[0])]

    def yanked(self, name: str, lock: Any) -> list[int]:
        """The ordinals that a request with this lock may not have."""
        locked = [key(version) for package, version in lock if package == name]
        return [place for place, (text, _, yanked) in enumerate(self.releases(name)) if yanked
                and key(text) not in locked]

    def written(self, terms: Mapping[str, Set[int]]) -> list[list[Any]]:
        """The terms as a conclusion has them."""
        rows = []
        for name in sorted(terms, key=self.names.index):
            inside = NONE not in terms[name]
            rows.append([name, inside, sorted(terms[name] if inside else CHOICES - terms[name])])
        return rows

    def said(self, rows: Any, request: Any) -> list[tuple[Terms, ...]]:
        """What the two causes of each line of a derivation say."""
        said, drawn = [], list[Terms]()
        for row in rows:
            said.append(tuple(self.terms(cause, drawn, request) for cause in row["causes"]))
            drawn.append({name: frozenset(them) if inside else CHOICES - set(them) for name, inside,
                          them in row["conclusion"]})
        return said

    def follows(self, rows: Any, request: Any) -> bool:
        """Whether each line follows from its causes, which are facts or stand above it, and the last one ends it."""
        drawn: list[Terms] = []
        for row in rows:
            if not all(self.is_cause(cause, request, len(drawn)) for cause in row["causes"]):
                return False
            first, second = (self.terms(cause, drawn, request) for cause in row["causes"])
            drawn.append(conclude(first, second, row["pivot"]))
            if row["pivot"] not in {**first, **second} or self.written(drawn[-1]) != row["conclusion"]:
                return False
        return bool(rows) and rows[-1]["conclusion"] in ([], [[ROOT, True, [0]]])

    def is_cause(self, cause: Any, request: Any, above: int) -> bool:
        """Whether a cause cites one of so many lines above it, or is a fact of the registry or of the request."""
        kind = cause.get("fact", "line")
        form = next((members for fact, members in MEMBERS.items() if fact == kind), None)
        if {*cause} - {"fact"} != form or ("fact" in cause) == (kind == "line"):
            return False
        held, versions, within = self.releases(cause.get("name")), cause.get("versions", []), cause.get("within", [])
        if versions != sorted({*versions}) or within != sorted({*within}):
            return False
        if kind == "line":
            return bool(1 <= cause["line"] <= above)
        if kind == "need":
            return bool(cause["index"] < len(request["needs"]))
        if kind == "disallowed":
            yanked = self.yanked(cause["name"], request.get("lock", []))
            return cause["name"] in self.names[1:] and all(it in yanked or it >= len(held) for it in versions)
        if kind == "premise":
            wanted = [cause["target"], cause["need"]]
            has_it = versions and all(it < len(held) and wanted in held[it][1] for it in versions)
            return bool(has_it) and {*self.matching(*wanted)} <= {*within}
        return True

    def terms(self, cause: Any, drawn: list[Terms], request: Any) -> Terms:
        """What one cause says, where these are the conclusions above it."""
        if "line" in cause:
            number: int = cause["line"]
            return drawn[number - 1]
        if cause["fact"] == "need":
            target, requirement = request["needs"][cause["index"]]
            return without({ROOT: {0}, target: CHOICES - set(self.matching(target, requirement))})
        if cause["fact"] == "disallowed":
            return without({cause["name"]: set(cause["versions"])})
        if cause["fact"] == "premise":
            return without({cause["name"]: set(cause["versions"]), cause["target"]: CHOICES - set(cause["within"])})
        return {ROOT: CHOICES - {0}}


class Refuter:
    """Refutes one request. A fact or a line is a pair: its terms, and the cause that cites it."""

    def __init__(self, known: Known, request: Any, rng: Random) -> None:
        self.known, self.request, self.rng = known, request, rng
        self.rows: list[dict[str, Any]] = []  # the lines
        self.root = ({ROOT: CHOICES - {0}}, {"fact": "root"})
        self.facts = [*self.needs(), *self.disallowed(), *self.premises()]
        rng.shuffle(self.facts)

    def needs(self) -> Iterator[Fact]:
        for index, (target, requirement) in enumerate(self.request["needs"]):
            within = self.known.matching(target, requirement)
            yield without({ROOT: {0}, target: CHOICES - set(within)}), {"fact": "need", "index": index}

    def disallowed(self) -> Iterator[Fact]:
        for name in self.known.names[1:]:
            yanked = self.known.yanked(name, self.request.get("lock", []))
            for versions in [[BEYOND], [*yanked, BEYOND], *([it] for it in yanked)]:
                yield {name: frozenset(versions)}, {"fact": "disallowed", "name": name, "versions": versions}

    def premises(self) -> Iterator[Fact]:
        """Versions with the same dependency share a premise or have their own; some say less than they could."""
        for name in self.known.names[1:]:
            users: dict[Any, list[int]] = {}
            for place, (_, needs, _) in enumerate(self.known.releases(name)):
                for need in needs:
                    users.setdefault(tuple(need), []).append(place)
            for (target, requirement), places in users.items():
                for versions in [places] if self.rng.random() < 0.5 else [[it] for it in places]:
                    within = self.known.matching(target, requirement) + [BEYOND] * (self.rng.random() < 0.2)
                    yield (without({name: set(versions), target: CHOICES - set(within)}),
                           {"fact": "premise", "name": name, "need": requirement, "target": target,
                            "versions": versions, "within": within})

    def line(self, first: Fact, second: Fact, pivot: str) -> Fact:
        """A line from two causes, and what it concludes."""
        terms = conclude(first[0], second[0], pivot)
        self.rows.append({"causes": [first[1], second[1]], "conclusion": self.known.written(terms), "pivot": pivot})
        return terms, {"line": len(self.rows)}

    def refute(self, chosen: dict[str, int]) -> Fact | None:
        """A fact or line that is true of these choices in each of its terms; none where they can be completed."""
        forced = None
        for fact in self.facts:
            if any(name in chosen and chosen[name] not in term for name, term in fact[0].items()):
                continue
            left = [name for name in fact[0] if name not in chosen]
            if not left:
                return fact
            if len(left) == 1 and NONE in fact[0][left[0]]:
                forced = (fact, left[0])
        if not forced:
            return None
        known, name = forced
        for choice in sorted(CHOICES - known[0][name]):
            found = self.refute({**chosen, name: choice})
            if found is None or name not in found[0]:
                return found
            known = self.line(known, found, name)
        return known

    def derivation(self) -> list[dict[str, Any]] | None:
        """The lines of a refusal; none where there is a selection."""
        found = self.refute({ROOT: 0})
        if found is None:
            return None
        if "line" not in found[1] or self.rng.random() < 0.2:
            self.line(found, self.root, ROOT)
        if self.rng.random() < 0.7:
            self.cut()
        return self.rows

    def cut(self) -> None:
        """Leaves only the lines that the last one rests on."""
        kept = {len(self.rows)}
        for number in range(len(self.rows), 0, -1):
            if number in kept:
                kept |= {it["line"] for it in self.rows[number - 1]["causes"] if "line" in it}
        places = {number: place for place, number in enumerate(sorted(kept), 1)}
        self.rows = [{**self.rows[number - 1], "causes": [{"line": places[it["line"]]} if "line" in it else it
                                                          for it in self.rows[number - 1]["causes"]]}
                     for number in places]
