"""What the page asks for, as values for JSON."""
from __future__ import annotations

import bisect
import re

from registryd_lines.nearest import nearest

from ..cases import Case, hints
from ..check_derivation import NAME, ROOT, precedence, read_requirement
from ..derivation import Dependency, Telling
from ..failures import Failure, Refused, Unanswered
from ..needs import need_of
from ..packages import registry_in
from ..refusals import english, unpublished
from ..shapes import Callable, Derivation, Fact, Field, Iterator, Mapping, Pairs, Query, Reply, Request, Step, Value
from .journal import Journal, View

MOST_FOUND = 100  # names that are told of a search at a time
END = "\x7f"  # comes behind each letter of a name
MOST_LINES = 20_000  # of a derivation that is told


class NotThere(Failure):
    """What is asked for has no name here."""


class AtFault(Refused):
    """A request is refused for one of its needs. `field` has the number of that, and its part that is at fault."""

    def __init__(self, message: str, field: Field | None) -> None:
        super().__init__(message)
        self.field = field


def status(journal: Journal, _: Query) -> Value:
    view = journal.refresh()
    return {"path": journal.path, "revision": view.revision, **view.counts, "fault": journal.fault,
            "warnings": view.warnings, "seconds": journal.seconds}


def search(journal: Journal, query: Query) -> Value:
    """Names that begin with the text come first. What is only needed is among them."""
    view, text = journal.view, query.get("text", [""])[0].strip().lower()
    found, asked = with_text(view.names, text), query.get("before", ["0"])[0]
    before = int(asked) if re.fullmatch("[0-9]{1,9}", asked) and int(asked) < len(found) else 0
    near = nearest(text, view.names) if text and not found else None
    return {"revision": view.revision, "text": text, "found": len(found), "near": near, "before": before,
            "most": MOST_FOUND, "packages": [in_short(view, it) for it in found[before:before + MOST_FOUND]]}


def with_text(names: list[str], text: str) -> list[str]:
    """Of names in order those that have a text in them, first those that begin with it: these stand side by side."""
    first, last = (bisect.bisect_left(names, it) for it in (text, text + END))
    others = [it for it in names if text in it and not it.startswith(text)] if text else []
    return names[first:last] + others


def in_short(view: View, name: str) -> Value:
    versions = view.versions(name) if name in view.listed else []
    return {"name": name, "versions": len(versions), "newest": view.newest(name).text if versions else None}


def package(journal: Journal, query: Query) -> Value:
    view, name = journal.view, query.get("name", [""])[0]
    if name not in view.names:
        raise NotThere(unpublished(name, view.names))
    versions = view.versions(name) if name in view.listed else []
    return {**in_short(view, name), "revision": view.revision, "near": None if versions else nearest(name, view.listed),
            "versions": [{"version": it.text, "yanked": it.is_yanked, "pre_release": it.is_pre_release,
                          "needs": it.needs} for it in versions],
            "needed_by": [{"name": other, "version": version, "requirement": requirement}
                          for other, version, requirement in view.needing(name)]}


def resolve(journal: Journal, query: Query) -> Value:
    needs = [need_of(it.strip()) for it in query.get("need", []) if it.strip()]
    if not needs:
        raise Refused("name what is needed, as app@^1")
    request: Request = {"op": "resolve", "needs": needs, "lock": [], "explain": True}
    view, reply = journal.ask(request, query.get("page", [""])[0][:64])
    if "error" in reply:
        raise AtFault(english(request, reply, lambda: view.listed), field_of(needs, reply["error"]))
    value: Value = {"needs": needs, "revision": reply["revision"]}
    if "selected" in reply:
        return {**value, "selected": selection(view, dict(reply["selected"]))}
    lines = len(reply["derivation"])
    if lines > MOST_LINES:
        raise Unanswered(f"no selection meets the request; why takes {lines:,} lines, which are more than this page "
                         f"tells: `registry why` tells them")
    return {**value, "refused": refusal(view, request, reply)}


def field_of(needs: Pairs, number: int) -> Field | None:
    """The first need that a refusal by number fits, and the part that is at fault; none where it is of none alone."""
    names = [name for name, _ in needs]
    judges: dict[int, tuple[str, Callable[[int], bool]]] = {
        1: ("name", lambda at: not NAME.fullmatch(names[at])),
        3: ("requirement", lambda at: read_requirement(needs[at][1]) is None),
        4: ("name", lambda at: names[at] in names[:at])}
    part, is_at_fault = judges.get(number, ("", lambda at: False))
    return next(([at, part] for at in range(len(needs)) if is_at_fault(at)), None)


def selection(view: View, selected: Mapping[str, str]) -> list[Value]:
    return [{"name": name, "version": version, "needs": view.version(name, version).needs,
             "newest": newer(view, name, version)} for name, version in selected.items()]


def newer(view: View, name: str, version: str) -> str | None:
    """The newest version of a package, where that is not the one that was selected."""
    newest = view.newest(name).text
    return newest if precedence(newest) > precedence(version) else None


# ---- a refusal, as the sentences of `registry why`, each with what it rests on and the packages that it speaks of

def refusal(view: View, request: Request, reply: Reply) -> dict[str, object]:
    case = Case(request, reply, lambda named: registry_in(view, named), None, set(view.lines))
    derivation = case.derivation(case.title(), request, reply)
    telling = Telling(derivation)
    told = {place: step for step, place in telling.places.items()}
    sentences = [sentence(telling, told.get(place), number, text)
                 for place, (number, text) in enumerate(telling.sentences)]
    edges = sorted(edges_of(derivation))
    names = sorted({name for pair in edges for name in pair} - {ROOT})
    return {"sentences": sentences, "hints": list(hints(derivation)), "edges": edges,
            "packages": [{"name": it, "versions": len(view.listed.get(it, ()))} for it in names]}


def sentence(telling: Telling, step: Step | None, number: int | None, text: str) -> dict[str, object]:
    """One sentence; a break between two branches tells no step, and has no text."""
    if step is None:
        return {"text": text, "number": number, "below": [], "facts": [], "steps": [], "names": [], "conclusion": ""}
    facts, steps = reasons(telling, step)
    names = {name for it in (step, *steps) for name in it.terms} | {name for it in facts for name in it.names}
    is_last = step is telling.derivation.last
    return {"text": text, "number": number, "names": sorted(names - {ROOT}),
            "conclusion": telling.failed if is_last else telling.derivation.conclusion(step),
            "below": [telling.places[it] for it in telling.leading.get(step, ())],
            "facts": list(dict.fromkeys(it.said for it in facts)),
            "steps": [{"place": telling.places[it], "said": telling.derivation.conclusion(it)} for it in steps]}


def reasons(telling: Telling, step: Step) -> tuple[list[Fact], list[Step]]:
    facts = step.facts()
    steps: list[Step] = []
    for it in step.below():
        if it in telling.places:
            steps.append(it)
        else:
            further, others = reasons(telling, it)
            facts, steps = facts + further, steps + others
    return facts, steps


def edges_of(derivation: Derivation) -> Iterator[tuple[str, str]]:
    """The dependencies that it rests on, as pairs of packages; the request has no name."""
    for step in derivation.reached():
        for fact in step.facts():
            if isinstance(fact, Dependency):
                yield fact.whose[0], fact.target


ANSWERS: dict[str, Callable[[Journal, Query], Value]] = {
    "status": status, "search": search, "package": package, "resolve": resolve}
