"""`registry outdated`: what a lock file has that is not the newest, and what holds it back."""
from __future__ import annotations

from collections import namedtuple

from ..cases import Case
from ..catalog import catalog_of
from ..check_derivation import RELEASE, admits, precedence
from ..derivation import Dependency
from ..failures import REFUSED, Refused
from ..locks import DEFAULT, changes, lock_of
from ..needs import answered, refused, request_of
from ..packages import registry_in
from ..questions import Question
from ..refusals import listed
from ..session import reading
from ..shapes import (
    Derivation, Fact, Iterable, Iterator, Listed, Mapping, Options, Output, Reading, Registry, Reply, Request, Sequence,
)

BUDGET = 10_000  # conflicts of each question what holds a version back
MOST_TOLD = 2


class Row(namedtuple("Row", "name locked state allowed newest held_back_by")):
    """A package of a lock file. `state` is what is worth knowing of the locked version."""
    name: str
    locked: str
    state: str
    allowed: str | None
    newest: str | None
    held_back_by: str | None


HEADS = Row("package", "locked", "", "allowed", "newest", "held back by")


def run(options: Options, out: Output) -> int | None:
    path = options.lock or DEFAULT
    lock = lock_of(path).selected
    request = request_of(options, {})
    with reading(options) as session:
        reply = answered(session, request)
        if "selected" not in reply:
            return refused(session, request, reply, out)
        rows = outdated(session, lock, request, reply, listed(session), options.budget or BUDGET)
    out.give([it._asdict() for it in rows], lines(rows, out))
    if not rows:
        out.note(f"everything in {path} is the newest version")
    return REFUSED if rows and options.exit_status else None


def outdated(session: Reading, lock: Mapping[str, str], request: Request, reply: Reply,
             packages: Mapping[str, Sequence[Listed]], budget: int) -> list[Row]:
    catalog, selected = catalog_of(session.journal()), dict(reply["selected"])
    rows: list[Row] = []
    limited: Request = {"budget": budget}

    def registry(names: Iterable[str]) -> Registry:
        return registry_in(catalog, names)

    case = Case(request, reply, registry, lambda it: session.ask(it | limited)[0], packages,
                put=lambda question, it: question.put(session.commands(), it | limited, registry))
    for name, locked in sorted(lock.items()):
        allowed, newest = selected.get(name), newest_of(packages.get(name, []), locked)
        if allowed and precedence(allowed) == precedence(locked) and not is_newer(newest, locked):
            continue
        why = held_back(case, name, newest, selected) if allowed and newest and is_newer(newest, allowed) else None
        rows.append(Row(name, locked, state_of(packages.get(name, []), locked), allowed, newest, why))
    return rows


def is_newer(one: str | None, other: str) -> bool:
    return one is not None and precedence(one) > precedence(other)


def state_of(versions: Iterable[Listed], locked: str) -> str:
    found = [is_yanked for text, is_yanked in versions if precedence(text) == precedence(locked)]
    return "not published" if not found else "yanked" if found[0] else ""


def newest_of(versions: Iterable[Listed], locked: str) -> str | None:
    pre_too = precedence(locked)[3] != RELEASE
    fitting = [text for text, yanked in versions if not yanked and (pre_too or precedence(text)[3] == RELEASE)]
    return max(fitting, key=precedence) if fitting else None


def held_back(case: Case, name: str, newest: str, selected: Mapping[str, str]) -> str:
    needs = dict(case.request["needs"])
    if name in needs and not admits(needs[name], precedence(newest)):
        return f"the request depends on {name} {needs[name]}"
    try:
        asked = Question(case.request, {name: newest})
        reply = case.again(asked)
        if "selected" in reply:
            changed = changes(selected, case.nearest(asked, selected, reply))
            return "with it " + "; ".join(short([it[2:] for it in changed if it.split()[1] != name and it[0] != "+"]))
        return "; ".join(facts(case.derivation(case.title(), asked.request, reply, (name, newest)), name))
    except Refused as fault:
        return f"not known: {fault}"


def short(texts: Sequence[str]) -> list[str]:
    others = len(texts) - MOST_TOLD
    return [*texts[:MOST_TOLD], *([f"{others} more"] if others > 0 else [])]


def facts(derivation: Derivation, name: str) -> list[str]:
    """What rules it out: dependencies on the package first, then its own, what these miss, and those that they meet."""
    every = (fact for step in derivation.reached() for fact in step.facts())
    found = list(dict.fromkeys(it for it in every if isinstance(it, Dependency) or it.lacking))
    own = {it.target for it in found if isinstance(it, Dependency) and it.whose[0] == name}

    def rank(fact: Fact) -> int:
        if not isinstance(fact, Dependency):
            return 2
        return 0 if fact.target == name else 1 if fact.whose[0] == name else 3 if fact.target in own else 4

    return short([it.said for it in sorted(found, key=rank)])


def lines(rows: Sequence[Row], out: Output) -> Iterator[str]:
    cells = [[it.name, it.locked + (f" ({it.state})" if it.state else ""), it.allowed or "-", it.newest or "-",
              it.held_back_by or ""] for it in ([HEADS, *rows] if rows else [])]
    wide = [max(map(len, column)) for column in zip(*cells)]
    for place, row in enumerate(cells):
        padded = [it.ljust(size) for it, size in zip(row, wide)]
        styled = [out.style(it, "faint") for it in padded] if not place else [out.style(padded[0], "bold"), *padded[1:]]
        yield "  ".join(styled).rstrip()
