"""The English of a refusal by number: what is at fault, and what there is instead."""
from __future__ import annotations

import json

from registryd_lines.nearest import nearest

from .check_derivation import NAME, precedence, read_version
from .failures import Refused
from .limits import MOST_NEEDS, MOST_PACKAGES, MOST_VERSIONS
from .shapes import Asking, Callable, Collection, Iterable, Listed, Mapping, Pairs, Reply, Request, Sequence

MOST_TOLD = 3
SHORTEST = 3  # of names that are shorter each is near to any other


def there_are(texts: Sequence[str]) -> str:
    """The versions that there are, of some the first two: `there are 0.8.5, 0.8.4 and 3 more`."""
    if not texts:
        return "there is none"
    named = texts if len(texts) <= MOST_TOLD else [*texts[:MOST_TOLD - 1], f"{len(texts) - MOST_TOLD + 1} more"]
    return f"there is {named[0]}" if len(named) == 1 else f"there are {', '.join(named[:-1])} and {named[-1]}"


def versions_told(versions: Iterable[Listed]) -> str:
    """The same of pairs of a version and whether it is yanked, in any order: the newest that are not yanked."""
    ranked = sorted(versions, key=lambda it: precedence(it[0]), reverse=True)
    return there_are([text for text, yanked in ranked if not yanked] or [f"{text}, yanked" for text, _ in ranked])


def unpublished(name: str, names: Collection[str]) -> str:
    near = nearest(name, names) if len(name) >= SHORTEST else None
    return f"no version of {name} is published" + (f"; did you mean {near}?" if near else "")


def unmatched(name: str, requirement: str, versions: Iterable[Listed]) -> str:
    return f"no version of {name} matches {requirement}; {versions_told(versions)}"


def not_there(request: Request, packages: Mapping[str, Sequence[Listed]]) -> str:
    name, version = request["name"], request["version"]
    if name not in packages:
        return unpublished(name, packages)
    return f"{name} {version} is not published; {versions_told(packages[name])}"


def misspelled(request: Request, number: int) -> str:
    """The first name, version or requirement that is at fault, and what was probably meant."""
    from registryd_lines.judging import faults
    from registryd_lines.texts import requirement_fault
    name, version = request.get("name", ""), request.get("version", "")
    if number == 1 and read_version(name) and NAME.fullmatch(version):
        return f"{name} is a version, not a package; did you mean {version} {name}?"
    fault = next(it.told for it in faults(json.dumps(request).encode()) if it.number == number)
    if number != 3:
        return fault
    return next(f"{name}@{it}: {fault}" for name, it in request["needs"] if requirement_fault(it))


def repeated(needs: Pairs, lock: Pairs) -> str:
    for names in ([name for name, _ in pairs] for pairs in (needs, lock)):
        for it in names:
            if names.count(it) > 1:
                return it
    return "a package"


def english(request: Request, reply: Reply, packages: Callable[[], Mapping[str, Sequence[Listed]]]) -> str:
    """A refusal in one line. `packages` is asked only where those that are published matter."""
    needs, lock = request.get("needs", []), request.get("lock", [])
    subject = f"{request.get('name')} {request.get('version')}"
    sentences: dict[int, Callable[[], str]] = {
        1: lambda: misspelled(request, 1),
        2: lambda: misspelled(request, 2),
        3: lambda: misspelled(request, 3),
        4: lambda: f"{repeated(needs, lock)} appears twice: join its requirements with a comma",
        5: lambda: f"{subject} can't need {request['name']} itself",
        6: lambda: f"there are {len(needs)} needs; the limit is {MOST_NEEDS}",
        7: lambda: f"{subject} is published already, and a publication is permanent: choose another version",
        8: lambda: f"{request.get('name')} has {MOST_VERSIONS:,} versions, which is the limit",
        9: lambda: f"{MOST_PACKAGES:,} names are known, which is the limit: "
                   f"`registry journal renew` begins a smaller journal",
        10: lambda: "the journal is full: `registry journal renew` begins a smaller one",
        11: lambda: not_there(request, packages()),
        12: lambda: f"{subject} is yanked already",
        13: lambda: f"{subject} is not yanked",
        18: lambda: "there is not enough memory for it",
        22: lambda: "no answer was found within the budget (--budget), or within the time of the service (its "
                    "--seconds)",
    }
    sentence = sentences.get(reply["error"])
    return sentence() if sentence else f"the program refuses it: {reply['error']} {reply['name']}"


def listed(session: Asking) -> dict[str, list[Listed]]:
    (reply,) = session.ask({"op": "list"})
    return dict(reply["packages"])


def accepted(session: Asking, request: Request, reply: Reply) -> Reply:
    """A reply that is no refusal by number; one is told."""
    if "error" in reply:
        raise Refused(english(request, reply, lambda: listed(session)), reply)
    return reply
