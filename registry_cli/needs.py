"""Needs, as they are typed or as a needs file beside a lock file keeps them, and requests to select what meets them."""
from __future__ import annotations

import contextlib
import os
import re
import sys

from .check_derivation import NAME, read_requirement, read_version
from .failures import REFUSED, Usage
from .files import read_file, write_file
from .locks import DEFAULT, Unread, lock_of
from .shapes import Asking, Iterator, Listed, Mapping, Options, Output, Pairs, Reading, Reply, Request, Sequence

NEED = re.compile(r"\s*([^@\s]*)(?:(?:\s*@\s*|\s+)(.*))?", re.S)  # of a text without white space at its end
# what other tools have in place of the @: `log==1.0.0`, `log:1.0.0`, `log-1.0.0`, `log/1.0.0`, `log(>=1)`
JOINED = r"(?si)([a-z][a-z0-9_-]*?)(?::|[-/](?=v?[0-9]+\.)|(?=[(=<>~^!]))(.*)"
SEVERAL = r"[a-z][a-z0-9_-]*(?: *[,;] *[a-z][a-z0-9_-]*)+"


def parted(text: str) -> re.Match[str]:
    """A text without white space at its end, parted into a package and a requirement; any text can be."""
    found = NEED.fullmatch(text)
    assert found
    return found


def need_of(text: str) -> list[str]:
    """`app@^1`, `app ^1`, or `app` alone for any version. The program judges both parts."""
    name, requirement = parted(text.rstrip()).groups("*")
    return [name, requirement]


def needs_of(words: Sequence[str]) -> Pairs:
    """Needs as they are typed, a word each. A word that names no package is told, with what was probably meant."""
    needs = [need_of(it) for it in words]
    for before, word, (name, _) in zip(["", *words], words, needs):
        fault = "" if NAME.fullmatch(name) else slip(word, before)
        if fault:
            raise Usage(fault)
    return needs


def slip(word: str, before: str = "") -> str:
    """What is wrong with a word that has no package before an @; nothing where only its letters may be wrong."""
    from registryd_lines.fault import shown
    from registryd_lines.texts import requirement_fault
    word = word.strip()
    found = re.fullmatch(JOINED, word)
    if word.endswith(".lock"):
        return f"{shown(word)} is no package; did you mean {shown('--lock ' + word)}?"
    if re.fullmatch(SEVERAL, word):
        several = " and ".join(re.split("[,; ]+", word))
        return f"{shown(word)} has a comma between packages; did you mean {several}, each by itself?"
    if found:
        what = "has no @ between the package and the requirement"
        name, requirement = found[1].lower() + "@", found[2].strip()
    elif word.startswith("@") or requirement_fault(word) is None:
        what, requirement = "has no package before the requirement", word.strip(" @")
        name = before and before + (", " if "@" in before else "@")
    else:
        return ""
    bad = requirement_fault(requirement)
    requirement = requirement if bad is None else bad.edit[2] if bad.edit else ""
    meant = f"; did you mean {shown(name + requirement)}?" if name and requirement else ", as in app@^1"
    return f"{shown(word)} {what}{meant}"


def needs_path(lock: str) -> str:
    """Where the needs are that a lock file was made for: beside it, its name with `.needs` for `.lock`."""
    return lock.removesuffix(".lock") + ".needs"


def read_needs(path: str) -> Pairs:
    try:
        text = read_file(path).decode()
    except UnicodeDecodeError:
        raise Unread(f"{path} is not UTF-8") from None
    needs: dict[str, str] = {}
    for number, line in enumerate(text.splitlines(), 1):
        found = parted(line.partition("#")[0].rstrip())
        name, requirement = found.groups("*")
        if found[0].strip():
            if not NAME.fullmatch(name) or read_requirement(requirement) is None or name in needs:
                raise Unread(faulty(path, number, found))
            needs[name] = requirement
    return [list(it) for it in needs.items()]


def faulty(path: str, number: int, found: re.Match[str]) -> str:
    """What is wrong with a line: its package, its requirement, or that the package stands before it too."""
    from registryd_lines.fault import Fault, placed
    from registryd_lines.judging import text_fault
    from registryd_lines.texts import name_fault, requirement_fault
    (name, requirement), at = found.groups("*"), found.start(1)
    reason = "" if NAME.fullmatch(name) else slip(found[0])
    fault = Fault(1, at, reason) if reason else text_fault(1, name_fault, name, at)
    fault = fault or text_fault(3, requirement_fault, requirement, found.start(2))
    return placed(path, number, fault or Fault(4, at, f"{name} appears twice: join its requirements with a comma"))


def write_needs(path: str, needs: Pairs) -> bool:
    """Keeps needs, where the file does not have just these: so its comments stay."""
    with contextlib.suppress(Unread):
        if os.path.isfile(path) and read_needs(path) == needs:
            return False
    write_file(path, "".join(f"{name} {requirement}\n" for name, requirement in needs))
    return True


def needs_known(typed: Sequence[str] | None, lock: str) -> Pairs | None:
    """The needs that were typed, else those of the needs file, else the lock file's; none where nothing says any."""
    if typed:
        return needs_of(typed)
    path = needs_path(lock)
    if os.path.exists(path):
        return read_needs(path)
    return lock_of(lock).needs if os.path.exists(lock) else None


def needs_given(options: Options) -> Pairs:
    """The same of the lock file that the words name, which have to be known."""
    lock = getattr(options, "lock", None) or getattr(options, "write", None) or DEFAULT
    needs = needs_known(options.need, lock)
    if needs is None:
        where = f"write it into {needs_path(lock)}, a name and a requirement a line"
        raise Usage(f"name what is needed, as app@^1, or {where}")
    return needs


# ---- requests to select versions, and what is told of their answers

def request_of(options: Options, lock: Mapping[str, str] | None = None) -> Request:
    """With the needs that are typed or kept, and the lock file that is named, or this lock."""
    if lock is None:
        lock = lock_of(options.lock).selected if options.lock else {}
    kept = [list(it) for it in sorted(lock.items())]
    request: Request = {"op": "resolve", "needs": needs_given(options), "lock": kept, "explain": True}
    budget: int | None = getattr(options, "budget", None)
    if budget is not None:
        request["budget"] = budget
    return request


def answered(session: Asking, request: Request) -> Reply:
    from .refusals import accepted  # while the program loads the journal
    return accepted(session, request, *session.ask(request))


def refused(session: Reading, request: Request, reply: Reply, out: Output) -> int:
    from .cases import Case, tell
    from .catalog import catalog_of
    from .packages import registry_in
    from .searching import explaining
    out.give(reply, [])
    with explaining(is_refused=True):
        catalog = catalog_of(session.journal())
        case = Case(request, reply, lambda named: registry_in(catalog, named), lambda it: session.ask(it)[0],
                    set(catalog.lines))
        lines = case.answer()
    tell(case, lines, sys.stderr, False, "`registry why` tells all of them")
    return REFUSED


def lock_notes(path: str, lock: Mapping[str, str], packages: Mapping[str, Sequence[Listed]]) -> Iterator[str]:
    for name, text in sorted(lock.items()):
        found = [yanked for other, yanked in packages.get(name, []) if read_version(other) == read_version(text)]
        if not found:
            yield f"{path} names {name} {text}, which is not published"
        elif found[0]:
            yield f"{path} names {name} {text}, which is yanked"


def needs_selected(session: Reading, selected: Mapping[str, str]) -> dict[str, Pairs]:
    from .catalog import catalog_of
    catalog = catalog_of(session.journal())
    return {name: catalog.version(name, version).needs for name, version in selected.items()}
