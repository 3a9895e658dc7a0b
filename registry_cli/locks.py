"""Lock files, as docs/FORMATS.md tells of them, and what changed between two."""
from __future__ import annotations

import os
from collections import namedtuple

from .check_derivation import NAME, PAIRS, formed, passes, precedence, read_requirement, read_version
from .failures import Failed
from .files import read_file
from .limits import MOST_LINE_BYTES, MOST_NEEDS
from .shapes import Callable, Iterable, Mapping, Output, Pairs, Reply, Request, Sequence

DEFAULT = "registry.lock"
MADE = {"needs": PAIRS, "revision": int, "selected": PAIRS}  # the form of a lock file that says what it was made of


class Unread(Failed):
    """Why a file of locks or needs can't be read: where it is at fault, and what was probably meant."""


class Lock(namedtuple("Lock", "selected needs revision", defaults=[None, None])):
    """Versions by package and, but for a plain list, the needs and the revision that they were selected for."""
    selected: dict[str, str]
    needs: Pairs | None
    revision: int | None


def are_read(pairs: object, read: Callable[[str], object]) -> bool:
    if not isinstance(pairs, list) or not formed(pairs, PAIRS):
        return False
    return len(dict(pairs)) == len(pairs) and all(NAME.fullmatch(name) and read(it) is not None for name, it in pairs)


def read_lock(text: bytes, path: str) -> Lock:
    import json
    try:
        value = json.loads(text.decode()) if len(text) <= MOST_LINE_BYTES else None
    except (ValueError, RecursionError):
        value = None
    lock = Lock(**value) if formed(value, MADE) else Lock(value)
    needs = lock.needs or []
    if not (are_read(lock.selected, read_version) and are_read(needs, read_requirement) and len(needs) <= MOST_NEEDS):
        raise Unread(faulty(path, text))
    return lock._replace(selected=dict(lock.selected))


def faulty(path: str, text: bytes) -> str:
    from registryd_lines.fault import placed
    from registryd_lines.judging import lock_faults
    fault = lock_faults(text)[0]
    above = text.decode(errors="replace")[:fault.place].split("\n")
    return placed(path, len(above), fault._replace(place=len(above[-1])))


def lock_of(path: str) -> Lock:
    if not os.path.lexists(path):
        raise Failed(f"{path}: there is no such lock file: `registry resolve NEED .. --write {path}` makes one")
    return read_lock(read_file(path), path)


def lock_text(lock: Lock) -> str:
    """The text of a lock file: a pair a line, the versions by name, so that a review sees what changed."""
    rows = sorted(lock.selected.items(), key=lambda row: row[0].encode())
    if lock.needs is None:
        return array(rows) + "\n"
    members = f'"needs": {array(lock.needs, "  ")},\n  "revision": {lock.revision},\n  "selected": {array(rows, "  ")}'
    return f"{{\n  {members}\n}}\n"


def array(rows: Sequence[Sequence[str]], before: str = "") -> str:
    import json
    if not rows:
        return "[]"
    return "[\n" + ",\n".join(f"{before}  {json.dumps(row, ensure_ascii=False)}" for row in rows) + f"\n{before}]"


def renewed(before: Lock | None, request: Request, reply: Reply) -> Lock:
    """A plain list stays one, and what is made of the same needs stays as it was."""
    made = Lock(dict(reply["selected"]), request["needs"], reply["revision"])
    if before is None:
        return made
    if before.needs is None:
        return Lock(made.selected)
    return before if made[:2] == before[:2] else made


def changes(old: Mapping[str, str], new: Mapping[str, str]) -> list[str]:
    """A line for each package whose version two locks don't share, by name: added, removed, or from what to what."""
    lines = []
    for name in sorted({*old, *new}):
        if name not in old:
            lines.append(f"+ {name} {new[name]}")
        elif name not in new:
            lines.append(f"- {name} {old[name]}")
        elif old[name] != new[name]:
            lines.append(f"~ {name} {old[name]} -> {new[name]}{remark(old[name], new[name])}")
    return lines


def changed(old: Mapping[str, str], new: Mapping[str, str]) -> list[dict[str, str | None]]:
    """The same as values: each package with its version before and behind, none where it was not or is not there."""
    return [{"name": name, "from": old.get(name), "to": new.get(name)}
            for name in sorted({*old, *new}) if old.get(name) != new.get(name)]


def counted(lines: Iterable[str]) -> str:
    marks = [line[0] for line in lines]
    kinds = (("+", "added"), ("-", "removed"), ("~", "changed"))
    return ", ".join(f"{marks.count(mark)} {kind}" for mark, kind in kinds)


def coloured(lines: Iterable[str], out: Output) -> list[str]:
    return [out.style(line, {"+": "green", "-": "red", "~": "yellow"}[line[0]]) for line in lines]


def remark(old: str, new: str) -> str:
    """What a review looks at: a step back, and a step to what `^` with the old version does not admit."""
    one, other = precedence(old), precedence(new)
    if other <= one:
        return " (older)" if other < one else " (of equal precedence)"
    return "" if passes("^", one, other) else f" (beyond ^{old})"
