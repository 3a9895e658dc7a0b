"""`registry upgrade`: takes packages off the lock, shows what would change, and writes it where that is wanted."""
from __future__ import annotations

from registryd_lines.nearest import nearest

from ..failures import REFUSED, Refused
from ..files import write_file
from ..locks import DEFAULT, changed, changes, coloured, counted, lock_of, lock_text, renewed
from ..needs import answered, lock_notes, need_of, refused, request_of
from ..refusals import listed
from ..session import reading
from ..shapes import Collection, Lock, Mapping, Output, UpgradeOptions


def run(options: UpgradeOptions, out: Output) -> int | None:
    path = options.lock or DEFAULT
    before = lock_of(path)
    lock = before.selected
    request = request_of(options, without(path, lock, options.name))
    with reading(options) as session:
        reply = answered(session, request)
        if "selected" not in reply:
            return refused(session, request, reply, out)
        packages = listed(session)
    new = renewed(before, request, reply)
    selected = new.selected
    lines = changes(lock, selected)
    out.give(changed(lock, selected), [*coloured(lines, out), counted(lines)])
    same = {name: text for name, text in lock.items() if selected.get(name) == text}
    for it in lock_notes(path, same, packages):
        out.note(it)
    return settled(path, before, new, options, out)


def without(path: str, lock: Mapping[str, str], names: Collection[str]) -> dict[str, str]:
    """A lock without these packages; without any where none are named."""
    for it in names:
        if it not in lock:
            near = nearest(need_of(it)[0], lock)
            raise Refused(f"{path} has no {it}" + (f"; did you mean {near}?" if near else ""))
    return {name: text for name, text in lock.items() if names and name not in names}


def settled(path: str, before: Lock, new: Lock, options: UpgradeOptions, out: Output) -> int | None:
    if new == before:
        out.note(f"nothing changes in {path}")
        return None
    is_wanted = True if options.yes else out.ask(f"write this to {path}?")
    if not is_wanted:
        out.note(f"{path} is unchanged" + ("" if is_wanted is False else ": --yes writes it without a question"))
        return REFUSED
    write_file(path, lock_text(new))
    out.note(f"{path} is written")
    return None
