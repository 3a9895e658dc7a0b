"""`registry resolve`: versions that fit together, which may be kept in a lock file, or have to be those of one."""
from __future__ import annotations

import os

from ..failures import Refused
from ..files import write_file
from ..locks import DEFAULT, changed, changes, counted, lock_of, lock_text, renewed
from ..needs import answered, lock_notes, needs_path, refused, request_of, write_needs
from ..output import say
from ..session import reading
from ..shapes import Lock, Mapping, Options, Output, Reply, Request


def run(options: Options, out: Output) -> int | None:
    if options.locked:
        options.lock = options.lock or DEFAULT
        if not os.path.lexists(options.lock):
            remedy = f"`registry resolve NEED .. --write {options.lock}` does"
            raise Refused(f"{options.lock}: there is no such lock file, and --locked makes none: {remedy}")
    request = request_of(options)
    before = lock_of(options.write) if options.write and os.path.exists(options.write) else None
    with reading(options) as session:
        reply = answered(session, request)
        if options.lock:
            from ..refusals import listed
            for it in lock_notes(options.lock, dict(request["lock"]), listed(session)):
                out.note(it)
        if "selected" not in reply:
            return refused(session, request, reply, out)
    if options.locked and options.lock:
        keep_to(options.lock, dict(request["lock"]), dict(reply["selected"]))
    out.give(reply, [f"{out.style(name, 'bold')} {version}" for name, version in reply["selected"]])
    if options.write:
        keep(options.write, before, request, reply, out)
    return None


def keep_to(path: str, lock: Mapping[str, str], selected: Mapping[str, str]) -> None:
    lines = changes(lock, selected)
    if lines:
        say(*lines)
        remedy = f"`registry resolve --lock {path} --write {path}` changes it"
        raise Refused(f"{path} would change, which --locked forbids: {remedy}", {"changes": changed(lock, selected)})


def keep(path: str, before: Lock | None, request: Request, reply: Reply, out: Output) -> None:
    lock = renewed(before, request, reply)
    write_file(path, lock_text(lock))
    lines = changes(before.selected if before else {}, lock.selected)
    out.note(f"{path} is written: {counted(lines)}")
    if write_needs(needs_path(path), request["needs"]):
        out.note(f"{needs_path(path)} is written: the needs of {path}")
