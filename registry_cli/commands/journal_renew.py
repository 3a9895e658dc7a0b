"""`registry journal renew`: a journal with less in it, which selects each lock file as before."""
from __future__ import annotations

from .. import near_limits
from ..bar import Bar
from ..catalog import line_of
from ..failures import Failed, Refused
from ..journal_file import CUT, FAULTY, Journal, fault_line, journal_text, read_journal, refuse_existing, write_new
from ..locks import lock_of
from ..renewal import Lock, commands_of, needed, newest, releases_of
from ..session import Over
from ..shapes import Collection, Iterator, Key, Mapping, Output, Releases, RenewOptions, Sequence

NEWEST = 3
MOST_TOLD = 20


def run(options: RenewOptions, out: Output) -> None:
    old = read_journal(options.old)
    if old.state == FAULTY:
        remedy = f"`registry journal repair {options.old}` keeps what is before it"
        raise Refused(f"{options.old}: line {old.line} is at fault: {remedy}")
    refuse_existing(options.new)
    if old.state == CUT:
        out.note(f"{options.old} has no end line: what a session adds from now on is not copied")
    releases = releases_of(old.commands())
    most = NEWEST if options.newest is None else options.newest
    locks = [Lock(path, lock_of(path).selected, releases) for path in options.lock or []]
    for lock in locks:
        for name in lock.missing:
            out.note(f"{lock.path} names a version of {name} that is not published")
    kept = chosen(options.old, old, releases, locks, most)
    commands = list(commands_of(releases, kept))
    text = journal_text([line_of(it) for it in commands])
    checked(options.new, text, locks)
    write_new(options.new, text, options.old)
    left = left_out(releases, kept)
    selected = {it.path: it.is_selected for it in locks}
    out.give({"written": options.new, "revision": len(commands), "locks": selected, "left_out": left,
              "learnt_left_out": old.learnt}, in_words(options.new, old, commands, releases, locks, left))
    near_limits.warn(options.new, text)


def chosen(path: str, old: Journal, releases: Releases, locks: Sequence[Lock], most: int) -> set[Key]:
    kept = newest(releases, most)
    bar = Bar("asking what is needed", len(kept))
    with Over(path, journal_text(old.items)) as session:
        of_locks: set[Key] = set().union(*(it.remember(session) for it in locks))
        kept |= needed(session, releases, kept, bar)
    bar.end()
    return (kept | of_locks) & set(releases)


def checked(path: str, text: bytes, locks: Sequence[Lock]) -> None:
    """Whether the new journal is taken, and each lock file selected in it as before."""
    if fault_line(path, text):
        raise Failed("the program refuses the new journal, so it is not written")
    with Over(path, text) as session:
        for lock in locks:
            if lock.ask(session) != lock.replies:
                raise Failed(f"{lock.path} would not be selected as before, so {path} is not written")


def left_out(releases: Releases, kept: Collection[Key]) -> dict[str, list[str]]:
    left: dict[str, list[str]] = {}
    for key, it in releases.items():
        if key not in kept:
            left.setdefault(it.name, []).append(it.text)
    return dict(sorted(left.items()))


def in_words(path: str, old: Journal, commands: Sequence[object], releases: Releases, locks: Sequence[Lock],
             left: Mapping[str, Sequence[str]]) -> Iterator[str]:
    yield f"{path} is written: {len(commands):,} commands in place of {old.revision:,}"
    for lock in locks:
        yield f"{lock.path}: " + (f"selected as it is, {len(lock.keys):,} packages" if lock.is_selected
                                  else "selected as before, which is not what it names")
    count = sum(map(len, left.values()))
    learnt = f", and {old.learnt:,} learnt" if old.learnt else ""
    yield f"left out: {count:,} of {len(releases):,} versions{learnt}" + (":" if left else "")
    versions: dict[str, int] = {}
    for name, _ in releases:
        versions[name] = versions.get(name, 0) + 1
    for name in list(left)[:MOST_TOLD]:
        yield f"  {name}: {in_short(left[name], versions[name])}"
    if len(left) > MOST_TOLD:
        yield f"  and versions of {len(left) - MOST_TOLD:,} packages more (--json tells all)"


def in_short(left: Sequence[str], count: int) -> str:
    named = ", ".join(left) if len(left) <= 3 else f"{left[0]} to {left[-1]}, {len(left)} of {count} versions"
    return named + (": none is kept" if len(left) == count else "")
