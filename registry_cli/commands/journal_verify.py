"""`registry journal verify`: what stands in a journal's file, and what is wrong with it."""
from __future__ import annotations

from .. import near_limits
from ..failures import REFUSED
from ..journal_file import CUT, FAULTY, Journal, read_journal
from ..shapes import Iterator, Options, Output


def run(options: Options, out: Output) -> int | None:
    journal, path = read_journal(options.file), options.file
    reason = None
    if journal.state == FAULTY:
        from ..journal_faults import why
        reason = why(path, journal)
    out.give({"file": path, "state": journal.state, "format": journal.format, "items": len(journal.items),
              "learnt": journal.learnt, "revision": journal.revision, "line": journal.line, "why": reason},
             in_words(path, journal, reason, out))
    near_limits.warn(path, journal.text)
    return REFUSED if journal.state == FAULTY else None


def in_words(path: str, journal: Journal, reason: str | None, out: Output) -> Iterator[str]:
    held = f"{counted(journal)}, revision {journal.revision}"
    if journal.state == FAULTY:
        yield f"{out.style(f'{path}:{journal.line}:', 'bold')} {out.style('at fault:', 'red')} {reason}"
        if journal.format:
            yield f"before it: {held}; `registry journal repair {path}` keeps that"
    elif journal.state == CUT:
        end = f"its last line is {journal.line}, which is not finished or missing"
        yield f"{path}: cut: {held}; {end}: a session continues it"
    else:
        yield f"{path}: whole: {held}"


def counted(journal: Journal) -> str:
    if not journal.format:
        return "no items"
    commands = f"{journal.revision:,} command{'' if journal.revision == 1 else 's'}"
    return f"format {journal.format}, {commands} and {journal.learnt:,} learnt"
