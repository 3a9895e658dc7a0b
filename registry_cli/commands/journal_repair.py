"""`registry journal repair`: the longest lawful beginning of a journal's file, as a file of its own."""
from __future__ import annotations

import json

from registryd_lines.fault import shown

from ..failures import Failed, Refused
from ..journal_file import FAULTY, Journal, fault_line, read_journal, refuse_existing, write_new
from ..shapes import Iterator, Options, Output, Sequence

MOST_TOLD, MOST_SHOWN = 10, 200


def run(options: Options, out: Output) -> None:
    path, journal = options.file, read_journal(options.file)
    new = options.output or f"{path}.repaired"
    if not journal.line:
        whole = f"{path} is whole: there is nothing to repair"
        out.give({"file": path, "state": journal.state, "written": None}, [whole])
        return
    if not journal.format and journal.state == FAULTY:
        remedy = f"its first line is at fault, and `registry journal verify {path}` says why"
        raise Refused(f"{path} has nothing to keep: {remedy}")
    refuse_existing(new)
    rest = enumerate(journal.lines[journal.line - 1:], journal.line)
    dropped = [(number, it) for number, it in rest if it and not it.startswith(b"end ")]
    text = journal.kept()
    if fault_line(new, text):
        raise Failed(f"{path}: the program refuses what is lawful of it, so nothing is written")
    write_new(new, text, path)
    out.give({"file": path, "state": journal.state, "written": new, "items": len(journal.items),
              "revision": journal.revision, "line": journal.line,
              "dropped": [it.decode(errors="replace") for _, it in dropped]}, in_words(path, new, journal, dropped))


def in_words(path: str, new: str, journal: Journal, dropped: Sequence[tuple[int, bytes]]) -> Iterator[str]:
    yield f"{new} is written: {counted(len(journal.items), 'item')}, revision {journal.revision}"
    size = sum(len(it) for _, it in dropped)
    lines = counted(len(dropped), "line")
    yield f"dropped from line {journal.line} on: {lines}, {size:,} bytes" + (":" if dropped else "")
    for number, it in dropped[:MOST_TOLD]:
        yield f"  line {number}: {described(it)}"
    if len(dropped) > MOST_TOLD:
        yield f"  and {len(dropped) - MOST_TOLD:,} more"
    if any(described(it).startswith(("publish ", "yank ", "unyank ")) for _, it in dropped):
        yield f"these commands are still in {path} as request lines, which can be sent again"


def counted(count: int, what: str) -> str:
    return f"{count:,} {what}{'' if count == 1 else 's'}"


def described(line: bytes) -> str:
    try:
        item = json.loads(line)
        if item["op"] == "learn":
            return "what was learnt"
        return f"{item['op']} {item['name']} {item['version']}"[:MOST_SHOWN]
    except (ValueError, KeyError, TypeError, RecursionError):
        return shown(line[:MOST_SHOWN].decode(errors="replace"))
