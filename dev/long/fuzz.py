"""Sends sessions and journals to the program that nobody would write by hand, and judges every reply.

    python3 -m dev.long.fuzz --sessions 1000 --lines 1000      a million lines; seeds are counted from --seed
    python3 -m dev.long.fuzz --seed 17 --sessions 1            one session again

Lines are good, or damaged in their bytes, tokens or members. The derivations that the program tells are sent back, good
and damaged. The plain readers of `tests/support`, which share nothing with the program, judge the replies of one worker
or several. A session is sent twice, the second time with what the first one told, and saved; then its journal, also
what was learnt, is damaged and loaded. Status 1 where anything is found; each find has its seed and its line."""
import functools
import json
import os
import random
import sys
from collections.abc import Sequence
from typing import Any

from dev.runs import Run, demand, seed_tried
from tests.support import program
from tests.support.made_lines import NAMES, Maker
from tests.support.plain_journal import first_fault
from tests.support.plain_session import PlainSession, Requirements

# the program keeps the matching sets of so many requirements of a package
KEPT_SETS = 128
# publications that name so many on each package: those of the session are beyond the ones whose sets are kept
NAMED_BEFORE = [{"op": "publish", "name": "y", "version": f"0.0.{number}",
                 "needs": [[name, f"<9.{number}.0"] for name in NAMES]} for number in range(KEPT_SETS)]


def run(lines: Sequence[bytes], *words: str, workers: int = 1) -> list[str]:
    """The reply lines of a session that ends well."""
    done = program.run(["serve", "--workers", str(workers), *words], b"".join(line + b"\n" for line in lines))
    demand((done.returncode, done.stderr) == (0, b""), f"a session ends with {done.returncode} {done.stderr[:300]!r}")
    replies: list[str] = done.stdout.decode().split("\n")
    demand(replies.pop() == "" and len(replies) == len(lines), f"{len(lines)} lines have {len(replies)} replies")
    return replies


def first_lines(maker: Maker, count: int) -> tuple[list[Any], list[bytes]]:
    """What a session begins with, a value or none for each line, and the lines."""
    values: list[Any] = [*NAMED_BEFORE] if maker.rng.random() < 0.25 else []
    count += len(values)
    while len(values) < count:
        values.append(maker.value())
        if values[-1]["op"] == "resolve" and not values[-1].get("explain") and maker.rng.random() < 0.5:
            values.append({**values[-1], "explain": True})
    return values, [maker.line(value) for value in values]


def told_again(maker: Maker, lines: Sequence[bytes], replies: Sequence[str]) -> list[bytes]:
    """Lines that ask whether the derivations follow that were told: as they are, damaged, and with one other value."""
    made: list[bytes] = []
    for line, reply in zip(lines, replies):
        if reply.startswith('{"derivation"'):
            asked, rows = json.loads(line.decode()), json.loads(reply)["derivation"]
            check = {"op": "check", "needs": asked["needs"], "lock": asked.get("lock", []), "derivation": rows}
            made.append(json.dumps(check).encode())
            made.append(maker.line({**check, "derivation": maker.other(rows)}))
            made += [json.dumps({**check, "derivation": maker.near(rows)}).encode() for _ in range(6)]
            if maker.rng.random() < 0.01:
                made.append(json.dumps({**check, "derivation": maker.repeated(rows)}).encode())
    return made


def judged(lines: Sequence[bytes], replies: Sequence[str]) -> PlainSession:
    """The session once more; each reply is as it may be."""
    plain = PlainSession()
    for number, (line, reply) in enumerate(zip(lines, replies), 1):
        fault = plain.fault(line, reply)
        demand(not fault, f"line {number}: {line[:3000]!r}\n answered {reply[:3000]}\n {fault}")
    return plain


def journal_text(form: int, accepted: Sequence[object]) -> bytes:
    rows = list(map(journal_line, accepted))
    return b"".join(row + b"\n" for row in [b"registry-journal %d" % form, *rows, b"end %d" % len(rows)])


def saved_well(text: bytes, accepted: Sequence[object]) -> None:
    """What was saved has the accepted commands in their order, and else what was learnt."""
    lines = text.split(b"\n")
    has_form = lines[0] == b"registry-journal 2" and lines[-2:] == [b"end %d" % (len(lines) - 3), b""]
    demand(has_form, f"a file is saved as {text[:300]!r}")
    commands = [line for line in lines[1:-2] if not line.startswith(b'{"derivation"')]
    demand(commands == list(map(journal_line, accepted)), "other commands are saved than were accepted")
    fault = first_fault(text, Requirements())
    demand(fault is None, f"line {fault} of what is saved is at fault:\n{text[:3000]!r}")


def damaged(maker: Maker, text: bytes) -> bytes:
    """A journal's text with a line or some bytes changed, or as it was."""
    lines, kind = text.split(b"\n"), maker.rng.random()
    place, other = maker.rng.randrange(len(lines)), maker.rng.randrange(len(lines))
    if kind < 0.15:
        lines[place] = maker.other_bytes(lines[place])
    elif kind < 0.25:
        del lines[place]
    elif kind < 0.35:
        lines.insert(other, lines[place])
    elif kind < 0.45:
        lines[place], lines[other] = lines[other], lines[place]
    elif kind < 0.5:
        lines.insert(place, maker.line(maker.command()))
    elif kind < 0.6:
        lines[place] = lines[place].replace(b",", b", ", 1) + maker.rng.choice([b"", b"\r", b" "])
    elif kind < 0.7:
        end = lines[-2]
        lines[-2:] = maker.rng.choice([
            [end, b"", *text.split(b"\n")], [end.replace(b" ", b" 0"), b""], [end + b"0", b""], [end], [end, b"", b""],
            [b"end -1", b""], [b"end 18446744073709551616", b""], [end.upper(), b""]])
    elif kind < 0.9:
        other_learnt(maker, lines)
    elif kind < 0.95:
        return text[:maker.rng.randrange(len(text) + 1)]
    return b"\n".join(lines)


def other_learnt(maker: Maker, lines: list[bytes]) -> None:
    """Changes what was learnt: the line of it, or where that stands."""
    learnt = [place for place, line in enumerate(lines) if line.startswith(b'{"derivation"')]
    if not learnt:
        return
    place = maker.rng.choice(learnt)
    if maker.rng.random() < 0.25:
        lines.insert(maker.rng.randrange(1, len(lines) - 1), lines.pop(place))
        return
    rows = json.loads(lines[place])["derivation"]
    changed = maker.repeated(rows) if maker.rng.random() < 0.1 else maker.near(rows)
    lines[place] = journal_line({"derivation": changed, "op": "learn"})


def journal_line(value: object) -> bytes:
    return json.dumps(value, sort_keys=True, separators=(",", ":")).encode()


def loaded(maker: Maker, path: str, text: bytes) -> None:
    """A journal is loaded, or its first line at fault is told, as the plain reader has it."""
    with open(path, "wb") as out:
        out.write(text)
    fault, done = first_fault(text, Requirements()), program.run([*program.SERVE, "--load", path], b'{"op":"list"}\n')
    wanted = (0, b"") if fault is None else (1, b"registryd: journal line %d\n" % fault)
    how = f"a journal is loaded with {done.returncode} {done.stderr!r}, wanted {wanted}"
    demand((done.returncode, done.stderr) == wanted, f"{how}:\n{text[:3000]!r}")


def session(seed: int, count: int, path: str) -> int:
    maker = Maker(random.Random(seed))
    _, lines = first_lines(maker, count)
    workers = maker.rng.choice([1, 2, 4, 64])
    replies = run(lines, workers=workers)
    every = [*lines, *told_again(maker, lines, replies)]
    again = run(every, "--save", path, workers=workers)
    demand(again[:len(lines)] == replies, "the same lines are answered otherwise the second time")
    plain = judged(every, again)
    with open(path, "rb") as file:
        text = file.read()
    saved_well(text, plain.accepted)
    listed = run([b'{"op":"list"}'], "--load", path)
    demand(listed == [plain.registry.answer({"op": "list"}, ())], "what was saved is loaded otherwise")
    for _ in range(3):
        form, most = maker.rng.choice([1, 2]), maker.rng.choice([3, 30, 300])
        loaded(maker, path, damaged(maker, journal_text(form, plain.accepted[:most])))
    for _ in range(3):
        loaded(maker, path, damaged(maker, text))
    return len(every)


def tried(seed: int, count: int) -> tuple[Any, ...]:
    return seed_tried(seed, lambda folder: [session(seed, count, os.path.join(folder, "journal"))], [0])


def main(words: Sequence[str]) -> int:
    run = Run(__doc__, words, sessions=20, lines=1000)
    lines, = run.totals(functools.partial(tried, count=run.chosen.lines))
    return run.end(f"{lines:,} lines")


if __name__ == "__main__":
    sys.exit(main(sys.argv[1:]))
