"""Kills sessions that keep a journal, at random moments under load, and looks for what was told and is not in the file.

    python3 -m dev.long.kill_sessions --kills 2000            so many kills; each file has a seed, counted from --seed
    python3 -m dev.long.kill_sessions --seed 17 --kills 20    the lines of one file again, killed at other moments

A client sends publications, yanks and requests in bursts, of which some search and teach, and reads the replies. The
program is killed after a random time, when it has given a certain reply, or when the last line was sent; a few sessions
end well. Then plain readers read the file: all that the client was told stands there, in order, and nothing that it had
not asked for; each reply was right; what was learnt follows. The next session goes on with the same file, so it grows
and is recovered many times. Status 1 where anything is found; each find is told with its seed.
"""
from __future__ import annotations

import contextlib
import functools
import json
import os
import random
import select
import subprocess
import sys
import threading
import time
from collections.abc import Callable, Sequence
from pathlib import Path
from typing import Any

from dev.long.race_many import contended
from dev.runs import Find, Run, demand, seed_tried
from registry_cli import tied
from tests.program.test_batches import CLASHING, TOPS
from tests.support import program
from tests.support.made_lines import Maker
from tests.support.plain_remnant import NoRemnant, Reader
from tests.support.plain_session import PlainSession

SESSIONS = 20  # that one file has
WORKERS = (1, 2, 4, 8)
NAMES = ["a", "b", "c", "d", "e-1", "foo", "bar", "baz"]
REQUIREMENTS = ["*", "^1", ">=1.100.0", "<1.200.0", "~1.7", "^2"]
KINDS = ["time", "time", "time", "reply", "reply", "sent", "end"]  # of kills; of the last kind a session ends well
LIMIT = 100  # seconds in which a program has replied or is gone


# ---- What is sent

def command(rng: random.Random) -> dict[str, Any]:
    """A publication, of which there may be many, or what changes one."""
    name, version = rng.choice(NAMES), f"{rng.choice([1, 1, 2])}.{rng.randrange(300)}.0"
    if rng.random() < 0.2:
        return {"op": rng.choice(["yank", "unyank"]), "name": name, "version": version}
    others = rng.sample([other for other in NAMES if other != name], rng.choice([0, 0, 1, 2]))
    needs = [[other, rng.choice(REQUIREMENTS)] for other in others]
    return {"op": "publish", "name": name, "version": version, "needs": needs}


def line_of(rng: random.Random, maker: Maker) -> bytes:
    kind = rng.random()
    if kind < 0.6:
        return json.dumps(command(rng)).encode()
    if kind < 0.85:
        return json.dumps(contended(rng)).encode()
    if kind < 0.95:
        needs = [[name, rng.choice(REQUIREMENTS)] for name in rng.sample(NAMES, 2)]
        return json.dumps({"op": "resolve", "needs": needs}).encode()
    line: bytes = maker.line(maker.value())
    return line.replace(b"\n", b" ")


def bursts_of(rng: random.Random, is_long: bool) -> list[list[bytes]]:
    """The lines of a session, those of a burst together. Long ones begin with what teaches lines of many kilobytes."""
    maker = Maker(rng)
    made = [[line_of(rng, maker) for _ in range(rng.choice([1, 1, 2, 10, 60]))]
            for _ in range(rng.choice([1, 5, 20, 40]))]
    if is_long:
        made.insert(0, [line.encode() for line in CLASHING])
    tops = json.dumps({"op": "resolve", "needs": [[f"t{number}", "*"] for number in range(TOPS)]}).encode()
    return [[b'{"op":"list"}'], *made[:1], [tops], *made[1:]]


# ---- One session

class Session:
    """A program, a thread that writes its lines, and the replies that are read until it is killed."""

    def __init__(self, words: Sequence[str], bursts: Sequence[Sequence[bytes]], path: str = "", count: int = 0) -> None:
        """A program at another path may have been given so many lines otherwise."""
        pipe = subprocess.PIPE
        self.running = tied.Tied([path or program.PROGRAM, *words], stdin=pipe, stdout=pipe, stderr=pipe, bufsize=0)
        self.bursts, self.count, self.sent = bursts, sum(map(len, bursts), count), count
        self.read, self.replies, self.is_open = b"", 0, True
        self.writer = threading.Thread(target=self.write)

    def write(self) -> None:
        with contextlib.suppress(OSError):  # it was killed
            for burst in self.bursts:
                self.running.stdin.write(b"".join(line + b"\n" for line in burst))
                self.sent += len(burst)

    def read_some(self, seconds: float) -> None:
        if select.select([self.running.stdout], [], [], seconds)[0]:
            piece = os.read(self.running.stdout.fileno(), 65_536)
            self.read += piece
            self.replies += piece.count(b"\n")
            self.is_open = piece != b""

    def run(self, rng: random.Random, kinds: Sequence[str] = KINDS) -> tuple[bool, bytes, tuple[int, bytes]]:
        """Answers whether it was killed, what was read, and how it ended."""
        at, until = rng.randrange(self.count), time.monotonic() + rng.random() ** 2 * 0.3
        moments: dict[str, Callable[[], bool]]
        moments = {"time": lambda: time.monotonic() > until, "reply": lambda: self.replies > at,
                   "sent": lambda: self.sent == self.count, "end": lambda: self.replies == self.count}
        kind, limit = rng.choice(kinds), time.monotonic() + LIMIT
        self.writer.start()
        while self.is_open and not moments[kind]() and time.monotonic() < limit:
            self.read_some(0.001)
        is_late = time.monotonic() > limit
        if kind != "end" or is_late:
            self.running.kill()
        self.writer.join()
        self.running.stdin.close()
        with self.running.stdout, self.running.stderr:
            while self.is_open and time.monotonic() < limit + LIMIT:
                self.read_some(LIMIT)
            if self.is_open:
                self.running.kill()
            demand(not is_late and not self.is_open, f"{self.replies} replies to {self.sent} lines in {LIMIT} seconds")
            return kind != "end", self.read, (self.running.wait(), self.running.stderr.read())


# ---- How it is judged

def begun(lines: Sequence[bytes]) -> PlainSession:
    """A plain session that begins with these commands of a journal."""
    plain = PlainSession()
    for line in lines:
        asked = json.loads(line)
        plain.registry.apply(asked)
        plain.published.apply(asked)
        plain.judged.obey(asked, {"ok": True})
        plain.accepted.append(asked)
    return plain


def journal_lines(accepted: Sequence[object]) -> list[bytes]:
    return [json.dumps(command, sort_keys=True, separators=(",", ":"), ensure_ascii=False).encode()
            for command in accepted]


def told_and_asked(before: Sequence[bytes], lines: Sequence[bytes], read: bytes) -> tuple[list[bytes], list[bytes]]:
    """The commands of which the client was told that they are accepted, behind those of the file, and all that may have
    been. Each reply is as it may be; of the last one a part alone may have gone out."""
    plain = begun(before)
    *replies, part = read.split(b"\n")
    demand(len(replies) + bool(part) <= len(lines), "there are more replies than lines")
    for number, (line, reply) in enumerate(zip(lines, replies), 1):
        fault = plain.fault(line, reply.decode())
        demand(not fault, f"line {number}: {line[:1000]!r}\n answered {reply[:1000]!r}\n {fault}")
    told = len(plain.accepted)
    for number, line in enumerate(lines[len(replies):]):
        before_it = len(plain.accepted)
        plain.fault(line, "")
        # a part of a reply tells of the line too
        if number == 0 and part and len(plain.accepted) > before_it:
            reply = b'{"ok":true,"revision":%d}' % plain.registry.revision
            demand(reply.startswith(part), f"a part of a reply is {part!r}")
            told += 1
    every = journal_lines(plain.accepted)
    return every[:told], every


def found_in(reader: Reader, path: str) -> Any:
    text = Path(path).read_bytes()
    try:
        return reader.read(text)
    except NoRemnant as fault:
        raise Find(f"the file is no journal: {fault}\n{text[-3000:]!r}") from fault


def judged(reader: Reader, path: str, before: Sequence[bytes], lines: Sequence[bytes], read: bytes) -> Any:
    """What the file has: all commands that were told, and nothing else than was asked for."""
    found = found_in(reader, path)
    told, every = told_and_asked(before, lines, read)
    counts = f"{len(told)} commands were told, and the file has {len(found.commands)}"
    demand(found.commands[:len(told)] == told, f"{counts}: {told[-1:]} and {found.commands[-1:]}")
    is_asked = found.commands == every[:len(found.commands)]
    demand(is_asked, f"the file has what was not asked for: {found.commands[-1:]}")
    return found


def gone_on(path: str) -> bytes:
    """What a session lists that goes on with the file."""
    last = program.run([*program.SERVE, "--journal", path], b'{"op":"list"}\n')
    demand((last.returncode, last.stderr) == (0, b""), f"the last session ends with {last.returncode} {last.stderr!r}")
    listed: bytes = last.stdout
    return listed


def demand_loaded(path: str) -> None:
    """Demands that the file is loaded as what a session has that goes on with it."""
    listed, loaded = gone_on(path), program.run([*program.SERVE, "--load", path], b'{"op":"list"}\n')
    how = f"{loaded.returncode} {loaded.stderr!r}"
    demand((loaded.returncode, loaded.stdout) == (0, listed), f"what it left is loaded with {how}")


def killed(seed: int, most: int, folder: str) -> tuple[int, int, int]:
    """The sessions of one file, of which so many at most are killed; answers the kills, the replies that were read, and
    the size of the file."""
    rng, kills, replies = random.Random(f"kill {seed}"), 0, 0
    before: list[bytes] = []
    path, reader, is_long = os.path.join(folder, "kept.journal"), Reader(), rng.random() < 0.15
    for number in range(SESSIONS):
        bursts, workers = bursts_of(rng, is_long and number == 0), rng.choice(WORKERS)
        session = Session(["serve", "--workers", str(workers), "--journal", path], bursts)
        is_killed, read, ended = session.run(rng)
        wanted = -9 if is_killed else 0, b""
        demand(ended == wanted, f"session {number} ends with {ended[0]} {ended[1]!r}")
        if os.path.exists(path):
            before = judged(reader, path, before, sum(bursts, []), read).commands
        else:
            demand(not read, "replies went out, and there is no file")
        kills, replies = kills + is_killed, replies + read.count(b"\n")
        if kills == most:
            break
    demand_loaded(path)
    return kills, replies, os.path.getsize(path)


def tried(seed: int, most: int = SESSIONS) -> tuple[Any, ...]:
    return seed_tried(seed, lambda folder: killed(seed, most, folder), [0, 0, 0])


def many_killed(run: Run, tried: Callable[..., tuple[Any, ...]], what: str) -> int:
    """Tries seeds until so many are killed as are asked for; answers the exit status."""
    kills = replies = 0
    sizes: list[int] = []
    for of_one, told, size in run.each(functools.partial(tried, most=run.count)):
        kills, replies = kills + of_one, replies + told
        sizes.append(size)
        if kills >= run.count:
            break
    return run.end(f"{kills:,} kills of {what} of {len(sizes)} files, the largest of {max(sizes):,} bytes, "
                   f"{replies:,} replies read,")


def main(words: Sequence[str]) -> int:
    return many_killed(Run(__doc__, words, kills=40), tried, "sessions")


if __name__ == "__main__":
    sys.exit(main(sys.argv[1:]))
