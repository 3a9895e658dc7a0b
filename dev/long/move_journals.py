"""Renames, removes and replaces the files of sessions that keep a journal, at random moments, and looks for what is
told later.

    python3 -m dev.long.move_journals --sessions 1000         so many sessions; seeds are counted from --seed

A client sends commands, each burst once the one before is answered. At a random moment the file gets another name,
beside its own or in its place, or a copy gets its own, and another session begins on that. No command that is sent
later may be accepted; all that was told has to stand in the file; and the session says why it ends. Status 1 where
anything is found; each find is told with its seed."""
import os
import random
import shutil
import sys
import threading
import time
from collections.abc import Sequence
from pathlib import Path
from typing import Any

from dev.long.kill_sessions import WORKERS
from dev.runs import Run, demand, seed_tried
from tests.support import durable_sessions, program
from tests.support.plain_remnant import remnant

WITHIN = 0.1  # seconds after which the file was moved
MORE = 100  # commands that are sent behind that, at most
OTHER = program.publish("other", "1.0.0")


def renamed(path: str, there: str) -> None:
    os.rename(path, there)


def removed(path: str, there: str) -> None:
    os.link(path, there)
    os.unlink(path)


def replaced(path: str, there: str) -> None:
    shutil.copy(path, path + ".new")
    os.link(path, there)
    os.rename(path + ".new", path)


class Mover(threading.Thread):
    """Moves a file at a random moment. From then on `sent` tells how many of these lines may have been sent by then,
    and `other` how another session on its name went."""

    def __init__(self, rng: random.Random, path: str, there: str, lines: Sequence[str]) -> None:
        super().__init__()
        self.way, self.seconds = rng.choice([renamed, removed, replaced]), rng.random() * WITHIN
        self.path, self.there, self.lines = path, there, lines
        self.sent: int | None = None
        self.other: Any = None

    def run(self) -> None:
        time.sleep(self.seconds)
        try:
            self.way(self.path, self.there)
        finally:
            self.sent = len(self.lines)
        self.other = program.run(["serve", "--workers", "1", "--journal", self.path], OTHER.encode() + b"\n")


def moved(seed: int, folder: str) -> int:
    """One session whose file is moved; answers how many commands were accepted."""
    rng, path, there = random.Random(f"move {seed}"), os.path.join(folder, "kept"), os.path.join(folder, "there")
    lines: list[str] = []
    client = durable_sessions.Client(["serve", "--workers", rng.choice(WORKERS), "--journal", path])
    mover = Mover(rng, path, there, lines)
    while mover.sent is None or len(lines) < mover.sent + MORE:
        burst = [program.publish(f"p{number % 30}", f"1.{len(lines)}.{number}")
                 for number in range(rng.choice([1, 1, 2, 9]))]
        lines.extend(burst)
        client.send(burst)
        if not client.read_until(len(lines)):
            break
        if not mover.ident:
            mover.start()
    ended, told = client.leave(), len(client.replies())
    mover.join()
    judge(mover, client.replies(), told, ended)
    return told


def judge(mover: Mover, replies: Sequence[str], told: int, ended: tuple[int, bytes]) -> None:
    """Demands that all is right that a session, and the other one on its name, told and left."""
    way, sent = mover.way.__name__, mover.sent or 0
    wanted = [f'{{"ok":true,"revision":{number}}}' for number in range(1, told + 1)]
    demand(replies == wanted, f"{way}: {replies}")
    demand(told <= sent, f"{way}: {told - sent} commands were accepted that were sent later")
    said = f"registryd: journal {mover.path}: changed by another program, and not gone on with\n"
    demand(ended == (1, said.encode()), f"it ends with {ended}")
    fault = durable_sessions.fault_of(Path(mover.there).read_bytes(), mover.lines, told)
    demand(not fault, f"{way}: {fault}")
    is_well = (mover.other.returncode, mover.other.stderr) == (0, b"")
    demand(is_well, f"the other session ends with {mover.other}")
    last = remnant(Path(mover.path).read_bytes()).commands[-1]
    demand(last == program.journal_line(OTHER).encode(), "what the other session was told is gone")


def tried(seed: int) -> tuple[Any, ...]:
    return seed_tried(seed, lambda folder: [moved(seed, folder)], [0])


def main(words: Sequence[str]) -> int:
    run = Run(__doc__, words, sessions=40)
    durable_sessions.PROGRAM = run.chosen.program
    accepted, = run.totals(tried)
    return run.end(f"{run.count:,} sessions whose files were moved, {accepted:,} commands accepted,")


if __name__ == "__main__":
    sys.exit(main(sys.argv[1:]))
