"""Says how far a long proof is: at which crate of how many, how long it has taken, and about how long is left."""
import os
import re
import sys
import threading
import time
from collections.abc import Sequence
from pathlib import Path
from typing import Self, TextIO

from dev.measured import read

TOP = Path(__file__).resolve().parents[2]
# The file of what the proof of each crate takes.
SECONDS = ("dev", "building", "proof_seconds.txt")
# What a crate that it doesn't name takes, for each byte of its text.
SECONDS_A_BYTE = 0.001
# How much sooner all crates are proved on several processors than on one: crates wait for those below them.
GAIN = {1: 1.0, 2: 1.7, 3: 2.2, 4: 2.6}
# What a check takes at most, in kB: 3 GB, and a third more for what runs beside it.
MEMORY_OF_A_CHECK = 4_000_000
# A line is rewritten this often.
TICK = 1.0


def stands_on() -> dict[str, list[str]]:
    """What crates.txt says each crate stands on."""
    rows = [line.split("#")[0].partition(":") for line in Path(TOP, "crates.txt").read_text("utf-8").splitlines()]
    return {head.split()[0]: below.split() for head, colon, below in rows if colon}


def crates_below(name: str | None = None) -> list[str]:
    """The crates of crates.txt, each after those that it stands on: all, or one that is named and those below it."""
    needs = stands_on()
    found: list[str] = []

    def take(crate: str) -> None:
        for below in needs[crate]:
            if below in needs:
                take(below)
        if crate not in found:
            found.append(crate)

    for crate in [name] if name else needs:
        take(crate)
    return found


def seconds_of(crate: str) -> float:
    """What the proof of a crate takes at one job on an idle machine: as measured, else by its size."""
    measured = read(Path(TOP, *SECONDS))
    if crate in measured:
        return measured[crate]
    files = [file for part in ("src", "specs", "proofs") for file in Path(TOP, "crates", crate, part).rglob("*")]
    return SECONDS_A_BYTE * sum(file.stat().st_size for file in files if file.is_file())


def in_words(seconds: float) -> str:
    if seconds < 90:
        return f"{max(5, 5 * round(seconds / 5)):.0f} s"
    return f"{seconds / 60:.0f} min"


class Line:
    """One line on standard error that says how far something is, rewritten where that is a terminal."""

    def __init__(self, out: TextIO | None = None) -> None:
        self.out, self.begun = out or sys.stderr, time.monotonic()
        self.rewrites, self.lock, self.is_over = self.out.isatty(), threading.RLock(), threading.Event()
        if self.rewrites:
            threading.Thread(target=self.tick, daemon=True).start()

    def text(self) -> str:
        raise NotImplementedError

    def tick(self) -> None:
        while not self.is_over.wait(TICK):
            self.rewrite()

    def rewrite(self) -> None:
        with self.lock:
            if not self.is_over.is_set():
                print(f"\r\x1b[K{self.text()}", end="", file=self.out, flush=True)

    def clear(self) -> None:
        """Takes the line away, so that something else can be written there."""
        if self.rewrites:
            with self.lock:
                print("\r\x1b[K", end="", file=self.out, flush=True)

    def end(self) -> None:
        with self.lock:
            self.is_over.set()
            self.clear()

    def __enter__(self) -> Self:
        return self

    def __exit__(self, *_: object) -> None:
        self.end()


class Counter(Line):
    """How long something has taken, beside what it takes on an idle machine; nothing where that is no terminal."""

    def __init__(self, doing: str, seconds: float, out: TextIO | None = None) -> None:
        self.doing, self.seconds = doing, seconds
        super().__init__(out)

    def text(self) -> str:
        so_far = f"{in_words(time.monotonic() - self.begun)} so far"
        return f"{self.doing}, {so_far}, about {in_words(self.seconds)} on an idle machine"


class Progress(Line):
    """How far a proof is: where standard error is no terminal, the line is written anew with each crate."""

    def __init__(self, name: str, crates: Sequence[str], jobs: int, out: TextIO | None = None) -> None:
        self.name, self.crates = name, crates
        self.weights = {crate: seconds_of(crate) for crate in crates}
        self.rate = GAIN.get(jobs, GAIN[4])
        self.done: set[str] = set()
        self.skipped = 0.0  # the time of what was kept
        super().__init__(out)

    def finish(self, crate: str, is_kept: bool = False) -> None:
        """Notes that a crate is proved; one that was kept from earlier took no time."""
        with self.lock:
            if crate not in self.weights or crate in self.done:
                return
            self.done.add(crate)
            self.skipped += self.weights[crate] * is_kept
        self.say()

    def left(self, elapsed: float) -> float:
        """About how many seconds are left: by what was measured, and more and more by what this run took so far."""
        whole = sum(self.weights.values()) - self.skipped
        done = sum(self.weights[crate] for crate in self.done) - self.skipped
        measured = (whole - done) / self.rate
        if done <= 0:
            return measured
        share = min(1.0, 2 * done / whole)
        return share * (whole - done) * elapsed / done + (1 - share) * measured

    def text(self) -> str:
        elapsed, count = time.monotonic() - self.begun, len(self.crates)
        if len(self.done) == count:
            return f"{self.name}: all {count} crates are proved, {in_words(elapsed)} so far"
        where = f"crate {len(self.done) + 1} of {count}"
        return f"{self.name}: {where}, {in_words(elapsed)} so far, about {in_words(self.left(elapsed))} left"

    def say(self) -> None:
        if self.rewrites:
            self.rewrite()
        else:
            with self.lock:
                print(self.text(), file=self.out, flush=True)


def jobs() -> int:
    """How many checks run at once: one a processor, as far as the memory that is free serves."""
    with open("/proc/meminfo", encoding="ascii") as lines:
        free = re.search(r"MemAvailable:\s+(\d+)", lines.read())
    assert free
    return max(1, min(len(os.sched_getaffinity(0)), int(free[1]) // MEMORY_OF_A_CHECK))
