"""Runs races of files that nobody would write by hand, under schedules of all kinds, and judges what each of them
prints.

    python3 -m dev.long.race_many --races 10000      so many races; seeds are counted from --seed
    python3 -m dev.long.race_many --seed 17          one race again: the same files and pauses, if not the same schedule

A race has 2 to 8 files, of one to forty lines each, that ask for the same packages. It runs on one processor, on two or
on four; its threads pause at random where they ask for memory, and the whole program is stopped and goes on again at
random times. Plain readers replay the printed journal: each accepted command stands in it once, after all that its seat
had seen, and each reply is right at its place. Status 1 where anything is found; each find is told with its seed."""
import functools
import json
import os
import random
import signal
import subprocess
import sys
import tempfile
import time
from collections.abc import Sequence
from typing import Any

from dev.runs import Run, seed_tried
from registry_cli import tied
from tests.support import plain_race, program
from tests.support.made_lines import Maker

SOURCE = os.path.join(program.TOP, "tests", "support", "c", "pause_threads.c")
PROCESSORS = (1, 2, 4)
RIVALS = ["foo", "bar", "baz"]
LIMIT = 100  # seconds of a race


def library(folder: str) -> str:
    """The library in whose presence threads pause, built in a folder."""
    path = os.path.join(folder, "pause.so")
    subprocess.run(["cc", "-O1", "-shared", "-fPIC", "-o", path, SOURCE], check=True)
    return path


def files_of(rng: random.Random) -> list[list[bytes]]:
    """The lines of each file of a race: most of them commands, some of them damaged."""
    maker, most = Maker(rng), rng.choice([1, 5, 15, 40])
    return [[made(maker) for _ in range(rng.randint(1, most))] for _ in range(rng.randint(2, 8))]


def made(maker: Maker) -> bytes:
    if maker.rng.random() < 0.3:
        return json.dumps(contended(maker.rng)).encode()
    value = maker.command() if maker.rng.random() < 0.4 else maker.value()
    line: bytes = maker.plain_line(value) if maker.rng.random() < 0.9 else maker.line(value)
    return line


def contended(rng: random.Random) -> dict[str, Any]:
    """A publication or a request of three packages that need each other: so there are conflicts to learn from."""
    name, *others = rng.sample(RIVALS, 3)
    versions = [f"{number}.0.0" for number in range(1, 6)]
    if rng.random() < 0.65:
        needs = [[other, "^" + rng.choice(versions)] for other in others[:rng.choice([0, 1, 1, 2])]]
        return {"op": "publish", "name": name, "version": rng.choice(versions), "needs": needs}
    asked = [name, *others][:rng.choice([1, 1, 2])]
    return {"op": "resolve", "needs": [[package, ">=" + rng.choice(versions[:2])] for package in asked]}


def stop_at_times(rng: random.Random, running: tied.Tied) -> None:
    """Stops a program and lets it go on, a few times while it runs."""
    for _ in range(rng.randint(1, 4)):
        time.sleep(rng.random() * 0.004)
        if running.poll() is not None:
            return
        running.send_signal(signal.SIGSTOP)
        time.sleep(rng.random() * 0.002)
        running.send_signal(signal.SIGCONT)


def run(rng: random.Random, pausing: str, paths: Sequence[str]) -> tuple[int, bytes, bytes]:
    """What a race of these files left: its status, what it printed, and what it told on standard error."""
    everywhere = os.sched_getaffinity(0)
    env = {**os.environ, "PAUSE_SEED": str(rng.randrange(1, 2 ** 32)), "PAUSE_ONE_IN": str(rng.choice([3, 20, 200]))}
    if rng.random() < 0.7:
        env["LD_PRELOAD"] = pausing
    # what is started runs where this process does
    os.sched_setaffinity(0, sorted(everywhere)[:rng.choice(PROCESSORS)])
    try:
        running = tied.Tied([program.PROGRAM, "race", *paths], env=env, stdout=subprocess.PIPE, stderr=subprocess.PIPE)
    finally:
        os.sched_setaffinity(0, everywhere)
    with running:
        try:
            if rng.random() < 0.5:
                stop_at_times(rng, running)
            printed, told = running.communicate(timeout=LIMIT)
        finally:
            if running.poll() is None:
                running.kill()
    return running.returncode, printed, told


def race(seed: int, pausing: str, folder: str) -> tuple[int, int]:
    """One race, judged; answers how many lines and entries it had."""
    rng = random.Random(f"race {seed}")
    files = files_of(rng)
    status, printed, told = run(rng, pausing, plain_race.written(folder, files))
    plain_race.demand((status, told) == (0, b""), f"a race ends with {status} {told[:300]!r}")
    return sum(map(len, files)), plain_race.judge(files, printed.decode())


def tried(seed: int, pausing: str) -> tuple[Any, ...]:
    faults = plain_race.RaceFault, subprocess.TimeoutExpired
    return seed_tried(seed, lambda folder: race(seed, pausing, folder), [0, 0], faults)


def main(words: Sequence[str]) -> int:
    run = Run(__doc__, words, races=1)
    with tempfile.TemporaryDirectory() as folder:
        lines, entries = run.totals(functools.partial(tried, pausing=library(folder)))
    return run.end(f"{run.count:,} races of {lines:,} lines, {entries:,} entries,")


if __name__ == "__main__":
    sys.exit(main(sys.argv[1:]))
