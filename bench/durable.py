"""What it costs to keep a journal, to save one and to load one: sessions beside one without a journal, in the same run
and on the same disk.

    python3 -m bench.durable [--lines 49152] [--asked 2000] [--rounds 5] [--folder FOLDER] [--program PATH]

Prints what a sync takes in the folder, then the best times over the rounds as ratios: of publish lines that are all at
hand, of a client that sends a line and waits for its reply, and of sessions without a line that begin with the journal
which the others leave; the syncs of each, and how much more memory a session had at its peak. Loading and saving are
compared with reading the same lines as requests. Syncs are counted in a run that is not timed, by
`tests/support/c/watch_calls.c`, which takes a C compiler.
"""
from __future__ import annotations

import itertools
import os
import resource
import subprocess
import tempfile
import time
from collections.abc import Callable, Iterable

from bench.measuring import Took, best, parser, session, write, write_publications
from dev.building.progress import TOP

SYNCS = 200  # that are measured by themselves
LOOP = 1_000_000  # steps of a loop by which the machine's speed is told


def waiting(program: str, lines: Iterable[str], *words: str) -> float:
    """Seconds that a client takes which sends a line and waits for its reply."""
    words = (program, "serve", "--workers", "1", *words)
    with subprocess.Popen(words, stdin=subprocess.PIPE, stdout=subprocess.PIPE, bufsize=0) as running:
        assert running.stdin and running.stdout
        start = time.perf_counter()
        for line in lines:
            running.stdin.write(line.encode() + b"\n")
            running.stdout.readline()
        return time.perf_counter() - start


class Bench:
    """The files of one run, all of them in one folder."""

    def __init__(self, program: str, folder: str, count: int, asked: int) -> None:
        self.program, self.folder, self.count = program, folder, count
        names = ("lines", "none", "kept", "saved")
        self.given, self.none, self.kept, self.saved = (os.path.join(folder, name) for name in names)
        write_publications(self.given, count)
        with open(self.given, encoding="ascii") as lines:
            self.asked = [line.removesuffix("\n") for line in itertools.islice(lines, asked)]
        write(self.none, ())

    def fresh(self) -> tuple[str, str]:
        """The words of a session whose journal begins."""
        if os.path.exists(self.kept):
            os.unlink(self.kept)
        return "--journal", self.kept

    def at_hand(self, rounds: int) -> list[Took]:
        """Publications that are all at hand: without a journal, with one, and with one that is saved at the end."""
        rows = [(session(self.program, self.given), session(self.program, self.given, *self.fresh()),
                 session(self.program, self.given, "--save", self.saved)) for _ in range(rounds)]
        return list(map(best, zip(*rows)))

    def one_by_one(self, rounds: int) -> list[float]:
        rows = [(waiting(self.program, self.asked), waiting(self.program, self.asked, *self.fresh()))
                for _ in range(rounds)]
        return list(map(min, zip(*rows)))

    def loading(self, rounds: int) -> list[Took]:
        """Sessions without a line that begin with the journal of all of them: loaded, and gone on with."""
        session(self.program, self.given, *self.fresh())
        rows = [(session(self.program, self.none), session(self.program, self.none, "--load", self.kept),
                 session(self.program, self.none, "--journal", self.kept)) for _ in range(rounds)]
        return list(map(best, zip(*rows)))

    def syncs(self) -> tuple[int, int]:
        """How many syncs a session makes of lines that are at hand, and one of a client that waits, beyond those of
        beginning."""
        library, source = os.path.join(self.folder, "watch.so"), TOP / "tests" / "support" / "c" / "watch_calls.c"
        subprocess.run(["cc", "-O1", "-shared", "-fPIC", "-o", library, source], check=True)
        return self.counted(library, session, self.given), self.counted(library, waiting, self.asked)

    def counted(self, library: str, run: Callable[..., object], given: str | list[str]) -> int:
        """How often a session of these lines has the disk take what was written."""
        calls, launcher = os.path.join(self.folder, "calls"), os.path.join(self.folder, "launch")
        write(calls, ())
        write(launcher, ["#!/bin/sh", f'LD_PRELOAD="{library}" WATCH_TO=9 exec "{self.program}" "$@" 9>> "{calls}"'])
        os.chmod(launcher, 0o755)
        run(launcher, given, *self.fresh())
        with open(calls, encoding="ascii") as noted:
            return sum(line.startswith("fdatasync ") for line in noted)


def sync_of(folder: str, size: int) -> float:
    """Seconds of one append of so many bytes and its sync, the middle one of many."""
    with tempfile.NamedTemporaryFile(dir=folder, buffering=0) as file:
        took = []
        for _ in range(SYNCS):
            file.write(b"x" * size)
            start = time.perf_counter()
            os.fdatasync(file.fileno())
            took.append(time.perf_counter() - start)
    return sorted(took)[SYNCS // 2]


def speed() -> float:
    """Seconds of a processor that a loop takes: what part of its speed the machine has shows beside another run's."""
    start, total = time.process_time(), 0
    for step in range(LOOP):
        total += step
    return time.process_time() - start


def tell(bench: Bench, folder: str, rounds: int) -> None:
    small, large = sync_of(folder, 100), sync_of(folder, 65_536)
    print(f"a sync of 100 bytes takes {small * 1000:.2f} ms, one of 65,536 bytes {large * 1000:.2f} ms")
    plain, kept, saved = bench.at_hand(rounds)
    waited, asked = bench.one_by_one(rounds)
    none, loaded, gone_on = bench.loading(rounds)
    at_hand, one_by_one = bench.syncs()
    few, own = len(bench.asked), resource.getrusage(resource.RUSAGE_SELF).ru_maxrss
    print(f"{bench.count} publications at hand: {plain.seconds * 1000:.0f} ms without a journal, "
          f"{kept.seconds * 1000:.0f} ms with --journal, {saved.seconds * 1000:.0f} ms with --save")
    print(f"  ratio of --journal {kept.seconds / plain.seconds:.2f}, of --save {saved.seconds / plain.seconds:.2f}; "
          f"of a processor's time {kept.processor / plain.processor:.2f} and {saved.processor / plain.processor:.2f}; "
          f"{at_hand} syncs")
    print(f"  peak {plain.peak / 1024:.1f} MB without, {(kept.peak - plain.peak) / 1024:+.1f} MB with --journal, "
          f"{(saved.peak - plain.peak) / 1024:+.1f} MB with --save"
          + (" (or less: so much this program takes)" if plain.peak <= own else ""))
    print(f"a client that waits for each of {few}: {few / waited:.0f} a second without a journal, "
          f"{few / asked:.0f} with --journal; {one_by_one} syncs")
    loads, goes_on = loaded.seconds - none.seconds, gone_on.seconds - none.seconds
    print(f"a session without a line that begins with {bench.count} items: {1000 * loads:.0f} ms by --load, "
          f"{1000 * goes_on:.0f} ms by --journal, ratio {goes_on / loads:.2f}")
    reading, loading = plain.processor - none.processor, loaded.processor - none.processor
    print(f"  of the processor's time of reading the lines: loading {loading / reading:.2f}, "
          f"saving {(saved.processor - plain.processor) / reading:.2f}")
    print(f"  peak {loaded.peak / 1024:.1f} MB by --load, {(gone_on.peak - loaded.peak) / 1024:+.1f} MB by --journal")


def main() -> None:
    options = parser(__doc__, lines=49_152, asked=2_000, rounds=5)
    options.add_argument("--folder", help="where the files are made: on the disk that is to be measured")
    chosen = options.parse_args()
    with tempfile.TemporaryDirectory(dir=chosen.folder) as folder:
        before = speed()
        tell(Bench(chosen.program, folder, chosen.lines, chosen.asked), folder, chosen.rounds)
    print(f"a loop of {LOOP} steps took {before * 1000:.0f} ms of a processor before, "
          f"and {speed() * 1000:.0f} ms after")


if __name__ == "__main__":
    main()
