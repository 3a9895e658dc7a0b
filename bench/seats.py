"""What seats of one journal take beside a session that threads share behind a lock, in one process, from C.

    python3 -m bench.seats [--rounds 5] [--seconds 2] [--library FOLDER]

A registry of some 1,500 publications, and one of some 20,000, are published and then asked: by a session and by one
seat, each in one thread, and by a session and by seats in four. Prints for each, of the best of all rounds, the
microseconds until all is published, by each publication, where all threads publish at once, how many requests a second
all threads have answered, and the megabytes of the session, or of a seat with its part of what all seats share; beside
them the ratios to the session in one thread. The ways take turns, round by round. It takes a C compiler, and four idle
processors.
"""
from __future__ import annotations

import subprocess
import sys
import tempfile
from collections.abc import Iterable, Iterator
from dataclasses import dataclass, field
from pathlib import Path

from bench.measuring import parser, write
from bench.workloads import lockfile
from dev.building import c_library
from dev.building.progress import TOP

SOURCE = TOP / "bench" / "round_trips" / "seats.c"
SIZES = (45, 575)
WAYS = (("session", 1), ("session", 4), ("seats", 1), ("seats", 4))


@dataclass
class Row:
    """What a way took for a registry of so many publications: nanoseconds of a publication and of a resolve, how many
    resolves there were in all, and bytes; a tuple a round."""
    publications: int
    way: str
    threads: int
    rounds: list[tuple[int, ...]] = field(default_factory=list)
    reply: str = ""

    def take(self, printed: str) -> None:
        numbers, self.reply = printed.splitlines()
        self.rounds.append(tuple(map(int, numbers.split())))

    @property
    def publishing(self) -> float:
        return min(numbers[0] for numbers in self.rounds) / 1000

    @property
    def rate(self) -> float:
        return 1e9 * self.threads / min(numbers[1] for numbers in self.rounds)

    @property
    def megabytes(self) -> float:
        return min(numbers[3] for numbers in self.rounds) / 1e6


def measured(library: str | Path, sizes: Iterable[int], rounds: int, seconds: float) -> list[Row]:
    """A row for each size and way."""
    with tempfile.TemporaryDirectory() as name:
        folder, rows = Path(name), []
        subprocess.run(["cc", "-O2", "-I", TOP / "clients" / "c", SOURCE, "-L", library, "-l:libregistryd.a",
                        "-lpthread", "-o", folder / "seats"], check=True)
        for size in sizes:
            published, asked = lockfile(size, count=20)
            for file, lines in ("published", published), ("asked", asked):
                write(str(folder / file), lines)
            found = [Row(len(published), way, threads) for way, threads in WAYS]
            for row in found * rounds:
                words = [folder / "seats", row.way, row.threads, seconds, folder / "published", folder / "asked"]
                done = subprocess.run([*map(str, words)], stdout=subprocess.PIPE, text=True, check=True)
                row.take(done.stdout)
            rows += found
        return rows


def table(rows: Iterable[Row]) -> Iterator[str]:
    yield "| Publications | Way | Threads | a publication, µs | ratio | resolves a second | ratio | MB |"
    yield "|---|---|---|---|---|---|---|---|"
    for row in rows:
        if (row.way, row.threads) == WAYS[0]:
            base = row
        yield (f"| {row.publications:,} | {row.way} | {row.threads} | {row.publishing:.1f} | "
               f"{row.publishing / base.publishing:.2f} | {row.rate:,.0f} | {row.rate / base.rate:.2f} | "
               f"{row.megabytes:.2f} |")


def main() -> int:
    options = parser(__doc__, rounds=5, seconds=2)
    options.add_argument("--library", help="the folder of libregistryd; else the one that is built of these sources")
    chosen = options.parse_args()
    try:
        library = chosen.library or c_library.built().folder
    except c_library.Unbuilt as why:
        sys.exit(f"bench.seats: {why}")
    print(*table(measured(library, SIZES, chosen.rounds, chosen.seconds)), sep="\n")
    return 0


if __name__ == "__main__":
    sys.exit(main())
