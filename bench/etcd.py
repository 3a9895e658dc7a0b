"""How much fronts over etcd take in and answer, against a race in memory.

    python3 -m bench.etcd [--fronts 1 3 10] [--seconds 5] [--folder DIR] [--entries 49152]

Starts three members of etcd on loopback, whose data lies in a folder (by itself the system's for temporary files, on a
disk). Prints for each number of fronts how many publications are accepted a second and how long one takes, when each
client sends one line and waits, and when it sends 64 at once; the same of resolve lines, also 1,024 at once, of
`--stale` fronts too, and of the program without a front that is asked the same in turn, with what a linearizable read
takes alone; then what a race of as many files accepts a second, and how long a new front needs for all entries: from
the cells, from a snapshot, from a file. Each figure is of this machine, with members, fronts and clients on it.

    python3 -m bench.etcd --only resolves --fronts 1       prints only what one front answers, beside the program
"""
from __future__ import annotations

import argparse
import itertools
import os
import statistics
import subprocess
import sys
import tempfile
import time
from collections.abc import Callable, Sequence
from concurrent.futures import ThreadPoolExecutor
from typing import Any

from bench.lines import publish_lines
from bench.measuring import write
from bench.race import race
from registry_etcd.cells import Cell, Cells
from registry_etcd.gateway import Gateway, endpoints
from tests.support import fronts, program
from tests.support.members import Members, is_installed

TOGETHER, MANY = 64, 1_024
ENTRIES = 3_000  # of the journal that is asked


class Alone(fronts.Front):
    """The program, asked as a front is."""

    def __init__(self, path: str) -> None:
        super().__init__([], 1)
        self.words = [program.PROGRAM, *program.SERVE, "--load", path]
        self.begin()
        self.send([program.LIST])


class Bench:
    def __init__(self, members: Members, seconds: float) -> None:
        self.members, self.seconds, self.serial = members, seconds, 0

    def opened(self, count: int, prefix: str, *more: str) -> list[fronts.Front]:
        """Fronts that each ask another member first, and have begun."""
        urls, made = self.members.clients, []
        for seat in range(1, count + 1):
            made.append(fronts.Front(urls[seat % 3:] + urls[:seat % 3], seat, "--prefix", prefix, *more))
            made[-1].begin()
            made[-1].ask(program.LIST)
        return made

    def measure(self, asked: Sequence[fronts.Front], lines_of: Callable[[int, int, int], list[str]],
                together: int) -> tuple[float, float, float]:
        """Has each front asked as long as it is measured. Answers lines a second, and the milliseconds of a call:
        median, 99 of 100."""
        begun = time.perf_counter()

        def client(number: int, front: fronts.Front) -> list[float]:
            spent: list[float] = []
            while time.perf_counter() < begun + self.seconds:
                start, lines = time.perf_counter(), lines_of(number, len(spent) * together, together)
                replies = front.send(lines)
                assert replies and not any('"error"' in it for it in replies), replies
                spent.append(time.perf_counter() - start)
            return spent
        with ThreadPoolExecutor(len(asked)) as pool:
            rows = [*pool.map(client, itertools.count(), asked)]
        took, calls = time.perf_counter() - begun, sorted(it * 1000 for row in rows for it in row)
        return len(calls) * together / took, statistics.median(calls), calls[len(calls) * 99 // 100]

    def founded(self) -> str:
        self.serial += 1
        prefix = f"bench-{os.getpid()}-{self.serial}"
        assert fronts.run("found", self.members.clients, "--prefix", prefix).returncode == 0
        return prefix

    def commands(self, count: int) -> None:
        """Publications by so many fronts."""
        for together in (1, TOGETHER):
            made = self.opened(count, self.founded())
            told = self.measure(made, published, together)
            tell(f"{count} fronts, {together} at once: accepted", told)
            for front in made:
                front.end()

    def filled(self) -> tuple[str, list[str]]:
        """A journal of 3,000 publications of some 90 packages; answers its prefix and the packages' names."""
        prefix, lines = self.founded(), publish_lines(ENTRIES)
        front = self.opened(1, prefix)[0]
        for at in range(0, len(lines), TOGETHER):
            front.send(lines[at:at + TOGETHER])
        front.end()
        return prefix, sorted({line.split('"name":"')[1].split('"')[0] for line in lines})

    def resolves(self, counts: Sequence[int]) -> None:
        """Resolve lines by so many fronts, by `--stale` ones, and by one beside the program: of each package, and of a
        few that need hardly any others."""
        prefix, names = self.filled()
        for what, some in ("each package", names), ("packages with few needs", names[:8]):
            for together in (1, TOGETHER, MANY):
                def lines_of(number: int, at: int, many: int) -> list[str]:
                    return [program.resolve(f"{some[(it * 7 + number) % len(some)]} *") for it in range(at, at + many)]
                for count, words in itertools.product(counts, ((), ("--stale",))):
                    made = self.opened(count, prefix, *words)
                    said = f"{' '.join([f'{count} fronts', *words])}, {together} at once, {what}: "
                    if together < MANY:
                        tell(said + "resolved", self.measure(made, lines_of, together))
                    if count == 1:
                        print(said + self.beside(made[0], prefix, lines_of, together), flush=True)
                    for front in made:
                        front.end()

    def beside(self, front: fronts.Front, prefix: str, lines_of: Callable[[int, int, int], list[str]],
               together: int) -> str:
        """Asks a front and the program without one the same lines in turn, and tells how many times as long the front
        takes."""
        with tempfile.NamedTemporaryFile() as file:
            file.write(fronts.run("journal", self.members.clients, "--prefix", prefix).stdout)
            file.flush()
            alone = Alone(file.name)
        cells = Cells(Gateway(endpoints(self.members.clients[0])), prefix)
        asked: tuple[Callable[[list[str]], object], ...] = (
            lambda lines: at_once(front, lines), lambda lines: at_once(alone, lines),
            lambda _: next(cells.pages(Cell(ENTRIES, None, None))))
        spent, at, end = (list[float](), list[float](), list[float]()), 0, time.perf_counter() + self.seconds
        while time.perf_counter() < end:
            lines = lines_of(0, at, together)
            for ask, times in zip(asked, spent):
                start = time.perf_counter()
                ask(lines)
                times.append(time.perf_counter() - start)
            at += together
        alone.end()
        of_front, of_program, of_read = (statistics.median(times) * 1000 for times in spent)
        return (f"{of_front:.2f} ms a call, and {of_program:.2f} ms of the program without a front that is asked the "
                f"same in turn: {of_front / of_program:.2f} times, "
                f"and {sum(spent[0]) / sum(spent[1]):.2f} times over all; a read alone {of_read:.2f} ms")

    def catching_up(self, entries: int) -> None:
        """A new front, where so many entries stand."""
        prefix, lines = self.founded(), publish_lines(entries)
        front = self.opened(1, prefix, "--compact-every", "0")[0]
        for at in range(0, entries, TOGETHER):
            front.send(lines[at:at + TOGETHER])
        front.end()
        with tempfile.TemporaryDirectory() as folder:
            path = os.path.join(folder, "journal")
            words = ["--prefix", prefix, "--compact-every", "0"]
            timed(f"{entries} entries, from the cells", "serve", self.members.clients, *words, "--save", path)
            timed(f"{entries} entries, from a file", "serve", self.members.clients, *words, "--load", path)
            timed("a snapshot is kept", "compact", self.members.clients, *words, "--load", path)
            timed(f"{entries} entries, from the snapshot", "serve", self.members.clients, *words)
            start = time.perf_counter()
            subprocess.run([program.PROGRAM, *program.SERVE, "--load", path], stdin=subprocess.DEVNULL, check=True)
            print(f"the program alone loads them in {time.perf_counter() - start:.2f} s", flush=True)


def published(number: int, at: int, many: int) -> list[str]:
    """So many publications of a client."""
    return [program.publish(f"p{number}-{at // 4000}", f"1.{minor}.0") for minor in range(at, at + many)]


def at_once(front: fronts.Front, lines: list[str]) -> None:
    """Sends all lines before the first reply is read: a pipe and a front hold them."""
    front.child.stdin.write("".join(line + "\n" for line in lines))
    front.child.stdin.flush()
    for _ in lines:
        assert front.child.stdout.readline().endswith("\n")


def timed(what: str, *words: Any) -> None:
    start = time.perf_counter()
    ended = fronts.run(*words, given=program.LIST.encode())
    assert ended.returncode == 0, ended.stderr
    print(f"{what}: {time.perf_counter() - start:.2f} s", flush=True)


def tell(what: str, told: tuple[float, float, float]) -> None:
    print(f"{what} {told[0]:.0f} a second, a call {told[1]:.2f} ms, 99 of 100 within {told[2]:.2f} ms", flush=True)


def raced(count: int, lines: int = 4000) -> None:
    """What a race of so many files accepts a second."""
    with tempfile.TemporaryDirectory() as folder:
        paths = [os.path.join(folder, str(number)) for number in range(count)]
        for number, path in enumerate(paths):
            write(path, [program.publish(f"p{number}", f"1.{it}.0") for it in range(lines)])
        spent = min(race(program.PROGRAM, paths)[0] for _ in range(3))
    print(f"a race of {count} files: accepted {count * lines / spent:.0f} a second", flush=True)


def main() -> None:
    parser = argparse.ArgumentParser(description=__doc__, formatter_class=argparse.RawDescriptionHelpFormatter)
    parser.add_argument("--fronts", type=int, nargs="+", default=[1, 3, 10])
    parser.add_argument("--seconds", type=float, default=5.0)
    parser.add_argument("--folder", default=tempfile.gettempdir())
    parser.add_argument("--entries", type=int, default=49_152)
    parser.add_argument("--only", choices=("commands", "resolves", "beginning"))
    chosen = parser.parse_args()
    if not is_installed():
        sys.exit("etcd is not installed: apt-get install etcd-server")
    members = Members(3, folder=chosen.folder)
    try:
        bench = Bench(members, chosen.seconds)
        print(f"{os.cpu_count()} processors, data in {chosen.folder}")
        if chosen.only in (None, "commands"):
            for count in chosen.fronts:
                bench.commands(count)
                raced(count)
        if chosen.only in (None, "resolves"):
            bench.resolves(chosen.fronts)
        if chosen.only in (None, "beginning"):
            bench.catching_up(chosen.entries)
    finally:
        members.close()


if __name__ == "__main__":
    main()
