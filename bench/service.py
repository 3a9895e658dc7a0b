"""How much a service takes in and answers, beside one session over a pipe.

    python3 -m bench.service [--clients 1 10 100 1000] [--seconds 5] [--folder DIR]
    python3 -m bench.service --memory 1000000

The first prints for a session over a pipe, and for each number of clients of a service, how many requests and
publications are answered a second and how long one takes, where each client sends one line and waits for its reply;
then the same while another client asks for 15 pigeons in 14 holes all the time, which nothing answers in time. The
second tells the memory of a service and its programs before and after so many requests. The clients are one process on
the same machine.
"""
from __future__ import annotations

import argparse
import contextlib
import os
import select
import selectors
import subprocess
import sys
import tempfile
import time
from collections.abc import Callable, Iterator, Sequence
from dataclasses import dataclass
from typing import Any

from bench.embedded import publications
from tests.support import program
from tests.support.registry_folder import pigeons
from tests.support.services import Service

COMMANDS = 40_000  # that fit into a journal behind the registry that is asked
REQUEST = program.resolve("app ^1").encode() + b"\n"
HOLES, BIRDS = pigeons(15)
HARD = program.resolve(*(f"{it} *" for it in BIRDS)).encode() + b"\n"


class Publications:
    """Lines that publish, each of them another."""

    def __init__(self) -> None:
        self.count = 0

    def line(self) -> bytes:
        self.count += 1
        return program.publish(f"new-{self.count // 4_000}", f"1.{self.count}.0", ["app ^1"]).encode() + b"\n"


@dataclass
class Figure:
    """What was measured: how many were answered a second, and milliseconds of one."""
    rate: float
    spent: list[float]

    def told(self) -> str:
        self.spent.sort()
        if not self.spent:
            return "    none in this time"
        parts = (self.spent[int(len(self.spent) * part)] for part in (0.5, 0.99, 0.999))
        return f"{self.rate:>8,.0f} a second" + "".join(f"{1000 * seconds:>9.2f}" for seconds in parts)


def ask(connections: Sequence[tuple[int, int]], line: Callable[[], bytes], seconds: float,
        count: int | None = None) -> Figure:
    """Has each connection, a file to read from and one to write to, ask one line after the other; until so many were
    answered, or so long."""
    selector, begun, waiting = selectors.DefaultSelector(), {}, {}
    spent: list[float] = []
    now = time.perf_counter
    for read, write in connections:
        selector.register(read, selectors.EVENT_READ, write)
        begun[read], waiting[read] = now(), b""
        os.write(write, line())
    start = now()
    while now() < start + seconds and (count is None or len(spent) < count):
        for key, _ in selector.select(1):
            read = key.fd
            waiting[read] += os.read(read, 65_536)
            if waiting[read].endswith(b"\n"):
                assert not waiting[read].startswith(b'{"error"'), waiting[read]
                waiting[read] = b""
                spent.append(now() - begun[read])
                begun[read] = now()
                os.write(key.data, line())
    whole = now() - start
    for read in [it for it, _ in connections]:  # what is under way
        while not waiting[read].endswith(b"\n") and select.select([read], [], [], 30)[0]:
            waiting[read] += os.read(read, 65_536)
    return Figure(len(spent) / whole, spent)


class Bench:
    def __init__(self, folder: str | None, seconds: float, words: Sequence[object] = ()) -> None:
        self.folder, self.seconds, self.words = folder, seconds, words

    @contextlib.contextmanager
    def service(self) -> Iterator[Service]:
        """A service over the registry, in a folder of its own."""
        with tempfile.TemporaryDirectory(dir=self.folder) as folder:
            service = Service(folder, *self.words)
            try:
                with service.client() as client:
                    client.ask(*publications())
                yield service
            finally:
                service.end()

    def both(self, connections: Sequence[tuple[int, int]]) -> list[Figure]:
        """Requests, and then publications."""
        publications = Publications()
        return [ask(connections, lambda: REQUEST, self.seconds),
                ask(connections, publications.line, self.seconds, COMMANDS)]

    def pipe(self) -> list[Figure]:
        """One session of the program over a pipe, with a journal of its own."""
        with tempfile.TemporaryDirectory(dir=self.folder) as folder:
            words = [program.PROGRAM, "serve", "--workers", "1", "--journal", os.path.join(folder, "journal")]
            running: Any = subprocess.Popen(words, stdin=subprocess.PIPE, stdout=subprocess.PIPE, bufsize=0)
            with running:
                lines = publications()
                running.stdin.write("".join(it + "\n" for it in lines).encode())
                program.read_lines(running, len(lines))
                figures = self.both([(running.stdout.fileno(), running.stdin.fileno())])
                running.stdin.close()
        return figures

    def clients(self, count: int, is_hard: bool = False) -> list[Figure]:
        """So many clients of a service, and one more that asks what nothing answers."""
        with self.service() as service, contextlib.ExitStack() as stack:
            if is_hard:
                hard = stack.enter_context(service.client())
                hard.ask(*HOLES)
                hard.socket.sendall(HARD * 40)
            sockets = [stack.enter_context(service.client()).socket for _ in range(count)]
            figures = self.both([(it.fileno(), it.fileno()) for it in sockets])
        return figures


def compare(bench: Bench, counts: Sequence[int]) -> None:
    print("                                       answered   milliseconds: half of them, 99 and 99.9 of 100 within")
    report("a pipe", bench.pipe())
    for is_hard in (False, True):
        for count in counts:
            name = f"{count:,} client{'s' * (count > 1)}{', one hard' * is_hard}"
            report(name, bench.clients(count, is_hard))


def report(name: str, figures: Sequence[Figure]) -> None:
    for what, figure in zip(("requests", "publications"), figures):
        print(f"{name:<24}{what:<14}{figure.told()}", flush=True)


# ---- Memory

def resident(process: int) -> int:
    """Kilobytes that a process has in memory."""
    with open(f"/proc/{process}/status", encoding="ascii") as file:
        return next(int(line.split()[1]) for line in file if line.startswith("VmRSS:"))


def memory(bench: Bench, count: int) -> None:
    with bench.service() as service, contextlib.ExitStack() as stack:
        sockets = [stack.enter_context(service.client()).socket for _ in range(50)]
        connections = [(it.fileno(), it.fileno()) for it in sockets]
        for done in (1_000, count // 2, count - count // 2):
            ask(connections, lambda: REQUEST, 86_400, done)
            keepers, readers = service.programs()
            print(f"{done:>9,} more requests: service {resident(service.running.pid):,} kB, "
                  f"keeper {resident(keepers[0]):,} kB, "
                  f"readers {', '.join(f'{resident(it):,}' for it in readers)} kB", flush=True)


def main(words: list[str]) -> None:
    parser = argparse.ArgumentParser(prog="python3 -m bench.service", description=__doc__,
                                     formatter_class=argparse.RawDescriptionHelpFormatter)
    parser.add_argument("--clients", nargs="+", type=int, default=[1, 10, 100, 1000], metavar="N")
    parser.add_argument("--seconds", type=float, default=5, metavar="S", help="of each figure (else: 5)")
    parser.add_argument("--folder", metavar="DIR", help="of journals (else: where the system has temporary files)")
    parser.add_argument("--memory", type=int, metavar="N", help="tell the memory before and after so many requests")
    chosen = parser.parse_args(words)
    bench = Bench(chosen.folder, chosen.seconds, ["--clients", max(1_000, *chosen.clients) + 10])
    if chosen.memory:
        memory(bench, chosen.memory)
    else:
        compare(bench, chosen.clients)


if __name__ == "__main__":
    main(sys.argv[1:])
