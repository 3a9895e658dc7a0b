"""What one request takes that is asked and waited for: in the caller's process, of a child, and over a socket, from C,
Rust and Python.

    python3 -m bench.embedded [--trips 20000] [--rounds 5] [--program PATH] [--library FOLDER]

Over 160 publications of 8 packages it asks for `app ^1`, which selects all of them, and for `json ^1`, which selects
one. The clients in Rust and Python make values of the replies; in C, and over the socket, the bytes are read and no
more. Behind the socket, one of Unix, stands `registryd serve` with one worker. Prints for each the middle of all round
trips, that of the slowest hundredth, and the ratio to C in process. The ways take turns, round by round. It takes a C
compiler, and rustc 1.65 or later for the rows of Rust.
"""
from __future__ import annotations

import contextlib
import os
import shutil
import socket
import subprocess
import sys
import tempfile
import threading
from collections.abc import Iterable, Iterator
from dataclasses import dataclass, field
from pathlib import Path

from bench.measuring import parser
from bench.workloads import publish, resolve
from dev.building import c_library
from dev.building.progress import TOP

HERE = TOP / "bench" / "round_trips"
PACKAGES = ("app", "http", "json", "log", "net", "rand", "time", "tls")
REQUESTS = {"app ^1": resolve([["app", "^1"]]), "json ^1": resolve([["json", "^1"]])}
WAYS = {"embedded": "in process", "child": "a child", "socket": "a socket"}


def publications() -> list[str]:
    """20 versions of each package; those of `app` need all others, one by one."""
    needs = {name: [[needed, "^1"]] for name, needed in zip(PACKAGES, PACKAGES[1:])}
    needs |= {"app": [[name, "^1"] for name in PACKAGES[1:]], "json": [], PACKAGES[-1]: []}
    return [publish(name, (1, minor, 0), needs[name]) for minor in range(20) for name in PACKAGES]


@dataclass
class Row:
    """The round trips of one language by one way, in nanoseconds, by the request."""
    language: str
    way: str
    command: list[str | Path]
    trips: dict[str, list[int]] = field(default_factory=lambda: {name: [] for name in REQUESTS})
    replies: dict[str, str] = field(default_factory=dict)

    def take(self, printed: str) -> None:
        """Reads what a program of round trips has printed: for each request a reply, and the times behind it."""
        lines, count = printed.splitlines(), len(printed.splitlines()) // len(REQUESTS)
        for at, name in enumerate(REQUESTS):
            self.replies[name], *times = lines[at * count:(at + 1) * count]
            self.trips[name] += map(int, times)

    def at(self, name: str, share: float) -> float:
        """Microseconds of the trip below which this share of all is."""
        times = sorted(self.trips[name])
        return times[min(len(times) - 1, int(len(times) * share))] / 1000


def compiled(folder: Path, library: str | Path, optimized: bool) -> dict[str, list[str | Path]]:
    """The commands of the languages that can be compiled here; who tests them need not wait for a compiler that
    optimizes."""
    commands: dict[str, list[str | Path]] = {"C": [folder / "c"], "Python": [sys.executable, HERE / "round_trips.py"]}
    level = {"cc": ["-O2"], "rustc": ["-O"]} if optimized else {"cc": [], "rustc": []}
    subprocess.run(["cc", *level["cc"], "-I", TOP / "clients" / "c", HERE / "round_trips.c", "-L", library,
                    "-l:libregistryd.a", "-lpthread", "-o", folder / "c"], check=True)
    if shutil.which("rustc"):
        rustc = ["rustc", "--edition", "2021", *level["rustc"], "--out-dir", str(folder), "-L", f"native={library}"]
        subprocess.run([*rustc, "--crate-type", "rlib", "--crate-name", "registryd", "--cfg", 'feature="embedded"',
                        "-l", "static=registryd", TOP / "clients" / "rust" / "src" / "lib.rs"], check=True)
        client = f"registryd={folder / 'libregistryd.rlib'}"
        subprocess.run([*rustc, "--extern", client, HERE / "round_trips.rs"], check=True)
        commands["Rust"] = [folder / "round_trips"]
    return commands


@contextlib.contextmanager
def listening(program: str, path: Path) -> Iterator[Path]:
    """A socket at a path; each connection to it is one session of the program."""
    with socket.socket(socket.AF_UNIX) as server:
        server.bind(str(path))
        server.listen()
        running = []

        def serve() -> None:
            with contextlib.suppress(OSError):  # when the socket is shut down
                while True:
                    channel, _ = server.accept()
                    with channel:
                        words = [program, "serve", "--workers", "1"]
                        running.append(subprocess.Popen(words, stdin=channel.fileno(), stdout=channel.fileno()))

        thread = threading.Thread(target=serve, daemon=True)
        thread.start()
        yield path
        server.shutdown(socket.SHUT_RDWR)
        thread.join()
        for process in running:
            process.wait()


def measured(program: str, library: str | Path, trips: int, rounds: int, optimized: bool = True) -> list[Row]:
    """A row for each language and way, of so many round trips in all."""
    with tempfile.TemporaryDirectory() as name:
        folder = Path(name)
        (folder / "lines").write_text("\n".join(publications()) + "\n", encoding="ascii")
        environment = {**os.environ, "REGISTRYD_LIBRARY": str(Path(library) / "libregistryd.so"),
                       "PYTHONPATH": str(TOP / "clients" / "python")}
        commands = compiled(folder, library, optimized)
        rows = [Row(language, way, command) for language, command in commands.items() for way in WAYS]
        with listening(program, folder / "socket") as path:
            targets = {"embedded": "-", "child": program, "socket": path}
            for row in rows * rounds:
                words = [*row.command, row.way, targets[row.way], folder / "lines", max(1, trips // rounds)]
                done = subprocess.run([*map(str, words), *REQUESTS.values()], env=environment, stdout=subprocess.PIPE,
                                      text=True, check=True)
                row.take(done.stdout)
        return rows


def table(rows: Iterable[Row]) -> Iterator[str]:
    base = next(row for row in rows if (row.language, row.way) == ("C", "embedded"))
    yield f"| | {' | '.join(f'`{name}`, µs | slowest hundredth | ratio' for name in REQUESTS)} |"
    yield f"|---{'|---' * 3 * len(REQUESTS)}|"
    for row in rows:
        cells = [f"{row.at(name, 0.5):.1f} | {row.at(name, 0.99):.1f} | {row.at(name, 0.5) / base.at(name, 0.5):.1f}"
                 for name in REQUESTS]
        yield f"| {row.language}, {WAYS[row.way]} | {' | '.join(cells)} |"


def main() -> None:
    options = parser(__doc__, trips=20_000, rounds=5)
    options.add_argument("--library", help="the folder of libregistryd; else the one that is built of these sources")
    chosen = options.parse_args()
    try:
        library = chosen.library or c_library.built().folder
    except c_library.Unbuilt as why:
        sys.exit(f"bench/embedded.py: {why}")
    print(*table(measured(chosen.program, library, chosen.trips, chosen.rounds)), sep="\n")


if __name__ == "__main__":
    main()
