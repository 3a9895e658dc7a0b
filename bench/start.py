"""What a subcommand of `registry` takes, beside what the program alone takes to load the journal and Python to start.

    python3 -m bench.start [--versions 1514 49152] [--rounds 10] [--program PATH]

Prints for each number of publications, and for each subcommand: the median of the times by the clock, the median of the
processor times of all that it starts, and that less what loading the journal takes, divided by what `python3 -S -c
pass` takes. `page` is the page until its first list is answered. All are run by turns, so what else the machine does
falls on each of them.
"""
from __future__ import annotations

import os
import resource
import subprocess
import tempfile
import time
import urllib.request
from collections.abc import Callable, Sequence
from statistics import median
from typing import Any

from bench.lines import publish_lines
from bench.measuring import parser, session, write
from dev.building.progress import TOP

REGISTRY = str(TOP / "registry")
PYTHON, LOADING = "python", "loading"
QUIET: dict[str, Any] = {"stdin": subprocess.DEVNULL, "stdout": subprocess.DEVNULL, "stderr": subprocess.DEVNULL}


def run(words: Sequence[str]) -> None:
    subprocess.run(words, check=False, **QUIET)  # a request that is refused has a status too


def served(words: Sequence[str]) -> None:
    """Begins a page, reads its first list and ends it."""
    with subprocess.Popen(words, **dict(QUIET, stdout=subprocess.PIPE), text=True) as page:
        assert page.stdout
        address = page.stdout.readline().strip()
        with urllib.request.urlopen(address + "api/search") as answer:
            answer.read()
        page.terminate()


def taken(do: Callable[..., object], *words: object) -> tuple[float, float]:
    """Seconds by the clock and of processors, of this process's children, that something takes."""
    def processors() -> float:
        used = resource.getrusage(resource.RUSAGE_CHILDREN)
        return used.ru_utime + used.ru_stime
    begun, before = time.perf_counter(), processors()
    do(*words)
    return time.perf_counter() - begun, processors() - before


def kinds(program: str, journal: str, name: str) -> dict[str, tuple[Callable[..., object], list[str]]]:
    """What is measured, by its name: how it is run, and its words."""
    kinds = {"list": ["list"], "search": ["search", name[:4]], "show": ["show", name],
             "resolve": ["resolve", f"{name}@*"], "tree": ["tree", name], "refused": ["resolve", f"{name}@>99"]}
    return {PYTHON: (run, ["python3", "-S", "-c", "pass"]),
            LOADING: (run, [program, "serve", "--workers", "1", "--load", journal]),
            **{kind: (run, [REGISTRY, *words, "--journal", journal]) for kind, words in kinds.items()},
            "page": (served, [REGISTRY, "page", "--journal", journal])}


def measured(program: str, versions: int, rounds: int) -> dict[str, tuple[float, float]]:
    """By kind the medians of the seconds by the clock and of processors, over a journal of so many publications."""
    lines = publish_lines(versions)
    with tempfile.TemporaryDirectory() as folder:
        journal, given = os.path.join(folder, "journal"), os.path.join(folder, "lines")
        write(given, lines)
        session(program, given, "--save", journal)
        found = kinds(program, journal, lines[0].split('"')[7])
        rows = [{kind: taken(do, words) for kind, (do, words) in found.items()} for _ in range(rounds)]
    return {kind: (median(row[kind][0] for row in rows), median(row[kind][1] for row in rows)) for kind in found}


def main() -> None:
    options = parser(__doc__, rounds=10)
    options.add_argument("--versions", type=int, nargs="+", default=[1514, 49152])
    chosen = options.parse_args()
    os.environ["REGISTRY_PROGRAM"] = chosen.program
    os.environ.pop("PYTHONDONTWRITEBYTECODE", None)  # modules have their byte code, as where they are installed
    print("versions  subcommand      clock  processors  to Python's start")
    for versions in chosen.versions:
        found = measured(chosen.program, versions, chosen.rounds)
        for kind, (clock, used) in found.items():
            own = used - (kind not in (PYTHON, LOADING)) * found[LOADING][1]
            print(f"{versions:8}  {kind:10}{clock * 1000:8.0f} ms{used * 1000:9.0f} ms"
                  f"{own / found[PYTHON][1]:19.1f}", flush=True)


if __name__ == "__main__":
    main()
