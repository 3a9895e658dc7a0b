"""Runs the tests in Python by pytest, in several processes: those that ask for no program under test while the programs
are still compiled, then the others, and last the file that judges what was said in all of them.

Files that ask for no program stand in a folder of their own. They find none, so that a file in the wrong folder fails.
A file that has the mark `not_quick` is left out of a quick run, which says so."""
import contextlib
import os
import re
import subprocess
import tempfile
import time
from collections.abc import Iterable, Mapping, Sequence
from pathlib import Path
from typing import Self, TextIO
from xml.etree import ElementTree

from dev import measured
from dev.building.progress import TOP
from dev.testing.compiling import TESTED, Builds
from dev.testing.counts import Counts

# Debian's Python, which its package of pytest is for.
PYTEST = ("/usr/bin/python3", "-m", "pytest", "-q", "--continue-on-collection-errors")
ASK_NONE, ASK = ("tests/in_process",), ("tests/program", "tests/servers", "bench/tests")
LAST = "tests/program/test_written_lines.py"
NO_PROGRAM = {name.upper(): "none" for name in TESTED}
# What each file took, so that those that take longest begin first (`conftest.py`).
MEASURED = TOP / "tests" / "seconds.txt"
# So many files run at once for each processor: they wait most of the time.
AT_ONCE = 3
# How often it is looked whether a program is compiled meanwhile, in seconds; how much those tests give way to that.
LOOK, GIVE_WAY = 0.5, 3
# A file that failed is run once more, alone. Where more files than these failed, that was no chance.
MOST_AGAIN = 10
NOT_QUICK = re.compile(r'^pytestmark = pytest\.mark\.not_quick\("(.+)"\)$', re.M)
# How pytest ends where no test was found.
NONE_RAN = 5


class Session:
    """A run of pytest, which ends with this; with as many workers as are asked for, or none."""

    def __init__(self, folder: Path, words: Sequence[str], workers: int = 0, gives_way: int = 0,
                 out: TextIO | None = None, variables: Mapping[str, str] | None = None) -> None:
        self.report = Path(folder, f"{time.monotonic_ns()}.xml")
        side_by_side = ["-n", str(workers)] if workers else []
        environment = {**os.environ, "SAID": str(folder / "said"), **(variables or {})}
        # tests begin hundreds of Pythons, each of which would compile the same modules anew
        environment.pop("PYTHONDONTWRITEBYTECODE", None)
        command = ["nice", "-n", str(gives_way), *PYTEST, *side_by_side, f"--junitxml={self.report}", *words]
        self.running = subprocess.Popen(command, cwd=TOP, env=environment, stdin=subprocess.DEVNULL,
                                        stdout=out, stderr=subprocess.STDOUT if out else None)

    def __enter__(self) -> Self:
        return self

    def __exit__(self, *_: object) -> None:
        self.running.terminate()
        self.running.wait()

    def ended(self) -> tuple[dict[str, Counts], dict[str, float]]:
        """What came of each file, and the seconds that it took; waits for that."""
        status = self.running.wait()
        counts: dict[str, Counts] = {}
        took: dict[str, float] = {}
        wrong = f"pytest ended with status {status}"
        try:
            counts, took = read(self.report)
        except (OSError, ElementTree.ParseError):
            wrong += " and left no report"
        else:
            # it is 1 where a test failed, and 0 where none did
            if status in (NONE_RAN, any(count.failed for count in counts.values())):
                return counts, took
        counts["pytest"] = Counts(failed=1, told=(wrong,))
        return counts, took


def read(report: str | Path) -> tuple[dict[str, Counts], dict[str, float]]:
    """What came of each file by a report of pytest, and the seconds that its tests took."""
    counts: dict[str, Counts] = {}
    took: dict[str, float] = {}
    for case in ElementTree.parse(report).iter("testcase"):
        names = f"{case.get('classname')}.{case.get('name')}".lstrip(".")
        found = re.match(r"(?:\w+\.)*?test_\w+", names)
        file = f"{found[0].replace('.', '/')}.py" if found else names
        skipped = case.find("skipped")
        # what is cleaned up behind a skipped test may fail
        if case.find("failure") is not None or case.find("error") is not None:
            count = Counts(failed=1)
        else:
            count = Counts(passed=1) if skipped is None else Counts(skipped=((names, skipped.get("message", "")),))
        counts[file] = counts.get(file, Counts()) + count
        took[file] = took.get(file, 0) + float(case.get("time", 0))
    return counts, took


def files() -> list[str]:
    """The files of tests, but for the last."""
    found = [path for folder in (*ASK_NONE, *ASK) for path in sorted(Path(TOP, folder).glob("test_*.py"))]
    return [path for path in (str(file.relative_to(TOP)) for file in found) if path != LAST]


def left_out(paths: Iterable[str]) -> dict[str, str]:
    """Which of these files a quick run leaves out, each with the reason."""
    marks = {path: NOT_QUICK.search(Path(TOP, path).read_text(encoding="utf-8")) for path in paths}
    return {path: found[1] for path, found in marks.items() if found}


def told_of(left: Mapping[str, str], number: int) -> tuple[str, ...]:
    """Lines that name the files that were left out, of so many."""
    if not left:
        return ()
    named = [(why, [os.path.basename(path) for path in left if left[path] == why])
             for why in sorted({*left.values()})]
    return (f"left to ./test: {len(left)} of {number} files of tests",
            *(f"left to ./test ({why}): {' '.join(sorted(names))}" for why, names in named))


def run_all(processors: int, builds: Builds | None = None, is_quick: bool = False) -> Counts:
    """Runs them all, or those that a quick run has; answers the counts of all tests."""
    with tempfile.TemporaryDirectory() as room, contextlib.ExitStack() as held:
        folder = Path(room)
        (folder / "said").mkdir()
        quick = ["-m", "not not_quick"] if is_quick else []
        wrote = held.enter_context(open(folder / "wrote", "w+", encoding="utf-8", errors="replace"))
        # none of them asks for a program
        beside = max(1, AT_ONCE * processors // 2)
        none = held.enter_context(Session(folder, [*ASK_NONE, *quick], beside, GIVE_WAY, wrote, NO_PROGRAM))
        while builds and builds.left():
            time.sleep(LOOK)
        came: dict[str, Counts] = {}
        took: dict[str, float] = {}
        if not (builds and builds.failed):
            asking = held.enter_context(Session(folder, [*ASK, f"--ignore={LAST}", *quick], AT_ONCE * processors))
            came, took = asking.ended()
        counts, seconds = none.ended()
        wrote.seek(0)
        print(wrote.read(), end="", flush=True)
        came, took = {**came, **counts}, {**took, **seconds}
        paths = files()
        left = left_out(paths) if is_quick else {}
        told = told_of(left, len(paths))
        if builds and builds.failed:
            return sum(came.values(), Counts(failed=1, told=told))
        if not is_quick:
            whole = {os.path.basename(path): took[path] for path, count in came.items()
                     if not count.failed and not count.skipped}
            measured.note(MEASURED, whole, sorted(os.path.basename(path) for path in paths))
        told += once_more(folder, came)
        with Session(folder, [LAST]) as last:
            came.update(last.ended()[0])
        lost = [path for path in (*paths, LAST) if path not in left and came.get(path, Counts()) == Counts()]
        told += (f"no test ran of {' '.join(lost)}",) if lost else ()
    return sum(came.values(), Counts(failed=len(lost), told=told))


def once_more(folder: Path, came: dict[str, Counts]) -> tuple[str, ...]:
    """Runs failed files once more, one by one, and notes what comes of it; answers lines on those that passed."""
    failed = [path for path, counts in came.items() if counts.failed]
    told = []
    for path in failed if len(failed) <= MOST_AGAIN else []:
        if not Path(TOP, path).is_file():
            continue
        print(f"{path} failed, so it is run again, alone:", flush=True)
        variables = NO_PROGRAM if path.startswith(ASK_NONE) else {}
        with Session(folder, [path], variables=variables) as again:
            came[path] = sum(again.ended()[0].values(), Counts())
        if came[path].passed and not came[path].failed:
            told.append(f"failed once, passed when run again: {os.path.basename(path)}")
    return tuple(told)
