"""Runs the kit's gate, `rt ci`, and says how far it is.

The gate keeps what it has proved, on this machine, by the sums of all files that the proof read. So what it proves for
one program, over a copy of that program's crates, serves the gate of the whole repository too, and the other way
round."""
import os
import re
import shutil
import subprocess
import sys
from collections import deque
from collections.abc import Callable, Collection
from pathlib import Path

from dev.building.progress import TOP, Progress, crates_below, jobs

# What the gate says of a crate.
CRATE = re.compile(r"rt: (\w+) (proved$|is kept: |NOT PROVED)")
PROVED, NOT_PROVED = "proved", "NOT PROVED"
# How many lines of what it said of a crate that is not proved are shown.
MOST_LINES = 40


def copy_crates(names: Collection[str], to: Path) -> None:
    """Copies crates, without what was built of them, as a repository of their own."""
    for name in names:
        shutil.copytree(Path(TOP, "crates", name), to / "crates" / name, ignore=shutil.ignore_patterns("out"))
    rows = Path(TOP, "crates.txt").read_text("utf-8").splitlines(keepends=True)
    own = [row for row in rows if row.partition(":")[0].split()[:1] in [[name] for name in names]]
    (to / "crates.txt").write_text("".join(own), encoding="utf-8")
    shutil.copy(Path(TOP, "HANDLES"), to)
    # the kit takes a folder with this for the top of a repository
    (to / ".git").mkdir()


def run(folder: str | Path, progress: Progress, hear: Callable[[str], object],
        notice: Callable[[str, str], object] = lambda crate, state: None) -> tuple[int, int]:
    """Runs the gate in a folder. `hear` gets each line that it says, and `notice` each crate with how it stands.
    Answers what passed and failed.

    Without `RT_JOBS` the gate books memory by a careful estimate, which leaves processors idle on a machine with less
    than 32 GB. A proof would get no second processor either, on fewer than six: the gate shares them with the tests and
    edits that each crate might have. So it is set here, unless the caller has set it."""
    line = ""
    with subprocess.Popen(["rt", "ci"], cwd=folder, env={"RT_JOBS": str(jobs()), **os.environ}, text=True,
                          errors="replace", stdin=subprocess.DEVNULL, stdout=subprocess.PIPE,
                          stderr=subprocess.STDOUT) as running:
        assert running.stdout
        try:
            for line in running.stdout:
                progress.clear()
                hear(line)
                if found := CRATE.match(line):
                    if found[2] != NOT_PROVED:
                        progress.finish(found[1], is_kept=found[2] != PROVED)
                    notice(found[1], found[2])
        except BaseException:
            running.terminate()  # what it has begun ends with it
            raise
        finally:
            progress.end()
    counted = re.fullmatch(r"(\d+) passed, (\d+) failed", line.strip())
    if not counted:
        return 0, 1
    return int(counted[1]), int(counted[2]) or int(running.returncode != 0)


def prove(name: str, folder: Path) -> Path | None:
    """Proves a program over a copy of its crates in a folder; answers where it stands, if all is proved."""
    copy_crates(crates_below(name), folder)
    lines: deque[str] = deque(maxlen=MOST_LINES)
    wrong: list[str] = []

    def notice(_: str, state: str) -> None:
        if state == NOT_PROVED and not wrong:
            wrong.extend(lines)

    progress = Progress(name, crates_below(name), jobs())
    progress.say()
    _, failed = run(folder, progress, lines.append, notice)
    if failed:
        sys.stderr.writelines(wrong or lines)
    return None if failed else folder / "crates" / name / "out" / name
