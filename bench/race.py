"""How long files take that race for one journal, as a ratio to as many sessions, one after another, each on the lines
of all files.

    python3 -m bench.race [--files 8] [--lines 6000] [--rounds 5] [--program PATH]

Every seat of a race replays what all files enter, which is the work of one session on all their lines. Prints the best
time of each over the rounds, the ratio, and how many processors there are: a ratio of 1 or less is what the race is
held to.
"""
import os
import subprocess
import sys
import tempfile
import time

from bench.lines import publish_lines
from bench.measuring import parser, session, write


def dealt(lines: list[str], count: int) -> list[list[str]]:
    """The lines dealt out to so many files, each in its order."""
    return [lines[number::count] for number in range(count)]


def race(program: str, paths: list[str]) -> tuple[float, bytes]:
    """Seconds that a race of these files takes, and what it prints."""
    with tempfile.TemporaryFile() as printed:
        start = time.perf_counter()
        subprocess.run([program, "race", *paths], stdout=printed, check=True)
        spent = time.perf_counter() - start
        printed.seek(0)
        return spent, printed.read()


def main() -> None:
    chosen = parser(__doc__, files=8, lines=6000, rounds=5).parse_args()
    lines = publish_lines(chosen.files * chosen.lines)
    with tempfile.TemporaryDirectory() as folder:
        whole, paths = os.path.join(folder, "all"), [os.path.join(folder, str(it)) for it in range(chosen.files)]
        write(whole, lines)
        for path, own in zip(paths, dealt(lines, chosen.files)):
            write(path, own)
        races, sessions = [], []
        for _ in range(chosen.rounds):
            spent, printed = race(chosen.program, paths)
            races.append(spent)
            sessions.append(sum(session(chosen.program, whole).seconds for _ in range(chosen.files)))
        accepted = printed.count(b'"ok":true')
    if accepted != len(lines):
        sys.exit(f"{accepted} of {len(lines)} publications were accepted")
    print(f"{chosen.files} files of {chosen.lines} publications, {os.cpu_count()} processors")
    print(f"race         {min(races) * 1000:7.1f} ms")
    print(f"{chosen.files} sessions   {min(sessions) * 1000:7.1f} ms")
    print(f"ratio        {min(races) / min(sessions):7.2f}")


if __name__ == "__main__":
    main()
