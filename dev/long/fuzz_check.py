"""Asks `registry check` and the program of the same damaged lines: both name the same error.

    python3 -m dev.long.fuzz_check --sessions 100 --lines 1000      seeds are counted from --seed

Lines are damaged in their bytes, tokens and members, and as people mistype them. Compared are the refusals of a line
for what it says, 1 to 6 and 19. Where the check tells what was probably meant, that is put in its place, and both are
asked again. Status 1 where they differ anywhere; each such line is told with its seed."""
import functools
import json
import random
import sys
from collections import Counter
from collections.abc import Sequence

from dev.long import fuzz
from dev.runs import Run
from registryd_lines.judging import faults
from tests.support.slipped_lines import Slips

COMPARED = (1, 2, 3, 4, 5, 6, 19)
MOST_TRIES = 8  # edits of one line, one after the other


def answered(lines: Sequence[bytes]) -> list[int]:
    """The number by which the program refuses each line for what it says, 0 where it does not."""
    numbers = [json.loads(reply).get("error", 0) for reply in fuzz.run(lines)]
    return [number if number in COMPARED else 0 for number in numbers]


def told(line: bytes) -> int:
    found = faults(line)
    return found[0].number if found else 0


def edited(line: bytes) -> bytes | None:
    """A line with what was probably meant in the place of its first fault that says so; none where none does."""
    text = line.decode(errors="surrogateescape")
    for fault in faults(line):
        if fault.edit:
            start, end, new = fault.edit
            return (text[:start] + new + text[end:]).encode(errors="surrogateescape")
    return None


def made(seed: int, count: int) -> list[bytes]:
    """The lines of one session: damaged ones of all kinds, derivations that were told, and what they may have meant."""
    maker = Slips(random.Random(seed))
    _, lines = fuzz.first_lines(maker, count // 2)
    lines += fuzz.told_again(maker, lines, fuzz.run(lines))
    lines += [maker.slipped() for _ in range(count // 2)]
    last = lines
    for _ in range(MOST_TRIES):
        last = [line for line in map(edited, last) if line is not None]
        lines = lines + last
    return lines


def tried(seed: int, count: int) -> tuple[Counter[int], list[str]]:
    """How often each number was answered in one session, and the lines of which another one is told."""
    lines = made(seed, count)
    wanted = answered(lines)
    finds = [f"seed {seed}: {line[:2000]!r}: told {told(line)}, answered {number}"
             for line, number in zip(lines, wanted) if told(line) != number]
    return Counter(wanted), finds


def main(words: Sequence[str]) -> int:
    run, counts = Run(__doc__, words, sessions=20, lines=1000), Counter[int]()
    for count, in run.each(functools.partial(tried, count=run.chosen.lines)):
        counts += count
    return run.end(f"{counts.total():,} lines", f", answered {dict(sorted(counts.items()))}")


if __name__ == "__main__":
    sys.exit(main(sys.argv[1:]))
