"""What the costliest lines cost, beside the lines that they ask about.

    python3 -m bench.hostile [--rounds 3] [--program PATH] [NAME ..]

Prints for each workload the lines with the time in which the process loaded them, the bytes that are asked then and
that are answered, the best time of that in so many processes, and two ratios of this time: to that of loading, and to
the time in which publish lines of a usual kind are loaded that have as many bytes as the lines and what is asked have
together. Times are those of a processor, so that what else runs beside changes little.
"""
from __future__ import annotations

import subprocess
from collections.abc import Sequence
from typing import Any, cast

from bench.hostile_lines import HOSTILE
from bench.lines import publish_lines
from bench.measuring import Session, parser

USUAL = 20_000  # lines


def spent_by(process: subprocess.Popen[bytes]) -> float:
    """Seconds of a processor that a process of one thread has spent so far."""
    with open(f"/proc/{process.pid}/schedstat", encoding="ascii") as told:
        return int(told.read().split()[0]) / 1e9


def asked_of(session: Session, lines: Sequence[str]) -> tuple[float, list[bytes]]:
    """Seconds of a processor until these lines are answered, and the replies."""
    before = spent_by(session.process)
    _, replies = session.ask(lines)
    return spent_by(session.process) - before, replies


def size(lines: list[str]) -> int:
    return sum(len(line) + 1 for line in lines)


def usual(program: str, rounds: int) -> float:
    """Seconds in which a byte of usual lines is loaded."""
    lines, times = publish_lines(USUAL), []
    for _ in range(rounds):
        with Session(program) as session:
            times.append(asked_of(session, lines)[0])
    return min(times) / size(lines)


def measured(program: str, lines: list[str], asked: list[str]) -> tuple[float, float, int]:
    """Seconds of loading the lines, those until what is asked is answered, and the bytes of the answers."""
    with Session(program) as session:
        loading, _ = asked_of(session, lines)
        spent, replies = asked_of(session, asked)
        return loading, spent, sum(map(len, replies))


def main() -> int:
    options = parser(__doc__, rounds=3)
    options.add_argument("names", nargs="*", choices=[[], *HOSTILE])
    chosen = options.parse_args()
    a_byte = usual(chosen.program, chosen.rounds)
    print("workload            lines       bytes      loading     asked  answered      replies    to loading  to bytes")
    for name in chosen.names or HOSTILE:
        lines, requests = cast(Any, HOSTILE[name])()
        times = [measured(chosen.program, lines, requests) for _ in range(chosen.rounds)]
        loading, spent, answered = (min(column) for column in zip(*times))
        both = size(lines) + size(requests)
        print(f"{name:16}{len(lines):9}{size(lines):12}{loading * 1000:10.1f} ms{size(requests):10}{answered:10}"
              f"{spent * 1000:10.1f} ms{spent / loading:14.2f}{spent / (both * a_byte):10.2f}", flush=True)
    return 0


if __name__ == "__main__":
    main()
