"""How many requests are answered a second by so many workers.

    python3 -m bench.workers [--packages 300] [--requests 256] [--rounds 10] [--program PATH]

Sends different requests of the workload `lockfile` at once, so that they are answered together, and prints for each
number of workers the best time over the rounds until the last reply, the requests answered a second, and these as a
ratio to one worker. Then it asks one request at a time and waits for each reply: with 64 workers that is to take no
longer than with one.
"""
from __future__ import annotations

import os
import sys

from bench.measuring import Session, parser
from bench.workloads import lockfile

WORKERS = [1, 2, 4, 8, 64]


def together(program: str, workers: int, lines: list[str], requests: list[str],
             rounds: int) -> tuple[float, list[bytes]]:
    """The least seconds in which all requests are answered that were sent at once, and the replies."""
    with Session(program, workers) as session:
        session.load(lines)
        rows = [session.ask(requests) for _ in range(rounds)]
    if any(replies != rows[0][1] for _, replies in rows):
        sys.exit("the same requests were answered in two ways")
    return min(spent for spent, _ in rows), rows[0][1]


def alone(program: str, workers: int, lines: list[str], requests: list[str], rounds: int) -> float:
    """The mean seconds until a request that is asked alone is answered."""
    with Session(program, workers) as session:
        session.load(lines)
        return session.best(requests, rounds)


def by_workers(program: str, lines: list[str], requests: list[str], rounds: int) -> dict[int, float]:
    """For each number of workers the requests that are answered a second. All have the same replies."""
    rates, first = {}, None
    for workers in WORKERS:
        spent, replies = together(program, workers, lines, requests, rounds)
        first = first or replies
        if replies != first:
            sys.exit(f"{workers} workers answered otherwise than {WORKERS[0]}")
        rates[workers] = len(requests) / spent
    return rates


def main() -> None:
    chosen = parser(__doc__, packages=300, requests=256, rounds=10).parse_args()
    lines, requests = lockfile(chosen.packages, count=chosen.requests)
    print(f"{len(requests)} requests, {len(lines)} publications, {os.cpu_count()} processors")
    rates = by_workers(chosen.program, lines, requests, chosen.rounds)
    print("workers      time of all    requests a second    ratio to one worker")
    for workers, rate in rates.items():
        print(f"{workers:7}{len(requests) / rate * 1000:14.1f} ms{rate:21.0f}{rate / rates[1]:23.2f}")
    one, most = (alone(chosen.program, workers, lines, requests, chosen.rounds) for workers in (1, WORKERS[-1]))
    print(f"one request at a time: {one * 1000:.3f} ms by 1 worker, {most * 1000:.3f} ms by {WORKERS[-1]}, "
          f"ratio {most / one:.2f}")


if __name__ == "__main__":
    main()
