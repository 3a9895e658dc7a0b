"""How fast requests are resolved, as a share of the time in which the same process loaded the same registry.

    python3 -m bench.resolve [--rounds 20] [--program PATH]

Prints for each workload and size the best time of a resolve over the rounds, the time of loading, the share, and how
the time grew with the number of publish lines since the smallest size: an exponent of 1 is linear.
"""
import math
from typing import Any

from bench.measuring import Session, parser
from bench.workloads import WORKLOADS


def measured(program: str, make: Any, size: int, rounds: int) -> tuple[int, float, float]:
    """The number of lines, seconds of loading them, and of a resolve."""
    lines, requests = make(size)
    with Session(program) as session:
        return len(lines), session.load(lines), session.best(requests, rounds)


def report(name: str, size: int, row: tuple[int, float, float], first: tuple[int, float, float]) -> None:
    count, load, spent = row
    grown = "" if row == first else "%5.2f" % (math.log(spent / first[2]) / math.log(count / first[0]))
    print(f"{name:10}{size:6}{count:8}{load * 1000:10.1f} ms{spent * 1000:10.3f} ms{spent / load:10.4f}   {grown}",
          flush=True)


def main() -> None:
    chosen = parser(__doc__, rounds=20).parse_args()
    print("workload    size   lines      loading      a resolve     share   growth")
    for name, (make, sizes) in WORKLOADS.items():
        first = None
        for size in sizes:
            row = measured(chosen.program, make, size, chosen.rounds)
            first = first or row
            report(name, size, row, first)


if __name__ == "__main__":
    main()
