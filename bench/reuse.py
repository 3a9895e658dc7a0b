"""What a request gains by what earlier ones led to, and what a full store costs one that gains nothing.

    python3 -m bench.reuse [--rounds 10] [--program PATH] [--sessions 200]

Prints for each workload the conflicts and the time of a request that is asked twice, and of a session of different
requests beside as many sessions of one request; then the time of a request and of publications where 4,096 members
are stored, beside none. Each figure is a share of another one of the same run. A request has as many conflicts as the
least budget under which it is answered: under less it is answered that its budget is spent, and nothing is learnt.
"""
import json
import sys
from collections.abc import Sequence

from bench import workloads
from bench.lines import publish_lines
from bench.measuring import Session, parser
from registry_cli.limits import MOST_STORED as STORE

SPENT = b'"error":22'
MOST_CONFLICTS = 4_294_967_295


def within(request: str, budget: int) -> str:
    return json.dumps({**json.loads(request), "budget": budget}, separators=(",", ":"))


def conflicts(session: Session, request: str) -> int:
    """The least budget that answers a request, which is learnt of then."""
    budget = 0
    while SPENT in session.resolve(within(request, budget))[1]:
        budget += 1
    return budget


def warm(session: Session, request: str, budget: int) -> None:
    """Has most of a request searched a few times, so that neither the first request of a session pays for the pages
    that the program had not touched, nor anything is learnt."""
    for _ in range(3 if budget else 0):
        session.resolve(within(request, budget - 1))


def begun(program: str, lines: Sequence[str]) -> Session:
    session = Session(program)
    session.load(lines)
    return session


# ---- twice the same request

def counted(program: str, lines: Sequence[str], request: str) -> tuple[int, int]:
    """The conflicts of a request, and of the same request after it."""
    with begun(program, lines) as session:
        first = conflicts(session, request)
    with begun(program, lines) as session:
        session.resolve(request)
        return first, conflicts(session, request)


def twice(program: str, lines: Sequence[str], request: str, budget: int, rounds: int) -> tuple[float, float]:
    """The best seconds of a request, and of the same request after it, each time in a session of its own."""
    firsts, seconds = [], []
    for _ in range(rounds):
        with begun(program, lines) as session:
            warm(session, request, budget)
            firsts.append(session.resolve(request)[0])
            seconds.append(session.resolve(request)[0])
    return min(firsts), min(seconds)


# ---- many requests

def together(program: str, lines: Sequence[str], requests: Sequence[str]) -> float:
    with begun(program, lines) as session:
        return sum(session.resolve(request)[0] for request in requests)


def apart(program: str, lines: Sequence[str], requests: Sequence[str]) -> float:
    spent: float = 0
    for request in requests:
        with begun(program, lines) as session:
            spent += session.resolve(request)[0]
    return spent


def report_shared(program: str, rounds: int, sessions: int) -> None:
    print("workload  size  lines   conflicts, second      first     second   share"
          f"   {sessions} in one session, each in one   share")
    for name, (make, size) in workloads.SHARED.items():
        lines, requests = make(size)
        requests = requests[:sessions]
        first, second = counted(program, lines, requests[0])
        one, two = twice(program, lines, requests[0], first, rounds)
        session, single = together(program, lines, requests), apart(program, lines, requests)
        print(f"{name:8}{size:6}{len(lines):7}{first:12}{second:8}"
              f"{one * 1000:9.2f} ms{two * 1000:8.2f} ms{two / one:8.3f}"
              f"{session * 1000:17.1f} ms{single * 1000:13.1f} ms{session / single:8.3f}", flush=True)


# ---- a full store

def filled(program: str, lines: Sequence[str], fill: Sequence[str]) -> Session:
    """A session in which these requests were answered, so that nothing more is stored. Each has a budget: without one,
    a request whose selection is found without a search may teach nothing."""
    session = begun(program, lines)
    for request in fill:
        session.resolve(within(request, MOST_CONFLICTS))
    return session


def is_stored(session: Session, request: str) -> bool:
    """Whether what a request of `dead_ends` or `about_one` leads to is stored: then a second one meets one conflict at
    most, where the first one met one for each of its packages."""
    return SPENT not in session.resolve(within(request, 1))[1]


def beside(program: str, lines: Sequence[str], fill: Sequence[str], request: str, rounds: int) -> tuple[float, float]:
    """The best seconds of a request where nothing is stored, and where the store is full."""
    with begun(program, lines) as session:
        budget = conflicts(session, request)
    empty = []
    for _ in range(rounds):
        with begun(program, lines) as session:
            warm(session, request, budget)
            empty.append(session.resolve(request)[0])
    with filled(program, lines, fill) as session:
        # the last of what is offered may find the store full
        if not is_stored(session, fill[-2]):
            sys.exit("what fills the store was not learnt")
        # the store is full, so nothing is learnt of it however often it is asked
        full = [session.resolve(request)[0] for _ in range(rounds)]
        if budget and SPENT not in session.resolve(within(request, 0))[1]:
            sys.exit("the request gained by what is stored")
    return min(empty), min(full)


def report(what: str, empty: float, full: float) -> None:
    print(f"{what:58}{empty * 1000:9.3f} ms{full * 1000:9.3f} ms{full / empty:8.3f}", flush=True)


def report_full(program: str, rounds: int) -> None:
    print(f"\nwhere {STORE} are stored, beside none{'':29}none         full   share")
    dead, fill = workloads.dead_ends(STORE)
    for name, size in (("tower", 7), ("tower", 16), ("chain", 30), ("worn", 300)):
        lines, requests = getattr(workloads, name)(size)
        report(f"{name} {size}, of which no member says anything",
               *beside(program, dead + lines, fill, requests[0], rounds))
    lines, fill_one = workloads.about_one(STORE)
    report("a search with hub, which each member names", *beside(program, lines, fill_one, workloads.crossed(), rounds))
    report_ingest(program, rounds, dead, fill)


def loaded(session: Session, lines: Sequence[str]) -> float:
    with session:
        return session.load(lines)


def report_ingest(program: str, rounds: int, dead: Sequence[str], fill: Sequence[str]) -> None:
    others = publish_lines(20_000)
    # versions that meet no premise, of packages that members rest on
    beyond = [line.replace('"1.0.0"', '"2.0.0"') for line in dead if '"1.0.0"' in line]
    for what, lines in (("20,000 publications of other packages", others),
                        (f"{len(beyond)} of packages that members rest on", beyond)):
        empty = [loaded(begun(program, dead), lines) for _ in range(rounds)]
        full = [loaded(filled(program, dead, fill), lines) for _ in range(rounds)]
        report(what, min(empty), min(full))


def main() -> None:
    chosen = parser(__doc__, rounds=10, sessions=200).parse_args()
    report_shared(chosen.program, chosen.rounds, chosen.sessions)
    report_full(chosen.program, chosen.rounds)


if __name__ == "__main__":
    main()
