"""Interrupts calls of the Python client at random moments, uses their sessions on, and looks for replies that are
another request's.

    PYTHONPATH=clients/python python3 -m dev.long.interrupt_sessions --sessions 10000
        so many sessions, in groups each of which has a seed of its own, counted from --seed
    PYTHONPATH=clients/python python3 -m dev.long.interrupt_sessions --seed 17 --sessions 20
        one group again, if not interrupted at the same moments

A group's sessions are with a program, in process, or with a service, over one journal. Threads make calls: requests, of
each of which one reply is right, publications that are new, and some that are refused. Meanwhile exceptions come to
each of them, raised by a signal's handler or sent by another thread. Then a few calls are left alone, and the session
is closed, which may be interrupted too. Each reply is the one to what was asked; no revision falls or is told twice;
each publication that was told as accepted stands in the journal at its revision; nothing waits for ever; a session that
ended says that a call was interrupted. Status 1 where anything is found; each find is told with its seed."""
import contextlib
import ctypes
import functools
import itertools
import os
import random
import signal
import sys
import threading
import time
from collections.abc import Callable, Iterator, Mapping, Sequence
from pathlib import Path
from typing import Any
from unittest import mock

from dev.runs import Find, Run, demand, seed_tried
from registryd import Accepted, AlreadyPublished, Ended, NoSelection, Publish, Refusal, Registry, Resolve, Selection
from registryd.child import BROKEN_OFF
from tests.support import program
from tests.support.library import LIBRARY
from tests.support.plain_remnant import remnant
from tests.support.services import Service

SESSIONS = 20  # of a group
LIMIT = 100  # seconds in which all is answered, on a busy machine too
# what is published before the first interrupt
KNOWN = [Publish(f"known-{number}", f"1.{number}.0") for number in range(8)]
MISSING = Resolve({"missing": "*"})
LONG = 40  # lines that are sent together, now and then: more than a pipe takes at once
HURRY = 0.002  # seconds between two interrupts at most, usually


class Broken(BaseException):
    """What interrupts a call, besides exceptions that others raise too."""


INTERRUPTS = (Broken, KeyboardInterrupt, MemoryError, TimeoutError, IndexError)


# ---- What is asked, and what is right

Asked = Publish | Resolve


def new(of_whom: int, number: int) -> Publish:
    """A version that is asked for once."""
    return Publish("new", f"{of_whom}.{number}.0")


def any_of(rng: random.Random, new: Publish) -> Asked:
    """What is asked, which may be to publish the version that is new."""
    requests: list[Asked] = [new, rng.choice(KNOWN), MISSING]
    return rng.choice(requests + [Resolve({known.name: "*"}) for known in rng.sample(KNOWN, 3)])


def fault_of(request: Asked, reply: object) -> str:
    """What is wrong with a reply, as far as it tells by itself."""
    if request == MISSING:
        is_right = isinstance(reply, NoSelection)
    elif isinstance(request, Resolve):
        known = next(known for known in KNOWN if known.name in dict(request.needs))
        is_right = isinstance(reply, Selection) and reply.selected == {known.name: known.version}
    else:
        is_right = isinstance(reply, AlreadyPublished if request in KNOWN else Accepted)
    return "" if is_right else f"{request} is answered {reply!r}"


def is_ended(reply: object) -> bool:
    """Whether a session has ended, which it does for one reason alone."""
    if not isinstance(reply, Ended):
        return False
    demand(BROKEN_OFF in str(reply), f"the session ended otherwise: {reply}")
    return True


# ---- Who asks

class Caller:
    """Asks until it is to stop, or the session has ended, and notes each reply. An exception may come at any moment."""

    def __init__(self, registry: Registry, rng: random.Random, of_whom: int) -> None:
        self.registry, self.rng, self.is_single = registry, rng, rng.random() < 0.7
        self.new = map(functools.partial(new, of_whom), itertools.count())
        self.told: list[list[tuple[Asked, Any]]] = []
        self.interrupts, self.may_be_interrupted = 0, False

    def ask(self) -> None:
        """Asks for one thing or for several together, and notes the replies in one step: none if it is interrupted."""
        asked = [any_of(self.rng, next(self.new)) for _ in range(self.rng.choice([1, 1, 1, 1, 2, 3, LONG]))]
        if self.is_single and len(asked) == 1:
            calls: list[Callable[[], object]] = [functools.partial(self.registry._session.call, asked[0])]
        else:
            calls = [future.result for future in self.registry.many(asked)]
        self.told.append([(request, outcome(call)) for request, call in zip(asked, calls)])

    def ask_on(self, count: int) -> bool:
        """Asks so often; answers whether the session stands."""
        for _ in range(count):
            self.ask()
            if any(is_ended(reply) for _, reply in self.told[-1]):
                return False
        return True

    def run(self, rounds: int) -> None:
        """Asks for so many rounds, each of which an interrupt ends."""
        stands = True
        while stands and rounds:
            rounds -= 1
            try:
                self.may_be_interrupted = True
                stands = self.ask_on(50)
                self.may_be_interrupted = False
            # the last one Python's Condition raises where its `wait` is interrupted at some moments
            except (*INTERRUPTS, RuntimeError):
                self.interrupts += 1
            except Ended as ended:
                self.may_be_interrupted = False
                stands = not is_ended(ended)


def outcome(ask: Callable[[], object]) -> object:
    try:
        return ask()
    except (Refusal, Ended) as told:
        return told


def judged(told: Sequence[Sequence[tuple[Asked, Any]]]) -> dict[int, Asked]:
    """The publications that a caller was told as accepted, by their revisions, which do not fall."""
    accepted: dict[int, Asked] = {}
    last = 0
    for request, reply in itertools.chain.from_iterable(told):
        if is_ended(reply):
            continue
        fault = fault_of(request, reply)
        demand(not fault, fault)
        rises = f"the revision falls: {request} is answered {reply!r} after revision {last}"
        demand(reply.revision >= last, rises)
        last = reply.revision
        if isinstance(reply, Accepted):
            demand(last not in accepted, f"revision {last} is told twice")
            accepted[last] = request
    return accepted


# ---- Who interrupts

@contextlib.contextmanager
def alarms(rng: random.Random, caller: Caller) -> Iterator[None]:
    """Meanwhile a signal's handler raises exceptions in the caller, the main thread, while it may be interrupted."""
    limit = time.monotonic() + LIMIT

    def handler(*_: object) -> None:
        demand(time.monotonic() < limit, "a call waits for ever")
        signal.setitimer(signal.ITIMER_REAL, rng.random() * rng.choice([HURRY / 10, HURRY, HURRY * 5]) + 1e-6)
        if caller.may_be_interrupted:
            caller.may_be_interrupted = False
            raise rng.choice(INTERRUPTS)
    before = signal.signal(signal.SIGALRM, handler)
    limits = signal.setitimer(signal.ITIMER_REAL, rng.random() * HURRY + 1e-6)
    try:
        yield
    finally:
        caller.may_be_interrupted = False
        signal.signal(signal.SIGALRM, signal.SIG_IGN)  # the handler would set the timer again
        signal.setitimer(signal.ITIMER_REAL, *limits)
        signal.signal(signal.SIGALRM, before)


def send_exceptions(rng: random.Random, callers: Sequence[Caller], threads: Sequence[threading.Thread]) -> None:
    limit = time.monotonic() + LIMIT
    while any(thread.is_alive() for thread in threads):
        demand(time.monotonic() < limit, f"a thread waits for ever: {[caller.told[-1:] for caller in callers]}")
        time.sleep(rng.random() * HURRY)
        number = rng.randrange(len(threads))
        if callers[number].may_be_interrupted:
            callers[number].may_be_interrupted = False
            thread, fault = ctypes.c_ulong(threads[number].ident or 0), ctypes.py_object(rng.choice(INTERRUPTS))
            ctypes.pythonapi.PyThreadState_SetAsyncExc(thread, fault)


# ---- A session, and a group of them

def interrupted(registry: Registry, rng: random.Random, session: int) -> list[Caller]:
    """One session; answers its callers, which have replies to be judged."""
    callers = [Caller(registry, rng, 10 * session + number) for number in range(rng.choice([1, 1, 3]))]
    threads = [threading.Thread(target=caller.run, args=[5], daemon=True) for caller in callers[1:]]
    # an exception may come to a thread that has no more to ask, or where Python can only tell of it
    with mock.patch.object(threading, "excepthook"), mock.patch.object(sys, "unraisablehook"):
        for thread in threads:
            thread.start()
        with alarms(rng, callers[0]):
            callers[0].run(rng.randrange(1, 6))
        send_exceptions(rng, callers[1:], threads)
    with program.in_time(LIMIT):
        with contextlib.suppress(Ended):
            callers[0].ask_on(10)
        close(registry, rng)
    return callers


def close(registry: Registry, rng: random.Random) -> None:
    """Closes a session, also where that is interrupted first."""
    def handler(*_: object) -> None:
        raise Broken
    before = signal.signal(signal.SIGUSR1, handler)
    own = [threading.get_ident(), signal.SIGUSR1]
    timer = threading.Timer(rng.random() * 0.003, signal.pthread_kill, own)
    try:
        with contextlib.suppress(Broken):
            timer.start()
            with contextlib.suppress(Ended):
                registry.close()
            timer.join()
    finally:
        timer.join()
        signal.signal(signal.SIGUSR1, before)
    try:
        registry.close()
    except Ended as ended:
        is_ended(ended)


def opened(kind: str, path: str, rng: random.Random) -> Registry:
    if kind == "service":
        return Registry(connect=path)
    if kind == "embedded":
        return Registry(embedded=True, library=LIBRARY, journal=path)
    return Registry(program.PROGRAM, workers=rng.choice([1, 2]), journal=path)


def sessions(kind: str, path: str, rng: random.Random, most: int) -> tuple[int, int, dict[int, Asked]]:
    """Sessions over one journal; answers how many calls were interrupted and replies came, and what was accepted."""
    interrupts = replies = 0
    accepted: dict[int, Asked] = {}
    for number in range(most):
        registry = opened(kind, path, rng)
        if number == 0:
            accepted = {registry.publish(known.name, known.version): known for known in KNOWN}
        for caller in interrupted(registry, rng, number):
            more = judged(caller.told)
            demand(not accepted.keys() & more.keys(), f"revisions are told twice: {accepted.keys() & more.keys()}")
            accepted |= more
            interrupts, replies = interrupts + caller.interrupts, replies + sum(map(len, caller.told))
    return interrupts, replies, accepted


def demand_kept(accepted: Mapping[int, Asked], commands: Sequence[bytes]) -> None:
    for revision, request in accepted.items():
        wanted = program.journal_line(request.line()).encode()
        found = commands[revision - 1:revision]
        where = f"at revision {revision}, where the journal has {found}"
        demand(found == [wanted], f"{request} was accepted {where}")


def group(seed: int, most: int, folder: str) -> tuple[int, int]:
    """The sessions of a seed; answers how many calls were interrupted, and how many replies came."""
    rng = random.Random(f"interrupt {seed}")
    kinds = ["child", "service", *(["embedded"] if LIBRARY else [])]
    kind = kinds[seed % len(kinds)]
    if kind == "service":
        service = Service(folder)
        try:
            interrupts, replies, accepted = sessions(kind, service.socket, rng, most)
        finally:
            service.end()
        demand_kept(accepted, service.commands())
    else:
        path = os.path.join(folder, "kept.journal")
        interrupts, replies, accepted = sessions(kind, path, rng, most)
        demand_kept(accepted, remnant(Path(path).read_bytes()).commands)
    return interrupts, replies


def tried(seed: int, most: int = SESSIONS) -> tuple[Any, ...]:
    return seed_tried(seed, lambda folder: [most, *group(seed, most, folder)], [most, 0, 0], (Find, AssertionError))


def main(words: Sequence[str]) -> int:
    run = Run(__doc__, words, sessions=60)
    most, groups = min(SESSIONS, run.count), -(-run.count // SESSIONS)
    count, interrupts, replies = run.totals(functools.partial(tried, most=most), groups)
    return run.end(f"{count:,} sessions, {interrupts:,} calls interrupted, {replies:,} replies judged,")


if __name__ == "__main__":
    sys.exit(main(sys.argv[1:]))
