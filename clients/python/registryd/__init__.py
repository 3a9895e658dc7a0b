"""A client of registryd: it asks a registry by lines, and answers with values.

    with Registry("./registryd", journal="python.journal") as registry:
        registry.publish("log", "1.3.0")
        registry.publish("app", "1.0.0", {"log": "^1.2"})
        print(registry.resolve({"app": "^1"}).selected)

`Registry("./registryd")` starts the program as a child. `Registry(embedded=True)` has the same calls over the library
`libregistryd.so` in this process: no process is started, and a small request takes half the time.
`Registry(connect=..)` has them over the socket of a service, which `registry serve` is. `seats(count)` are sessions in
this process that share one journal, one for each thread: their calls run at once.

A call waits for its reply. `ask` and `many` answer futures. To a child they send lines without waiting, so any number
of lines can be on their way, and resolve lines that come to the program together are shared out among its workers. In
this process the lines are answered one after another before the futures are returned. Replies come in the order of the
lines.

A line that is refused by number raises the exception of its name, which is a `Refusal` and has its `culprit`: which
text of the request, and what was probably meant. That no selection meets a request is no exception: `resolve` answers
`NoSelection`, which is false where a `Selection` is true. A value that is none of its type is a TypeError or
ValueError, before a line is sent; names, versions and requirements are judged by the registry alone. Where the session
has ended, every call that waits and every later one raises `Ended`, which says how it ended; none waits for ever.

A call may be interrupted, as by Ctrl-C or by what a signal's handler raises. No later call gets its reply: that is
dropped as it comes, or the session ends and says why.

Any thread may call. It takes Python 3.10 and the standard library.
"""
from __future__ import annotations

import contextlib
import os
from collections.abc import Iterable, Sequence
from concurrent.futures import Future
from typing import Any, TypeVar

from .child import Child
from .embedded import Embedded, Seated, open_seats, open_session
from .replies import (
    REFUSALS, Accepted, AlreadyPublished, AlreadyYanked, BadLine, BadName, BadRequirement, BadVersion, BudgetSpent,
    Ended, JournalFull, Known, Listing, NoMemory, NoSelection, NoSuchVersion, NotADerivation, NothingSelected,
    NotYanked, Refusal, RegistryError, RepeatedDependency, Reply, Selection, SelfDependency, Stale, StoreFull, Stray,
    TooLong, TooManyDependencies, TooManyPackages, TooManyVersions, Verdict, to,
)
from .requests import (
    Check, Derivation, FilePath, Line, List, Pairs, Publish, Request, Resolve, Unyank, Yank, number_of, written,
)
from .waiting import Awaited

__version__ = "0.3.0"
__all__ = [
    "Registry", "Seat", "seats", "Publish", "Yank", "Unyank", "Resolve", "Check", "List", "Line", "Request", "Pairs",
    "Derivation", "FilePath", "Accepted", "Selection", "NoSelection", "Verdict", "Listing", "Reply", "RegistryError",
    "Ended", "NothingSelected", "Refusal", "BadName", "BadVersion", "BadRequirement", "RepeatedDependency",
    "SelfDependency", "TooManyDependencies", "AlreadyPublished", "TooManyVersions", "TooManyPackages", "JournalFull",
    "NoSuchVersion", "AlreadyYanked", "NotYanked", "Stale", "Known", "StoreFull", "Stray", "NoMemory", "BadLine",
    "TooLong", "NotADerivation", "BudgetSpent", "REFUSALS"]

Session = TypeVar("Session", bound="Registry")
INTERRUPTED = 2.0  # seconds that a program has to end where a `with` is left by an interrupt from the keyboard


class Registry:
    """A session, with a program of its own or, where it is `embedded`, in this process.

    `program` is the program's path, or the words that start it; `workers` is how many threads resolve requests there,
    and `budget` that of each request that names none: how many conflicts its search may meet. `library` is the path of
    libregistryd.so for a session in this process, which else is the one that the variable REGISTRYD_LIBRARY names, the
    one that is installed with this package, or the one that the system finds. What can't be started or loaded is an
    OSError. A session in this process has no workers and no budget of its own, and no signal breaks off a search there:
    give each request a `budget`.

    `connect` is the address of a service, the path of its socket or HOST:PORT. Where the connection breaks off, it is
    made again, and what has no reply is asked again, a command unless it was carried out. The `close` of such a session
    ends it alone.

    `journal` is the file that the session goes on with, made where it is not there: it has each accepted command before
    the call that made it returns, whatever becomes of this process or the program. Else the session begins with the
    journal that is loaded, if one is, and where one is to be saved writes it as it is closed."""

    def __init__(self, program: FilePath | Sequence[str] = "registryd", *, workers: int = 1, budget: int | None = None,
                 journal: FilePath | None = None, load: FilePath | None = None, save: FilePath | None = None,
                 embedded: bool = False, library: FilePath | None = None, connect: FilePath | None = None) -> None:
        if journal is not None and (load is not None or save is not None):
            raise ValueError("a session that goes on with a journal loads and saves none")
        number_of(workers, "workers", 1, 64)
        if budget is not None:
            number_of(budget, "budget")
        if budget is not None and (embedded or connect is not None):
            raise ValueError("a program of its own alone takes a budget of all requests")
        if connect is not None:
            from .service import Connection
            if journal or load or save or embedded:
                raise ValueError("a service has a journal of its own")
            self._session: Child | Embedded | Connection = Connection(os.fspath(connect))
            return
        if embedded:
            if workers != 1:
                raise ValueError("a session in this process has no workers")
            self._session = open_session(library, journal, load, save)
            return
        words = [os.fspath(program)] if isinstance(program, (str, os.PathLike)) else list(program)
        words += ["serve", "--workers", str(workers)] + ([] if budget is None else ["--budget", str(budget)])
        for option, path in (("--journal", journal), ("--load", load), ("--save", save)):
            words += [] if path is None else [option, os.fspath(path)]
        self._session = Child(words)
        try:
            self._session.call(Resolve(()))  # so a journal that can't be gone on with is told here
        except BaseException:
            self._session.kill()
            raise

    def publish(self, name: str, version: str, needs: Pairs = ()) -> int:
        """Publishes a version; answers the revision."""
        return int(self._call(Publish(name, version, needs)).revision)

    def yank(self, name: str, version: str) -> int:
        return int(self._call(Yank(name, version)).revision)

    def unyank(self, name: str, version: str) -> int:
        return int(self._call(Unyank(name, version)).revision)

    def resolve(self, needs: Pairs, lock: Pairs = (), *, budget: int | None = None,
                explain: bool = False) -> Selection | NoSelection:
        """Versions that fit together. The budget is how many conflicts the search may meet: beyond it `BudgetSpent` is
        raised."""
        resolved: Selection | NoSelection = self._call(Resolve(needs, lock, budget, explain))
        return resolved

    def check(self, needs: Pairs, derivation: Derivation, lock: Pairs = ()) -> bool:
        """Whether the derivation of a refusal follows."""
        verdict: Verdict = self._call(Check(needs, derivation, lock))
        return verdict.follows

    def _call(self, request: Request) -> Any:  # the reply of that request's kind
        try:
            return to(request, self._session.call(request))
        except Refusal as refusal:
            refusal.request = request
            raise

    def list(self) -> Listing:
        listing: Listing = self._call(List())
        return listing

    def ask(self, request: Request) -> Future[Reply]:
        """Sends a line. Its future has the reply, or raises what the call would."""
        return self.many([request])[0]

    def many(self, requests: Iterable[Request]) -> Sequence[Future[Reply]]:
        """Sends lines together: all of them, or none where one can't be written."""
        asked = list(requests)
        lines = [written(request) for request in asked]
        futures = [Awaited(request) for request in asked]
        for future in futures:
            future.set_running_or_notify_cancel()  # a line that was sent can't be taken back
        self._session.send(lines, tuple(futures))
        return futures

    def close(self, seconds: float | None = None) -> None:
        """Waits for all replies, and then for the journal to be whole. Raises `Ended` where the session failed. Once is
        enough.

        It takes no more than so many seconds, where they are given. A program that has not ended by then is killed, and
        `Ended` is raised. A search in this process can't be ended: where one still runs in another thread, TimeoutError
        is raised, and `close` may be called again."""
        self._session.close(seconds)

    def kill(self) -> None:
        """Ends the session at once, a search in this process aside: what waits is told, and nothing is saved. A journal
        has all that was told as accepted."""
        self._session.kill()

    def __enter__(self: Session) -> Session:
        return self

    def __exit__(self, kind: type[BaseException] | None, *_: object) -> None:
        if kind is not KeyboardInterrupt:
            self.close()
            return
        # who interrupts doesn't wait for a long search, and is not told otherwise
        with contextlib.suppress(Ended, TimeoutError):
            self.close(INTERRUPTED)


class Seat(Registry):
    """A session in this process that shares its journal with other seats, which are opened together by `seats`. Calls
    of different seats run at once, and wait for nothing of each other but a sync of the file, so each thread has a seat
    of its own. A seat reads all that the others have entered before it answers: what a call accepted is there for each
    call that begins once that one has returned."""
    _session: Seated

    def __init__(self, session: Seated, number: int) -> None:
        self._session = session
        self.number = number  # from 1, as replies and journals of races have it

    @property
    def place(self) -> int:
        """How many entries of the journal the seat had read when it answered last, and 0 before. A command that was
        accepted counts, as the last."""
        return self._session.place()

    def journal(self) -> bytes:
        """The journal with all that the seat has seen, as a file has it. Once no call of another seat is under way,
        that is the whole journal. What is kept in a file may be behind it."""
        return self._session.journal()


def seats(count: int, *, keep: FilePath | None = None, load: FilePath | None = None, entries: int = 65_536,
          library: FilePath | None = None) -> list[Seat]:
    """Opens 1 to 64 seats of one journal. `keep` is the file that it is kept in, made where it is not there: it has,
    for good, whatever a reply tells or rests on before the call returns, and calls that wait for that at once share a
    sync. Where the file can't be written, each seat raises `Ended` from then on; it has its last line once all seats
    are closed. Else the journal begins with that of the file `load`, or with none, and no file gets it: `Seat.journal`
    tells it, and it is gone once the last seat is closed.

    It has room for so many entries, which are commands and what searches taught: where that is used up, commands raise
    `JournalFull`, and requests are answered as before. `library` is as for a `Registry`."""
    if keep is not None and load is not None:
        raise ValueError("seats that keep their journal in a file load none")
    number_of(count, "count", 1, 64)
    number_of(entries, "entries", 1, 65_536)
    opened = open_seats(library, count, keep, load, entries)
    return [Seat(session, number) for number, session in enumerate(opened, 1)]
