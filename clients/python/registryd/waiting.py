"""What waits for replies, and for the end of a session."""
from __future__ import annotations

import contextlib
import queue
import threading
import time
from collections import deque
from collections.abc import Callable, Iterable, Iterator, Sequence
from concurrent.futures import Future
from typing import TypeVar, Union

from .replies import Ended, RegistryError, Reply, to
from .requests import Request, written

WAITED = 0.5  # seconds that a program which answers no more has to end by itself
CLOSED = "the session was closed"


class Awaited(Future[Reply]):
    """What becomes of the line of a request, for any number of threads."""
    _condition: threading.Condition  # of Future, whose stub lacks it

    def __init__(self, request: Request) -> None:
        super().__init__()
        self._request = request

    def settle(self, reply: Reply | RegistryError) -> None:
        """Doesn't wait for the future's lock: a thread that was interrupted may have left it locked for good."""
        if self._condition.acquire(blocking=False):
            self._condition.release()
            self._set(reply)
        else:
            threading.Thread(target=self._set, args=[reply], daemon=True).start()

    def _set(self, reply: Reply | RegistryError) -> None:
        reply = to(self._request, reply)
        if isinstance(reply, RegistryError):
            self.set_exception(reply)
        else:
            self.set_result(reply)


class Answered(queue.SimpleQueue[Union[Reply, RegistryError]]):
    """For a single thread that waits: as much of a future as that takes, for a fifth of its time."""

    settle = queue.SimpleQueue.put

    def result(self) -> Reply:
        reply = self.get()
        if isinstance(reply, RegistryError):
            raise reply
        return reply


Waiting = Union[Awaited, Answered]
Futures = Sequence[Waiting]


class Ending:
    """Any thread may wait again after an interrupt: an interrupted `join` of a thread takes that for ended."""

    def __init__(self) -> None:
        self._has_come, self._lock = False, threading.Lock()
        self._lock.acquire()

    def tell(self) -> None:
        self._has_come = True
        self._lock.release()

    def wait(self, seconds: float | None) -> bool:
        """Waits at most so long; answers whether the end has come."""
        limit = float("inf") if seconds is None else time.monotonic() + seconds
        while not self._has_come and (left := limit - time.monotonic()) > 0:
            self._lock.acquire(timeout=min(left, WAITED))  # one thread is woken by it, others find it then
        return self._has_come


class Threaded:
    """A session whose replies come by threads of its own."""
    _threads: list[threading.Thread]

    def call(self, request: Request) -> Reply:
        if threading.current_thread() in self._threads:
            raise RuntimeError("a callback of a future can't wait for a reply: it may ask")
        answered = Answered()
        self.send([written(request)], [answered])
        return answered.result()

    def send(self, lines: Sequence[bytes], futures: Futures) -> None:
        raise NotImplementedError


Item = TypeVar("Item")


def taken_from(items: deque[Item]) -> Iterator[Item]:
    """Takes out one after another, as long as there are any, though another thread may do so too."""
    with contextlib.suppress(IndexError):
        while True:
            yield items.popleft()


def tell_all(futures: Iterable[Waiting], ended: Callable[[], Ended]) -> None:
    """Tells each that no reply comes, also those behind one whose callback raises SystemExit."""
    for future in futures:
        with contextlib.suppress(BaseException):
            future.settle(ended())
