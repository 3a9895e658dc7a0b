"""While the program is asked or its answer explained: a terminal is told how long it takes, and too long is ended."""
from __future__ import annotations

import contextlib
import signal
import threading
import time

from . import bar, output
from .failures import Failed, Unanswered
from .shapes import Connected, Iterator, Request, Sequence, Session

MOST_TOLD = 200  # letters of a request
LEAST = 3  # seconds that an explanation has, however long the search took


class Limit:
    """Ends a search of a session after some seconds, if it has no answer by then; never where these are 0."""

    def __init__(self, session: Session | Connected, seconds: int) -> None:
        self.session, self.seconds, self.lock = session, seconds, threading.Lock()
        self.is_answered = self.is_over = False
        self.timer = threading.Timer(seconds, self.end) if seconds else None

    def end(self) -> None:
        with self.lock:
            if not self.is_answered:
                self.is_over = True
                self.session.end_search()

    def __enter__(self) -> None:
        if self.timer:
            self.timer.daemon = True
            self.timer.start()

    def __exit__(self, kind: type[BaseException] | None, *_: object) -> None:
        if self.timer:
            self.timer.cancel()
        with self.lock:
            self.is_answered = True
        if self.is_over and (kind is None or issubclass(kind, Failed)):
            how = "--seconds N searches longer (0: without a limit)"
            raise Unanswered(f"no answer was found in {counted(self.seconds)}: {how}") from None


class Alarm:
    """Ends what the main thread does by an exception, after some seconds; never where these are 0."""

    def __init__(self, seconds: float, why: str) -> None:
        self.seconds, self.why, self.is_set = seconds, why, False

    def ring(self, *_: object) -> None:
        if self.is_set:
            self.is_set = False
            raise Unanswered(self.why)

    def __enter__(self) -> None:
        if self.seconds:
            self.is_set = True
            handler = signal.signal(signal.SIGALRM, self.ring)
            self.before = handler, signal.setitimer(signal.ITIMER_REAL, self.seconds)

    def __exit__(self, *_: object) -> None:
        self.is_set = False
        if self.seconds:
            handler, timer = self.before
            signal.setitimer(signal.ITIMER_REAL, *timer)
            signal.signal(signal.SIGALRM, handler)


def counted(seconds: int) -> str:
    return f"{seconds} second{'s' * (seconds != 1)}"


@contextlib.contextmanager
def asking(session: Session | Connected, requests: Sequence[Request]) -> Iterator[None]:
    begun, is_search = time.monotonic(), all(it.get("op") == "resolve" for it in requests)
    seconds = output.chosen.seconds if is_search else 0
    for it in requests if output.chosen.is_verbose else ():
        import json
        text = json.dumps(it, separators=(",", ":"))
        output.detail(f"asking {text[:MOST_TOLD]}{'..' * (len(text) > MOST_TOLD)}")
    with bar.timed("searching" if is_search else "waiting for the program", seconds), Limit(session, seconds):
        yield
    output.detail(f"answered in {time.monotonic() - begun:.3f} s")


@contextlib.contextmanager
def explaining(is_refused: bool, begun: float | None = None) -> Iterator[None]:
    """It may take what is left of the seconds that have begun then, else with the command."""
    seconds = output.chosen.seconds
    left = seconds and max(LEAST, seconds - (time.monotonic() - (begun or output.chosen.begun)))
    told = "there is no selection; to say why takes" if is_refused else "to explain that takes"
    told += f" more than {counted(seconds)} in all: --seconds N allows more (0: without a limit)"
    with bar.timed("explaining", round(left)), Alarm(left, told):
        yield
