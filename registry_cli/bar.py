"""What standard error says while something takes long, where that is a terminal and --quiet is not given."""
import contextlib
import sys
import threading
import time
from collections.abc import Iterator

from . import output

WIDE, ERASE = 30, "\r\x1b[K"
TICK = 1  # seconds
is_timed = False


def is_seen() -> bool:
    return sys.stderr.isatty() and not output.chosen.is_quiet


def show(text: str) -> None:
    print(text, end="", file=sys.stderr, flush=True)


@contextlib.contextmanager
def busy(what: str) -> Iterator[None]:
    """Says what is being done, as long as it is."""
    seen = is_seen()
    if seen:
        show(what)
    try:
        yield
    finally:
        if seen:
            show(ERASE)


@contextlib.contextmanager
def timed(what: str, limit: int = 0) -> Iterator[None]:
    """The same with its seconds, once it has taken one, and their limit. A part of what is timed says nothing."""
    global is_timed
    if is_timed or not is_seen():
        yield
        return
    is_over, begun = threading.Event(), time.monotonic()

    def tell() -> None:
        most = f", at most {limit} s" if limit else ""
        while not is_over.wait(TICK):
            show(f"{ERASE}{what} for {time.monotonic() - begun:.0f} s{most}; Ctrl-C ends it")
    telling = threading.Thread(target=tell, daemon=True)
    telling.start()
    is_timed = True
    try:
        yield
    finally:
        is_timed = False
        is_over.set()
        telling.join()
        if time.monotonic() - begun >= TICK:
            show(ERASE)


class Bar:
    def __init__(self, what: str, whole: int) -> None:
        self.what, self.whole, self.done, self.shown = what, whole, 0, -1
        self.is_seen = is_seen() and whole > 0

    def step(self) -> None:
        """One more step is done. The line is written anew with each percent."""
        self.done += 1
        if not self.is_seen:
            return
        percent, full = 100 * self.done // self.whole, WIDE * self.done // self.whole
        if percent != self.shown:
            self.shown = percent
            show(f"\r{self.what} [{'#' * full}{'.' * (WIDE - full)}] {percent}%, {self.done} of {self.whole}")

    def end(self) -> None:
        if self.is_seen:
            show(ERASE)
