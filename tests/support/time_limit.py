"""A limit on the time of a test: one that waits for a program that never replies fails then, and hangs no other."""
import contextlib
import os
import signal
from collections.abc import Iterator
from pathlib import Path


def children(process: int | None = None) -> Iterator[int]:
    """The processes that this one has started, or another one, and that have not ended."""
    for path in Path("/proc").glob("[0-9]*/stat"):
        with contextlib.suppress(OSError):
            # the name of what runs stands in parentheses, and may have any letters
            state, parent, *_ = path.read_text(encoding="utf-8", errors="replace").rpartition(")")[2].split()
            if int(parent) == (process or os.getpid()) and state not in "ZX":
                yield int(path.parent.name)


@contextlib.contextmanager
def limited(seconds: float) -> Iterator[None]:
    """A test that waits for more than so many seconds meanwhile fails, and what it has started is ended: so a program
    that never replies hangs no test."""
    def break_off(*_: object) -> None:
        signal.setitimer(signal.ITIMER_REAL, 0)  # to find them may take longer than the limit
        for child in children():
            with contextlib.suppress(ProcessLookupError):
                os.kill(child, signal.SIGKILL)
        signal.setitimer(signal.ITIMER_REAL, seconds, seconds)
        raise AssertionError(f"it was not answered in {seconds} seconds")

    handler = signal.signal(signal.SIGALRM, break_off)
    # again and again: what is left on the way out may wait, too
    outer = signal.setitimer(signal.ITIMER_REAL, seconds, seconds)
    try:
        yield
    finally:
        signal.setitimer(signal.ITIMER_REAL, *outer)
        signal.signal(signal.SIGALRM, handler)
