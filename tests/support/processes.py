"""Processes that a test has begun by others: whether they work, and whether they have ended."""
import os
import time
from collections.abc import Callable
from pathlib import Path

from tests.support.program import PATIENCE


def comes(condition: Callable[[], object]) -> object:
    """Whether this comes true in time."""
    until = time.monotonic() + PATIENCE
    while not condition() and time.monotonic() < until:
        time.sleep(0.01)
    return condition()


def is_gone(process: int) -> object:
    """Whether a process has ended, or does so soon."""
    return comes(lambda: not os.path.exists(f"/proc/{process}/exe"))


def child_of(process: int) -> int:
    """The one child of a process, once it has begun."""
    children = Path(f"/proc/{process}/task/{process}/children")
    assert comes(lambda: children.read_text(encoding="ascii")), "no program was started"
    time.sleep(0.3)  # it reads the journal and begins to search
    return int(children.read_text(encoding="ascii").split()[0])


def is_idle(process: int) -> bool:
    """Whether a process uses no time, however long that is waited for."""
    before = used(process)
    return not comes(lambda: used(process) != before)


def used(process: int) -> int:
    """How much time a process has used, in the system's ticks."""
    return ticks(f"/proc/{process}/stat")


def used_by_thread(process: int) -> dict[str, int]:
    """The same of each of its threads."""
    return {thread: ticks(f"/proc/{process}/task/{thread}/stat") for thread in os.listdir(f"/proc/{process}/task")}


def ticks(path: str) -> int:
    with open(path, encoding="utf-8", errors="replace") as file:
        return sum(map(int, file.read().rpartition(")")[2].split()[11:13]))


def is_running(process: int) -> bool:
    """Whether a process is there that has not ended, waited for or not."""
    try:
        with open(f"/proc/{process}/stat", encoding="utf-8", errors="replace") as file:
            return file.read().rpartition(")")[2].split()[0] not in "ZX"
    except OSError:  # it is gone, or was gone before it was read
        return False
