"""Waiting for a journal that another session writes.

Whoever waits first takes its turn: a lock of this command's own on the file (`lockf`), beside that of a session's
program (`flock`). So one at a time begins its program. The system takes both off as soon as their process has ended."""
import contextlib
import fcntl
import os
import time
from collections import namedtuple

from .command_line import split
from .failures import InUse, Usage
from .output import Output
from .shapes import FileIO

LOOK, LONGEST, SILENT = 0.1, 0.5, 1  # seconds: between two looks, at most between two tries, and until it is told


class Holder(namedtuple("Holder", "pid words")):
    """The process that has a journal's lock, or the command `registry` that has begun it, and its command line."""
    pid: int
    words: list[str]

    def __str__(self) -> str:
        from registryd_lines.fault import shown
        name, *others = self.words or [""]
        command = shown(" ".join([os.path.basename(name), *others]))
        return f"process {self.pid}" + (f", {command}" if name else "")

    @property
    def is_service(self) -> bool:
        """Whether it has the journal until someone ends it, and answers others meanwhile."""
        with contextlib.suppress(Usage):
            found, _ = split(self.words[1:])
            return self.words[:1] == ["registry"] and found is not None and found.name == "serve"
        return False


def holding(path: str) -> int:
    """The process that has the lock of a file; 0 where the system doesn't tell."""
    with contextlib.suppress(OSError, ValueError):
        found = os.stat(path)
        place = f"{os.major(found.st_dev):02x}:{os.minor(found.st_dev):02x}:{found.st_ino}"
        with open("/proc/locks", encoding="ascii") as file:
            locks = [line.split() for line in file]
        # their number, kind, two words more, the process and the file; of those who wait an arrow is before the kind
        return max(0, next((int(it[4]) for it in locks if it[1] == "FLOCK" and it[5] == place), 0))
    return 0


def holder(path: str) -> Holder | None:
    pid = holding(path)
    with contextlib.suppress(OSError, ValueError):
        if pid:
            found = [Holder(it, words_of(it)) for it in (pid, parent(pid))]
            return next((it for it in found if it.words[:1] == ["registry"]), found[0])
    return None


def words_of(pid: int) -> list[str]:
    """The command line of a process, that of the command `registry` without the interpreter."""
    with open(f"/proc/{pid}/cmdline", "rb") as file:
        words = file.read().decode(errors="replace").split("\0")[:-1]
    at = next((at for at, it in enumerate(words[:3]) if os.path.basename(it) == "registry"), None)
    return words if at is None else ["registry", *words[at + 1:]]


def parent(pid: int) -> int:
    with open(f"/proc/{pid}/stat", "rb") as file:
        return int(file.read().rpartition(b")")[2].split()[1])  # behind the name, in which anything may stand


class Turn:
    """Waits so many seconds, and as long again for each other session that has the journal meanwhile."""

    def __init__(self, path: str, seconds: float) -> None:
        self.path, self.seconds, self.begun = path, seconds, time.monotonic()
        # who has the journal, and for how long that is still waited for; what a try takes does not count
        self.pid, self.left = 0, seconds
        self.file: FileIO | None = None
        self.pause, self.is_told = LOOK, False
        self.enter()

    def enter(self) -> None:
        """Returns once the turn has come, or the time is over; at once where there is no file that may be written."""
        if self.file is None and os.path.isfile(self.path):
            with contextlib.suppress(OSError):
                self.file = open(self.path, "rb+", buffering=0)
                while not self.has_come(self.file) and self.waits(LOOK):
                    pass

    @staticmethod
    def has_come(file: FileIO) -> bool:
        try:
            fcntl.lockf(file, fcntl.LOCK_EX | fcntl.LOCK_NB)
        except OSError:
            return False
        return True

    def again(self) -> None:
        """Waits before another try; raises where there is no time for one, or waiting is of no use."""
        found = holder(self.path)
        if found and found.is_service:
            raise InUse(f"{self.path} is kept by a service ({found}): name that by --connect")
        if not self.waits(self.pause):
            raise InUse(f"{self.path} is in use by {self.other_session(found)}: try again once that has ended")
        self.pause = min(2 * self.pause, LONGEST)
        if found or self.file is None:
            self.enter()
        else:
            self.leave()  # on a network file system the two locks may be one, and that of the turn is in the way then

    def waits(self, seconds: float) -> bool:
        """Waits, and answers whether there was time to. Once that takes long it is told."""
        pid = holding(self.path)
        if pid and pid != self.pid:
            self.pid, self.left = pid, self.seconds
        if self.left <= 0:
            return False
        if time.monotonic() >= self.begun + SILENT and not self.is_told:
            self.is_told = True
            most = f"{self.seconds:,} second{'s' * (self.seconds != 1)}"
            Output.note(f"{self.path} is in use by {self.other_session(holder(self.path))}: waiting up to {most}")
        seconds = min(seconds, self.left)
        time.sleep(seconds)
        self.left -= seconds
        return True

    @staticmethod
    def other_session(found: Holder | None) -> str:
        return "another session" + (f" ({found})" if found else "")

    def leave(self) -> None:
        file, self.file = self.file, None
        if file:
            file.close()
