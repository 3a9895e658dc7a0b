"""Libraries that are loaded before the C library, and refuse or break what a program asks of it."""
import errno
import os
import shutil
import subprocess
import tempfile
import unittest
from collections.abc import Iterator, Sequence
from pathlib import Path
from typing import Any, NamedTuple

from tests.support.program import TOP, run

REFUSE_MEMORY = "refuse_memory.c"
BREAK_CALLS = "break_calls.c"
WATCH_CALLS = "watch_calls.c"
NO_SYNC = "no_sync.c"


def in_memory() -> tempfile.TemporaryDirectory[str]:
    """A folder for short-lived files, where they cost least, on machines that have such a place."""
    return tempfile.TemporaryDirectory(dir="/dev/shm" if os.path.isdir("/dev/shm") else None)


def built(case: type[unittest.TestCase], source: str) -> str:
    """The path of such a library, which is built of a source below `tools` and lasts as long as a class of tests."""
    if not shutil.which("cc"):
        raise unittest.SkipTest("there is no cc (Debian: gcc)")
    library = os.path.join(case.enterClassContext(tempfile.TemporaryDirectory()), "library.so")
    subprocess.run(["cc", "-O1", "-shared", "-fPIC", "-o", library, os.path.join(TOP, "tests", "support", "c", source)],
                   check=True)
    return library


class Refused(NamedTuple):
    """A run that was refused the request for memory of its number: how it ended, how many requests there were, whether
    it came to that one, and the folder where it stood."""
    number: int
    returncode: int
    requests: int
    came: bool
    folder: str

    def left(self, name: str) -> bytes | None:
        """What stands in a file of its folder; nothing where there is no such file."""
        path = Path(self.folder, name)
        return path.read_bytes() if path.exists() else None

    @property
    def stdout(self) -> bytes | None:
        return self.left("output")

    @property
    def stderr(self) -> bytes | None:
        return self.left("errors")


def each_refused(library: str, command: Sequence[str], given: bytes, numbers: range,
                 behind: int = 0) -> Iterator[Refused]:
    """Runs a command on these bytes once for each of these numbers, a range; it ends before where so many runs in a row
    did not come to their request. Yields them in order; what they left stands until the last was asked for."""
    with in_memory() as folder:
        path = os.path.join(folder, "given")
        Path(path).write_bytes(given)
        env = {**os.environ, "LD_PRELOAD": library, "REFUSE_FIRST": str(numbers.start), "REFUSE_GIVEN": path,
               "REFUSE_LAST": str(numbers.stop - 1), "REFUSE_STEP": str(numbers.step), "REFUSE_BEHIND": str(behind)}
        done = subprocess.run(command, env=env, cwd=folder, stdin=subprocess.DEVNULL, capture_output=True, timeout=600)
        assert (done.returncode, done.stderr) == (0, b""), done
        for number, line in zip(numbers, done.stdout.splitlines()):
            ended, requests, came = map(int, line.split())
            assert ended >= 0, f"with request {number} refused, a signal ended the program: {-ended}"
            yield Refused(number, ended, requests, came == 1, os.path.join(folder, str(number)))


class Break:
    """Which calls of a function are broken, and how: the one of a number, and each that comes so many later; by an
    error's name, or, of reads and writes, so that they are of one byte."""

    def __init__(self, call: str, number: int, how: str, every: int = 0) -> None:
        self.call, self.number, self.every = call, number, every
        self.error = 0 if how == "short" else getattr(errno, how)

    def env(self, library: str) -> dict[str, str]:
        return {**os.environ, "LD_PRELOAD": library, "BREAK_CALL": self.call, "BREAK_NUMBER": str(self.number),
                "BREAK_EVERY": str(self.every), "BREAK_ERROR": str(self.error)}

    def run(self, library: str, words: Sequence[str], given: bytes = b"",
            **more: Any) -> tuple[subprocess.CompletedProcess[bytes], bool]:
        """What the program left, and whether it came to the call."""
        told, tell = os.pipe()
        try:
            done = run(words, given, env={**self.env(library), "BREAK_TELL": str(tell)}, pass_fds=[tell], **more)
        finally:
            os.close(tell)
        with os.fdopen(told, "rb") as pipe:
            return done, pipe.read() != b""
