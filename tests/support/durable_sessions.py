"""Sessions that keep a journal, and clients of them that find the program gone at any moment."""
import contextlib
import functools
import json
import os
import select
import signal
import subprocess
import tempfile
import time
from collections.abc import Iterable, Sequence
from typing import Any

from registry_cli import tied
from tests.support.plain_disk import calls_in
from tests.support.plain_remnant import NoRemnant, remnant
from tests.support.plain_session import Requirements, read_request
from tests.support.program import PATIENCE, PROGRAM as PROGRAM, journal_line
from tests.support.reference import Registry

COMMANDS = ("publish", "yank", "unyank")


class Client:
    """Talks to a program, which may be killed at any moment. It never waits for more than some seconds."""

    def __init__(self, words: Iterable[object], **more: Any) -> None:
        # the little that it says on standard error waits in the pipe
        pipe = subprocess.PIPE
        self.running = tied.Tied([PROGRAM, *map(str, words)], stdin=pipe, stdout=pipe, stderr=pipe, bufsize=0, **more)
        self.read = b""

    def send(self, lines: Iterable[str]) -> None:
        """Sends lines in one piece; nothing comes of it where the program is gone."""
        with contextlib.suppress(BrokenPipeError):
            self.running.stdin.write("".join(line + "\n" for line in lines).encode())

    def read_until(self, count: float, seconds: float = PATIENCE) -> bool:
        """Reads until there are so many replies, or the program has ended; answers whether there are."""
        limit = time.monotonic() + seconds
        while self.read.count(b"\n") < count:
            if not select.select([self.running.stdout], [], [], max(0, limit - time.monotonic()))[0]:
                self.running.kill()
                raise AssertionError(f"it has not {count} replies in {seconds} seconds, but {len(self.replies())}")
            piece = os.read(self.running.stdout.fileno(), 65_536)
            if not piece:
                return False
            self.read += piece
        return True

    def replies(self) -> list[str]:
        return self.read.decode().split("\n")[:-1]

    def kill(self) -> None:
        self.running.send_signal(signal.SIGKILL)
        self.leave()

    def leave(self) -> tuple[int, bytes]:
        """Ends the input, reads what is left of the replies, and waits. Answers the status and standard error."""
        with contextlib.suppress(BrokenPipeError):
            self.running.stdin.close()
        self.read_until(float("inf"))
        with self.running.stdout, self.running.stderr:
            return self.running.wait(), self.running.stderr.read()


@functools.lru_cache(maxsize=100)  # a session is killed at many places, over the same lines
def accepted(lines: Sequence[str], before: Sequence[bytes]) -> list[tuple[int, bytes]]:
    """The commands among these lines that are accepted behind those before, as a journal has them, each with its line's
    number from 1."""
    registry, found = Registry(), []
    for it in before:
        registry.apply(json.loads(it))
    for number, line in enumerate(lines, 1):
        asked = read_request(line.encode())
        if asked is None or asked["op"] not in COMMANDS:
            continue
        asked.pop("budgeted")
        if registry.refusal(asked, Requirements()) is None:
            registry.apply(asked)
            found.append((number, journal_line(line).encode()))
    return found


def journal_lines(lines: Iterable[str]) -> list[bytes]:
    return [journal_line(line).encode() for line in lines]


def fault_of(text: bytes, lines: Sequence[str], count: int, before: Sequence[bytes] = ()) -> str | None:
    """What is wrong with a journal's file once so many of these lines have their replies; nothing where it has all that
    it must have and nothing else, in order. The file begins with the commands before them."""
    try:
        found = remnant(text).commands
    except NoRemnant as fault:
        return str(fault)
    every = accepted(tuple(lines), tuple(before))
    told, most = ([*before, *(line for number, line in every if number <= last)] for last in (count, len(lines)))
    if found[:len(told)] != told:
        return f"what was told is not in the file: {told[-1]!r}, {len(found)} of {len(told)}"
    return None if found == most[:len(found)] else f"the file has what nobody asked for: {found[-1]!r}"


class Watched:
    """A client of a program whose calls are noted, and which gets a signal at one of them."""

    def __init__(self, library: str, words: Iterable[object], kill: int = 0, side: str = "",
                 folder: str | None = None, before: Iterable[str] = (), number: int = signal.SIGKILL) -> None:
        self.log = tempfile.TemporaryFile(buffering=0)
        # each line goes behind the others, whoever writes it
        log = os.open(f"/proc/self/fd/{self.log.fileno()}", os.O_WRONLY | os.O_APPEND)
        env = {**os.environ, "LD_PRELOAD": " ".join([*before, library]), "WATCH_TO": str(log), "WATCH_KILL": str(kill),
               "WATCH_SIDE": side, "WATCH_SIGNAL": str(int(number))}
        try:
            self.client = Client(words, env=env, pass_fds=[log], cwd=folder)
        finally:
            os.close(log)

    def follow(self, steps: Iterable[Sequence[str]]) -> tuple[int, bytes, list[Any]]:
        """Sends lines step by step, each once those before it are answered, and ends the input."""
        count = 0
        for lines in steps:
            self.client.send(lines)
            count += len(lines)
            if not self.client.read_until(count):
                break
        status, told = self.client.leave()
        self.log.seek(0)
        with self.log:
            return status, told, list(calls_in(self.log.read()))
