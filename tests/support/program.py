"""The programs under test, and short ways to talk to registryd."""
import contextlib
import functools
import json
import os
import resource
import shutil
import signal
import subprocess
import tempfile
import unittest
from collections.abc import Callable, Iterable, Iterator, Sequence
from pathlib import Path
from typing import Any

from dev.building.programs import path_for_tests
from registry_cli import tied
from tests.support import said
from tests.support.time_limit import children, limited  # noqa: F401, some tests ask for both here

TOP = os.path.dirname(os.path.dirname(os.path.dirname(os.path.abspath(__file__))))
PROGRAM, PROBE = path_for_tests("registryd"), path_for_tests("probe")
SERVE = ["serve", "--workers", "1"]
# Seconds in which a program has answered what a test asks and waits for, on a busy machine too. Only a test that fails
# waits so long.
PATIENCE = 60
# The least that a pipe holds.
PAGE = 4_096


def read(*names: str) -> str:
    """The text of a file of the repository."""
    return Path(TOP, *names).read_text(encoding="utf-8")


def data_rows(name: str) -> list[str]:
    """The rows of a file of `tests/support/data`, without its comments."""
    return [row for row in read("tests", "support", "data", name).splitlines() if not row.startswith("#")]


def skip_without(command: str, packages: str) -> Callable[[Any], Any]:
    """Skips a test, or a class of them, where a command is not there, and tells which packages of Debian bring it."""
    return unittest.skipUnless(shutil.which(command), f"there is no {command} (Debian: {packages})")


def publish(name: str, version: str, needs: Iterable[str] = ()) -> str:
    """A publish line; needs are texts `name requirement`."""
    pairs = [need.split(" ", 1) for need in needs]
    return json.dumps({"op": "publish", "name": name, "version": version, "needs": pairs})


def yank(name: str, version: str) -> str:
    return json.dumps({"op": "yank", "name": name, "version": version})


def unyank(name: str, version: str) -> str:
    return json.dumps({"op": "unyank", "name": name, "version": version})


def resolve(*needs: str, lock: Iterable[str] | None = None, budget: int | None = None, explain: Any = None) -> str:
    """A resolve line; needs are texts `name requirement`, those of the lock `name version`."""
    asked: dict[str, Any] = {"op": "resolve", "needs": [need.split(" ", 1) for need in needs]}
    if lock is not None:
        asked["lock"] = [line.split(" ", 1) for line in lock]
    if budget is not None:
        asked["budget"] = budget
    if explain is not None:
        asked["explain"] = explain
    return json.dumps(asked)


def check(*needs: str, derivation: Any) -> str:
    """A check line; needs are texts `name requirement`, the derivation is a list of lines."""
    return json.dumps({"op": "check", "needs": [need.split(" ", 1) for need in needs], "derivation": derivation})


LIST = '{"op":"list"}'


# Made once: to make one takes as long as to write a line.
IN_ORDER = json.JSONEncoder(sort_keys=True, separators=(",", ":"))


@functools.lru_cache(maxsize=100_000)  # a test has all commands that a session may have, some times
def journal_line(line: str) -> str:
    """The line that a publish, yank or unyank line has in a journal's file."""
    return IN_ORDER.encode(json.loads(line))


def run(words: Sequence[str], given: bytes = b"", most: int | None = None,
        **more: Any) -> subprocess.CompletedProcess[bytes]:
    """Runs the program on these bytes and answers what it left. They come from a file: so each read gives as much as is
    asked for, and which lines are answered together doesn't hang on how a pipe is filled. Where most is given, a file
    that the program writes gets so many bytes: what goes beyond that is cut off, and then writes fail."""
    more.setdefault("stdout", subprocess.PIPE)
    with tempfile.TemporaryFile() as file:
        if "stdin" not in more:
            file.write(given)
            file.seek(0)
            more["stdin"] = file
        with files_of_at_most(most):
            # a signal that this process passes over is passed over by what it starts, where nothing is restored
            done = tied.run([PROGRAM, *words], stderr=subprocess.PIPE, timeout=100,
                            restore_signals=most is None, **more)
    if done.returncode == 0 and done.stdout is not None:
        said.note_run(words, given, done.stdout, more.get("cwd", ""))
    return done


def heed_signals() -> None:
    """Has what is begun end at these, also where the tests run in the background and pass them over."""
    for number in (signal.SIGINT, signal.SIGTERM, signal.SIGHUP):
        signal.signal(number, signal.SIG_DFL)


def in_time(seconds: float | None = None) -> contextlib.AbstractContextManager[None]:
    """Meanwhile a test that waits for more than so many seconds fails."""
    return limited(seconds or PATIENCE)


@contextlib.contextmanager
def talking(words: Iterable[str] = tuple(SERVE)) -> Iterator[tied.Tied]:
    """Starts the program for a test that writes to it and waits for what it answers."""
    with in_time(), tied.Tied([PROGRAM, *words], stdin=subprocess.PIPE, stdout=subprocess.PIPE, bufsize=0) as client:
        yield client


def read_lines(client: Any, count: int) -> bytes:
    """So many lines of what a program writes, in one piece, with what came together with the last of them."""
    told = b""
    while told.count(b"\n") < count:
        piece = client.stdout.read(PAGE)
        assert piece, f"the program has ended after {told[-300:]!r}"
        told += piece
    return told


def end(client: tied.Tied) -> tuple[bytes, int]:
    """Ends what the program reads; answers what it writes to its end, and its status."""
    client.stdin.close()
    return client.stdout.read(), client.wait()


@contextlib.contextmanager
def files_of_at_most(most: int | None) -> Iterator[None]:
    """Meanwhile this process, and what it starts, writes files of at most so many bytes. Set here, and not between the
    fork and the program, since a fork of a process of this size takes longer than the program."""
    before = resource.getrlimit(resource.RLIMIT_FSIZE)
    resource.setrlimit(resource.RLIMIT_FSIZE, before if most is None else (most, before[1]))
    try:
        yield
    finally:
        resource.setrlimit(resource.RLIMIT_FSIZE, before)


def serve(lines: Iterable[str], **more: Any) -> list[str]:
    """Answers the reply lines to these request lines."""
    text = "".join(line + "\n" for line in lines).encode()
    done = run(SERVE, text, **more)
    assert done.returncode == 0 and done.stderr == b"", (done.returncode, done.stderr)
    assert done.stdout == b"" or done.stdout.endswith(b"\n")
    return done.stdout.decode().split("\n")[:-1]
