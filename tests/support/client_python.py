"""The client in Python, as these tests load it, what stands for the program in their sessions, and how a session tells
its end."""
import os
import re
import subprocess
import sys
import tempfile
import unittest
from collections.abc import Callable, Iterable
from typing import Any

from registryd import Ended, Line, Registry, Resolve
from tests.support import registry_folder
from tests.support.program import PATIENCE, TOP, in_time, read

SECONDS = PATIENCE  # that nothing here may take
PYTHON = {**os.environ, "PYTHONPATH": os.path.join(TOP, "clients", "python")}
SOON = 45  # seconds in which it is over, on a busy machine too, where a search would go on
PLACES, BIRDS = registry_folder.pigeons(15)
HOPELESS = Resolve({bird: "*" for bird in BIRDS})


def blocks(name: str) -> list[str]:
    """A page's indented blocks, without their indent."""
    return [re.sub("^    ", "", block, flags=re.M).strip() for block in re.findall("(?:^    .*\n)+", read(name), re.M)]


def printed(script: str, cwd: str | None = None, **variables: str) -> str:
    """What a Python of its own prints that runs a script, with the client beside it."""
    done = subprocess.run([sys.executable, "-c", script], cwd=cwd, env={**PYTHON, **variables}, stdout=subprocess.PIPE,
                          text=True, timeout=SECONDS, check=True)
    return done.stdout.strip()


def other(script: str, **more: Any) -> Registry:
    """A session with a program in Python in the place of the real one: it has answered the first line, and sleeps where
    the session is to end it."""
    begun = "import sys, os, time\nsys.stdin.readline()\nprint('{\"revision\":0,\"selected\":[]}', flush=True)\n"
    return Registry([sys.executable, "-c", begun + script], **more)


def accepted(registry: Registry, requests: Iterable[Any]) -> None:
    """Has these requests answered, none of which is refused."""
    for future in registry.many(requests):
        future.result(SECONDS)


def pigeons(registry: Registry) -> Resolve:
    """Publishes pigeons with one hole too few, and answers a request for all, whose search outlasts each test."""
    accepted(registry, [Line(line.encode()) for line in PLACES])
    return HOPELESS


class Case(unittest.TestCase):
    """A test with a folder, and a limit on its time."""

    def setUp(self) -> None:
        self.enterContext(in_time(SECONDS))
        self.folder = self.enterContext(tempfile.TemporaryDirectory())

    def path(self, *names: str) -> str:
        return os.path.join(self.folder, *names)

    def ends(self, told: str, call: Callable[[], object]) -> int | None:
        """This call tells that the session has ended, and how."""
        with self.assertRaisesRegex(Ended, told) as caught:
            call()
        return caught.exception.status
