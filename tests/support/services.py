"""A service under test in a folder of its own, and clients of it."""
import contextlib
import fcntl
import json
import os
import re
import signal
import socket
import subprocess
import sys
import tempfile
import time
import unittest
from collections.abc import Callable, Iterable, Mapping, Sequence
from pathlib import Path
from typing import Any, Self

from tests.support.plain_remnant import remnant
from tests.support.program import PATIENCE, PROGRAM, TOP, heed_signals, in_time, journal_line
from tests.support.time_limit import children

# A service whose constants are others: `MODULE.NAME=VALUE` words stand before those of the command.
CHANGED = """
import importlib, sys
for module, name, value in {changes!r}:
    setattr(importlib.import_module("registry_service." + module), name, value)
from registry_cli.main import main
sys.exit(main(sys.argv[1:]))
"""

# The seconds of a stop as they are needed on a busy machine: so that all that is under way comes to its end.
PATIENT = [("service", name, float(PATIENCE)) for name in ("GRACE", "ENDING", "READING")]
# What a service says of a request that took longer than a second, and of a reader that it has ended since a client had
# two such.
LONG = re.compile(r"\S+ (?:client=\S+ connection=[0-9]+ op=\w+ (?:package=\S+ "
                  r"version=\S+ )?seconds=[1-9][0-9]*\.[0-9]+ reply=.*|event=restart "
                  r"program=reader why='the program ended with status -9')\n")


class Client:
    """A connection that sends lines and reads replies; it waits for neither longer than the tests' patience."""

    def __init__(self, address: Any) -> None:
        self.socket = socket.socket(socket.AF_INET if isinstance(address, tuple) else socket.AF_UNIX)
        self.socket.settimeout(PATIENCE)
        self.socket.connect(address)
        self.read = b""

    def send(self, *lines: str | bytes) -> None:
        self.socket.sendall(b"".join((it if isinstance(it, bytes) else it.encode()) + b"\n" for it in lines))

    def line(self) -> Any:
        """The next reply, without its line feed; nothing where the service has closed the connection."""
        while b"\n" not in self.read:
            piece = self.piece()
            if not piece:
                return None
            self.read += piece
        line, _, self.read = self.read.partition(b"\n")
        return line

    def piece(self) -> bytes:
        try:
            return self.socket.recv(65_536)
        except ConnectionResetError:
            return b""

    def ask(self, *lines: str | bytes) -> list[Any]:
        """The replies to some lines, as values."""
        self.send(*lines)
        return [json.loads(self.line()) for _ in lines]

    def rest(self) -> bytes:
        """What comes until the connection is closed."""
        while piece := self.piece():
            self.read += piece
        return self.read

    def finish(self, text: bytes = b"") -> bytes:
        """Sends these bytes and no more; answers all that is answered."""
        self.socket.sendall(text)
        self.socket.shutdown(socket.SHUT_WR)
        return self.rest()

    def __enter__(self) -> Self:
        return self

    def __exit__(self, *_: object) -> None:
        self.socket.close()


class Service:
    """One that runs, over the journal `team.journal` of a folder."""

    def __init__(self, folder: str | Path, *words: Any, changes: Sequence[Any] = (), **more: Any) -> None:
        self.folder, self.journal, self.socket = Path(folder), Path(folder, "team.journal"), str(Path(folder, "socket"))
        command = [sys.executable, "-c", CHANGED.format(changes=list(changes))] if changes \
            else [os.path.join(TOP, "registry")]
        words = tuple(str(it) for it in words)
        listening = [] if "--port" in words else ["--socket", self.socket]
        # a file, since a service that tells of many slow requests would wait for who reads a pipe
        self.errors = tempfile.TemporaryFile("w+")
        self.running = subprocess.Popen([*command, "serve", "--journal", str(self.journal), *listening, *words],
                                        stdout=subprocess.PIPE,
                                        stderr=self.errors, text=True, preexec_fn=heed_signals,
                                        env={**os.environ, "REGISTRY_PROGRAM": PROGRAM, "PYTHONPATH": TOP}, **more)
        assert self.running.stdout
        self.begun = self.running.stdout.readline()

    def address(self) -> Any:
        """Where it listens: a socket's path, or a host and a port."""
        found = self.begun.split(" is served at ")[1].rpartition(" (")[0]
        return (found.split(":")[0], int(found.split(":")[1])) if found.startswith("127.0.0.1:") else found

    def client(self) -> Client:
        return Client(self.address())

    def programs(self) -> tuple[list[int], list[int]]:
        """The processes of its programs: the one that keeps the journal, and the readers in the order in which
        they began."""
        keepers, readers, own = list[int](), list[int](), words_of(self.running.pid)
        for process in children(self.running.pid):
            with contextlib.suppress(OSError):
                words = words_of(process)
                if words != own:  # else it is no program so far
                    (keepers if b"--journal=" in words else readers).append(process)
        return keepers, sorted(readers)

    def kill_keeper(self) -> None:
        """Kills the program that keeps the journal, once there is one, and waits until it has ended."""
        keeper = self.keeper()
        os.kill(keeper, signal.SIGKILL)
        wait_for(lambda: keeper not in self.programs()[0])

    def keeper(self) -> int:
        """The process of the program that keeps the journal, once there is one."""
        found: list[int] = []
        wait_for(lambda: found.__iadd__(self.programs()[0]))
        return found[0]

    def get(self, target: str, method: str = "GET", address: Any = None, host: str = "localhost") -> tuple[int, str]:
        """The status and the text of an answer over HTTP."""
        with Client(address or self.address()) as client:
            client.socket.sendall(f"{method} {target} HTTP/1.1\r\nHost: {host}\r\n\r\n".encode())
            head, _, text = client.rest().partition(b"\r\n\r\n")
        return int(head.split()[1]), text.decode()

    def end(self, number: int = signal.SIGTERM) -> tuple[int, str]:
        """Ends it by a signal; answers the status, and what stood on standard error."""
        self.running.send_signal(number)
        return self.wait()

    def wait(self) -> tuple[int, str]:
        """Waits for its end, and then for that of its programs: so whoever begins the next one finds the
        journal free."""
        self.said, _ = self.running.communicate(timeout=PATIENCE)
        if self.begun:
            wait_for(lambda: is_free(self.journal))
        with self.errors:
            self.errors.seek(0)
            return self.running.returncode, self.errors.read()

    def commands(self) -> list[bytes]:
        """The commands that stand in the journal's file."""
        return remnant(self.journal.read_bytes()).commands


class Case(unittest.TestCase):
    """Each test has a folder, and what it begins ends with it."""

    def setUp(self) -> None:
        self.folder = self.enterContext(tempfile.TemporaryDirectory())
        self.enterContext(in_time(2 * PATIENCE))

    def begin(self, *words: Any, **more: Any) -> Service:
        service = Service(self.folder, *words, **more)
        self.addCleanup(self.leave, service)
        return service

    def ends_well(self, service: Service) -> None:
        """It ends in order, and has said nothing but that requests took long, as they may on a busy machine."""
        status, said = service.end()
        self.assertEqual((status, LONG.sub("", said)), (0, ""))

    @staticmethod
    def leave(service: Service) -> None:
        if service.running.poll() is None:
            service.running.kill()
        service.running.communicate()
        service.errors.close()

    def demand(self, accepted: Mapping[int, str], commands: Sequence[bytes]) -> None:
        """Each line that was accepted, by its revision, stands at its place in the journal."""
        wrong = {revision: line for revision, line in accepted.items()
                 if commands[revision - 1:revision] != [journal_line(line).encode()]}
        self.assertEqual(wrong, {}, f"{len(commands)} commands")


def words_of(process: int) -> bytes:
    """The words that a process was begun with."""
    return Path("/proc", str(process), "cmdline").read_bytes()


def is_free(journal: str | Path) -> bool:
    """Whether no session has a journal's file."""
    with contextlib.suppress(OSError):
        with open(journal, "rb") as file:
            try:
                fcntl.flock(file, fcntl.LOCK_SH | fcntl.LOCK_NB)
            except BlockingIOError:
                return False
    return True


def kill(processes: Iterable[int]) -> None:
    """Kills processes, of which some may have ended."""
    for process in processes:
        with contextlib.suppress(ProcessLookupError):
            os.kill(process, signal.SIGKILL)


def wait_for(holds: Callable[[], object], seconds: float = PATIENCE) -> None:
    """Waits until something holds."""
    limit = time.monotonic() + seconds
    while not holds():
        assert time.monotonic() < limit, "it did not come to that"
        time.sleep(0.02)
