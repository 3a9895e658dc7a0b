"""A session with a service, over its socket. Where the connection breaks off it is made again, and what has no reply is
asked again; of a command it is looked up first whether it was carried out."""
from __future__ import annotations

import contextlib
import itertools
import json
import re
import socket
import threading
import time
from collections import deque

from . import near_limits
from .catalog import commands_in, line_of
from .failures import Failed, Refused
from .searching import asking
from .session import EMPTY
from .shapes import Iterator, Reply, Request, Self, Sequence

PATIENCE, PAUSE = 10, 0.2  # seconds in which a service that is begun again is waited for
SMALL = 32_768  # bytes that a socket takes at once
UNAVAILABLE = 503
MOST_PORT = 65_535


class Lost(Exception):
    """The connection has ended, or a program of the service: what was asked may have been carried out or not."""


def connect(address: str) -> socket.socket:
    host, colon, port = address.rpartition(":")
    connection = None
    try:
        if colon and "/" not in address and port.isascii() and port.isdigit():
            if len(port) > len(str(MOST_PORT)) or int(port) > MOST_PORT:
                raise OverflowError(f"{MOST_PORT} is the highest port")
            return socket.create_connection((host.strip("[]"), int(port)))
        connection = socket.socket(socket.AF_UNIX)
        connection.connect(address)
        return connection
    except (OSError, OverflowError) as fault:
        if connection:
            connection.close()
        meant = "" if re.search(r"[/:.]", address) else f"; did you mean {address}:PORT?"
        raise Failed(f"no service answers at {address}: {getattr(fault, 'strerror', None) or fault}{meant}") from None


def page_of_service(address: str, target: str) -> bytes:
    with connect(address) as connection:
        connection.sendall(f"GET {target} HTTP/1.0\r\n\r\n".encode())
        with connection.makefile("rb") as answer:
            head, _, text = answer.read().partition(b"\r\n\r\n")
    if not re.match(rb"HTTP/1\.[01] 200 ", head):
        reason = text.decode(errors="replace").strip()
        raise Failed(f"the service at {address} does not tell its journal now: {reason}")
    return text


def journal_of_service(address: str, revision: int | None = None) -> bytes:
    """The journal of a service as a file has it: as it stands, or as it stood at a revision."""
    return page_of_service(address, "/journal" + ("" if revision is None else f"?revision={revision}"))


class Connected:
    """It answers what a session over a journal's file does, as the registry stands when it is asked."""

    is_ended = False

    def __init__(self, address: str) -> None:
        self.path, self.revision, self.text = address, 0, b""
        self.open()
        self.ask(EMPTY)  # so the revision is known at which commands begin

    def open(self) -> None:
        self.connection = connect(self.path)
        self.replies = self.connection.makefile("rb")

    def ask(self, *requests: Request) -> list[Reply]:
        with asking(self, requests):
            return list(self.each(requests))

    def end_search(self) -> None:
        """Waits no longer: a service ends a search by itself."""
        self.is_ended = True
        with contextlib.suppress(OSError):
            self.connection.shutdown(socket.SHUT_RDWR)

    def each(self, requests: Sequence[Request]) -> Iterator[Reply]:
        waiting, limit = deque(requests), time.monotonic() + PATIENCE
        done: dict[bytes, int] = {}
        while waiting:
            if done and line_of(waiting[0]) in done:
                self.revision = done[line_of(waiting.popleft())]
                yield {"ok": True, "revision": self.revision}
                continue
            try:
                rest = list(itertools.takewhile(lambda it: not done or line_of(it) not in done, waiting))
                for reply in self.exchange(rest):
                    waiting.popleft()
                    self.revision, limit = reply["revision"], time.monotonic() + PATIENCE
                    yield reply
            except (Lost, OSError):
                if self.is_ended:
                    raise Failed(f"the service at {self.path} was not waited for") from None
                done = self.again(limit)

    def exchange(self, requests: Sequence[Request]) -> Iterator[Reply]:
        text = b"".join(json.dumps(it, separators=(",", ":")).encode() + b"\n" for it in requests)
        if len(text) < SMALL:
            self.connection.sendall(text)
        else:
            threading.Thread(target=self.send, args=(self.connection, text), daemon=True).start()
        for _ in requests:
            line = self.replies.readline()
            if not line.endswith(b"\n"):
                raise Lost
            reply: Reply = json.loads(line)
            if reply.get("error") == UNAVAILABLE:
                if "reason" in reply:
                    raise Failed(f"the service at {self.path} accepts nothing now: {reply['reason']}")
                raise Lost
            yield reply

    @staticmethod
    def send(connection: socket.socket, text: bytes) -> None:
        with contextlib.suppress(OSError):  # who reads the replies is told
            connection.sendall(text)

    def again(self, limit: float) -> dict[bytes, int]:
        """Connects again. Answers what was accepted since the last reply, by its line: so that was carried out."""
        while True:
            self.leave()
            time.sleep(PAUSE)
            try:
                self.open()
                lines = commands_in(journal_of_service(self.path))[self.revision:]
                return {line: self.revision + number for number, line in enumerate(lines, 1)}
            except (Failed, OSError) as fault:
                if time.monotonic() > limit:
                    what = "does not come back: a command that was under way may have been accepted"
                    raise Failed(f"the service at {self.path} broke off before it had answered, and {what}") from fault

    def journal(self) -> bytes:
        self.text = journal_of_service(self.path, self.revision)
        return self.text

    def commands(self) -> list[Request]:
        return [json.loads(it) for it in commands_in(self.journal())]

    def close(self) -> None:
        """Nothing is to be waited for: what was told as accepted is kept."""

    def leave(self) -> None:
        self.replies.close()
        self.connection.close()

    def __enter__(self: Self) -> Self:
        return self

    def __exit__(self, kind: type[BaseException] | None, *_: object) -> None:
        self.leave()
        if (kind is None or issubclass(kind, Refused)) and self.text:
            near_limits.warn(self.path, self.text)
