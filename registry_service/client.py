"""A connection: its lines are answered in order, and it can't take more than its share."""
from __future__ import annotations

import asyncio
from collections import deque
from collections.abc import Sequence
from typing import TYPE_CHECKING, cast

from registry_cli.limits import MOST_LINE_BYTES

from .http import HTTP, LINES, page, spoken
from .ops import READS, op_of

if TYPE_CHECKING:
    from .service import Service

MOST_ASKED = 64  # commands of a client that are under way; the lines behind them wait in the socket
MOST_UNREAD = 64 << 20  # bytes of replies that wait for a client
STALLED = 30  # seconds; then a client that doesn't read is cut off
UNAVAILABLE = b'{"error":503,"name":"Unavailable","revision":%d}'
OTHER = b'{"error":19,"name":"BadLine","revision":%d}\n'


class Asked:
    __slots__ = ("client", "line", "op", "since", "reply", "revision", "tries")

    def __init__(self, client: Client, line: bytes, op: str) -> None:
        self.client, self.line, self.op, self.since = client, line, op, client.service.now()
        self.reply: bytes | None = None
        self.revision, self.tries = client.service.keeper.revision, 0

    def answer(self, reply: bytes) -> None:
        service, self.reply = self.client.service, reply
        service.watch.answered(self, service.now() - self.since)
        if self.client.asked[0] is self:
            service.loop.call_soon(self.client.tell)

    def fail(self) -> None:
        """Of a command it is not known whether it was accepted, so none behind it is carried out."""
        self.client.takes_commands &= self.op in READS
        self.answer(UNAVAILABLE % self.client.service.keeper.revision)


class Client(asyncio.Protocol):
    """Its lines wait in `lines`, and are in `asked` from when they are asked until their replies are written."""
    transport: asyncio.Transport
    name: str
    number: int

    def __init__(self, service: Service) -> None:
        self.service, self.rest, self.is_ended, self.takes_commands = service, b"", False, True
        self.lines: deque[bytes] = deque()
        self.asked: deque[Asked] = deque()
        self.speaks: str | None = None
        self.op: str | None = None  # of the first of `lines`, once it is known
        self.clock: asyncio.TimerHandle | None = None  # runs while replies wait to be read
        self.is_slow = False  # whether its last request was

    def connection_made(self, transport: asyncio.BaseTransport) -> None:
        self.transport = cast(asyncio.Transport, transport)
        self.name, self.number = self.service.watch.named(transport)
        if not self.service.takes_in(self, self.service.clients):
            page(self.service, transport)  # how the service is it may ask

    def connection_lost(self, _: Exception | None) -> None:
        self.lines.clear()
        self.resume_writing()
        self.service.clients.discard(self)

    # ---- what it asks

    def data_received(self, data: bytes) -> None:
        *lines, rest = (self.rest + data).split(b"\n")
        self.speaks = self.speaks or spoken(lines, rest)
        if self.speaks not in (LINES, None):
            self.leave_to_others(lines, rest)
            return
        self.rest = rest[:MOST_LINE_BYTES + 1]  # enough to show that a line is too long
        # an empty line has the reply of such a one
        self.lines.extend(line if len(line) <= MOST_LINE_BYTES else b"" for line in lines)
        self.go_on()

    def leave_to_others(self, lines: Sequence[bytes], rest: bytes) -> None:
        """HTTP is that of a page. Any other connection is closed: what is meant for others is not carried out."""
        if self.speaks == HTTP:
            self.service.clients.discard(self)
            self.service.pages.add(self.transport)
            page(self.service, self.transport, b"\n".join([*lines, rest]))
        else:
            self.transport.write(OTHER % self.service.keeper.revision)
            self.transport.close()

    def eof_received(self) -> bool:
        """What came is answered, the last line too if it lacks its line feed."""
        if self.rest:
            self.data_received(b"\n")
        self.end_input()
        return True

    def end_input(self) -> None:
        self.is_ended = True
        self.go_on()

    def go_on(self) -> None:
        """Asks what may be asked now: one request, or commands, so the replies are those that one session would give. A
        client's next request waits for its last one: so it holds one reader at most, and revisions never fall."""
        while self.lines and not self.clock:
            self.op = op_of(self.lines[0]) if self.op is None else self.op
            if self.op is None:
                self.lines[0], self.op = b"", ""
            if self.asked and (self.op in READS or self.asked[0].op in READS or len(self.asked) == MOST_ASKED):
                break
            self.asked.append(Asked(self, self.lines.popleft(), self.op))
            self.op = None
            self.service.ask(self.asked[-1])
        if self.lines or self.clock or self.is_ended:
            self.transport.pause_reading()
        else:
            self.transport.resume_reading()
        if self.is_ended and not self.lines and not self.asked:
            self.transport.close()

    # ---- what it is answered

    def tell(self) -> None:
        told = []
        while self.asked and (reply := self.asked[0].reply) is not None:
            self.asked.popleft()
            told.append(reply)
        if told and not self.transport.is_closing():
            self.transport.write(b"\n".join([*told, b""]))
            if self.transport.get_write_buffer_size() > MOST_UNREAD:
                self.cut_off()
        self.go_on()

    def pause_writing(self, before: int | None = None) -> None:
        """Its replies wait to be read: where of what waited before nothing was read in time, it is cut off."""
        left = self.transport.get_write_buffer_size()
        if before is not None and left >= before:
            self.cut_off()
        else:
            self.clock = self.service.loop.call_later(STALLED, self.pause_writing, left)

    def resume_writing(self) -> None:
        if self.clock:
            self.clock.cancel()
        self.clock = None
        self.go_on()

    def cut_off(self) -> None:
        self.service.watch.cut_off(self)
        self.transport.abort()
