"""A service: its sockets, its programs, how it begins and how it ends."""
from __future__ import annotations

import asyncio
import signal
from collections.abc import Callable, Iterator
from contextlib import ExitStack
from functools import partial
from pathlib import Path
from socket import socket
from typing import TypeVar

from registry_cli.shapes import Served

from .client import Asked, Client
from .http import MOST_COPIES, build, page
from .keeper import Keeper
from .ops import READS
from .readers import Readers
from .sockets import allow_files, bound_file, bound_port, notify
from .times import Times
from .watching import Watch

# seconds: for what is under way, then for the journal's end, then for replies to be read
GRACE, ENDING, READING = 2.0, 1.5, 1.0

Connection = TypeVar("Connection")


class Service:
    """One over a journal, as the words of `registry serve` want it. Its clients call `takes_in` and `ask`."""

    def __init__(self, path: str, options: Served) -> None:
        self.path, self.options, self.loop = path, options, asyncio.get_running_loop()
        self.now, self.is_stopping, self.is_over = self.loop.time, False, False
        self.servers: list[asyncio.Server] = []
        # connections: of lines, of HTTP, and those beyond the clients that may be
        self.clients: set[Client] = set()
        self.pages: set[asyncio.BaseTransport] = set()
        self.guests: set[asyncio.BaseTransport] = set()
        self.copying = asyncio.Semaphore(MOST_COPIES)
        self.left = ExitStack()  # it removes the socket, also where this can't begin
        self.watch, self.signalled = Watch(options.log), asyncio.Event()
        self.keeper = Keeper(path, self.watch)
        self.times, self.readers = Times(self.keeper), Readers(path, self.watch, self.keeper, options)

    def takes_in(self, connection: Connection, kind: set[Connection]) -> bool:
        """Whether a connection has a place: not where as many clients as are allowed are connected."""
        if len(self.clients) + len(self.pages) >= self.options.clients or self.is_stopping:
            return False
        kind.add(connection)
        return True

    def ask(self, asked: Asked) -> None:
        if self.is_over or asked.op not in READS and not asked.client.takes_commands:
            asked.fail()
        elif asked.op in READS:
            self.readers.ask(asked)
        else:
            self.keeper.ask(asked)

    async def begin(self) -> None:
        """Takes its addresses, begins the programs, then listens. So where an address is taken, no journal is begun."""
        allow_files(4 * self.options.clients)
        self.build = self.loop.run_in_executor(None, build)
        sockets = [*self.sockets()]
        await self.keeper.start()
        await self.readers.start()
        for number in (signal.SIGTERM, signal.SIGINT):
            self.loop.add_signal_handler(number, self.signalled.set)
        self.loop.add_signal_handler(signal.SIGHUP, self.watch.reopen)
        for bound, protocol in sockets:
            self.servers.append(await self.loop.create_server(partial(protocol, self), sock=bound, backlog=1_024))
        notify("READY=1")

    def sockets(self) -> Iterator[tuple[socket, Callable[[Service], asyncio.BaseProtocol]]]:
        if self.options.socket:
            yield bound_file(self.options.socket, int(self.options.mode, 8), self.options.group), Client
            self.left.callback(Path(self.options.socket).unlink, missing_ok=True)
        if self.options.port is not None:
            yield bound_port(self.options.port), Client
        if self.options.metrics_port is not None:
            yield bound_port(self.options.metrics_port), page

    async def end(self) -> bool:
        """Has what came answered, and ends the journal, whose program may just begin; answers whether that is so."""
        self.is_stopping = True
        notify("STOPPING=1")
        for server in self.servers:
            server.close()
        for client in list(self.clients):
            client.end_input()
        await self.until(lambda: self.keeper.is_up and not any(it.asked or it.lines for it in self.clients), GRACE)
        self.is_over = True
        self.readers.end()
        has_ended = await self.keeper.end(ENDING)
        await self.until(lambda: not self.clients, READING)
        for client in list(self.clients):
            client.transport.abort()
        return has_ended

    async def until(self, holds: Callable[[], bool], seconds: float) -> None:
        limit = self.now() + seconds
        while not holds() and self.now() < limit:
            await asyncio.sleep(0.01)
