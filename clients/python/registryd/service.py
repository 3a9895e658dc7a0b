"""A session with a service (`registry serve`), for `Registry(connect=..)`.

Where the connection breaks off, or a program of the service ends, it connects again. What has no reply is asked again;
of a command it looks up first, in the journal that the service tells, whether it was carried out since the last reply.
It does so once the service has ended the old connection, and so has no line of it under way any more."""
from __future__ import annotations

import contextlib
import json
import queue
import socket
import threading
import time
from collections import deque
from collections.abc import Sequence

from . import waiting
from .replies import Accepted, Ended, answer
from .waiting import CLOSED, Ending, Futures, Threaded, Waiting, taken_from, tell_all

PATIENCE, PAUSE = 10.0, 0.1  # seconds for a service to be there again, and between two tries
LEAST = 0.001  # seconds to wait at least, since 0 would mean not to wait at all
PIECE = 65_536  # bytes that are read at once
# the service could not ask a program, or has no room
UNAVAILABLE = b'{"error":503,"name":"Unavailable",', b'{"error":503,"name":"TooManyClients",'
REQUESTS = ("resolve", "check", "list")
GREETING = b'{"op":"resolve","needs":[]}\n'  # its reply tells the revision
FENCE = b"{}\n"  # the program that keeps the journal refuses it, once all commands that came before are in the journal

Line = tuple[bytes, Waiting]  # with what waits for its reply


class Connection(Threaded):
    """A session over a socket, which one thread writes to and another one reads. The address is the socket's path, or
    HOST:PORT.

    A call may be broken off between any two of its steps: by a key, by what a signal's handler raises, for lack of
    memory. So all that it does is one step, which queues its lines with what waits for them. The two threads are not
    broken off."""

    def __init__(self, address: str) -> None:
        self._address = address
        self._lines: queue.SimpleQueue[list[Line] | None] = queue.SimpleQueue()  # to be asked; none is the last
        self._lock = threading.Lock()  # of what both threads change; who has it waits for nothing
        self._waiting: deque[Line] = deque()  # the lines that have no reply so far, in order
        self._is_new = False  # whether the connection was made again, and has to be asked all of them
        self._is_all_asked = False  # whether no more comes
        self._open: set[socket.socket] = set()  # what a call to kill has to shut
        self._fault = ""  # why no more lines are taken, but for a call to close or kill
        self._is_closed = self._is_killed = False  # whether there was one
        self._is_over = False  # whether what waits is being told that it gets no reply
        self._ending = Ending()  # of the session, once all that waited is told
        self._is_answered = True  # whether anything was, since it connected again
        # the revision is the one that was told last
        self._socket, self._revision = self._opened(time.monotonic() + PATIENCE, GREETING)
        self._threads = [threading.Thread(target=run, daemon=True) for run in (self._write, self._run)]
        for thread in self._threads:
            thread.start()

    def send(self, lines: Sequence[bytes], futures: Futures) -> None:
        if self._is_closed or self._fault:
            raise self._ended()
        self._lines.put(list(zip(lines, futures)))
        if self._is_over:  # perhaps these came too late to be told
            raise self._ended()

    def close(self, seconds: float | None) -> None:
        failed, self._is_closed = "" if self._is_closed else self._fault, True
        self._lines.put([])
        if not self._ending.wait(seconds):
            self.kill()
            raise Ended(f"the service had not answered {seconds:g} seconds after the session was closed")
        if failed:
            raise Ended(failed)

    def kill(self) -> None:
        self._is_closed = True
        self._break_off()
        if threading.current_thread() not in self._threads:
            self._ending.wait(waiting.WAITED)  # the system may be looking up a host

    def _break_off(self) -> None:
        """Has the thread that reads come to its end."""
        self._is_killed = True
        for connection in list(self._open):
            shut(connection, socket.SHUT_RDWR)

    def _ended(self) -> Ended:
        return Ended(CLOSED if self._is_closed else self._fault)

    # The thread that writes

    def _write(self) -> None:
        """Asks what is queued until the thread that reads has ended, and then tells what gets no reply."""
        try:
            self._write_queued()
        except Exception as why:  # as there is no memory
            self._fault = f"a line could not be sent: {why!r}"
            self._break_off()
            while (lines := self._lines.get()) is not None:
                self._waiting.extend(lines)
        tell_all((future for _, future in taken_from(self._waiting)), self._ended)
        self._ending.tell()

    def _write_queued(self) -> None:
        """By a new connection all that has no reply. Where that fails, the thread that reads connects again."""
        while (lines := self._lines.get()) is not None:
            with self._lock:
                self._waiting.extend(lines)
                text = b"".join(line for line, _ in (self._waiting if self._is_new else lines))
                self._is_new, connection = False, self._socket
            try:
                connection.sendall(text)
            except OSError:
                shut(connection, socket.SHUT_RDWR)
            if self._is_closed and self._lines.empty():
                self._is_all_asked = True
                shut(connection, socket.SHUT_WR)

    # The thread that reads

    def _run(self) -> None:
        try:
            self._read_on()
        except BaseException as why:  # as there is no memory, or a call back of a future has raised SystemExit
            self._fault = f"a reply could not be given: {why!r}"
        self._is_over = True
        self._leave(self._socket)
        self._lines.put(None)

    def _read_on(self) -> None:
        """Reads until no reply comes any more, by one connection after another."""
        while self._read():
            if self._is_answered:
                limit, self._is_answered = time.monotonic() + PATIENCE, False
            if not (self._has_ended(limit) and self._again(limit)):
                self._fault = self._fault or f"the service at {self._address} is not there any more"
                break

    def _read(self) -> bool:
        """Gives replies to the lines that wait longest; answers whether the connection has to be made again."""
        with contextlib.suppress(OSError), self._socket.makefile("rb") as replies:
            for line in replies:
                if not line.endswith(b"\n") or not self._waiting or is_unavailable(line):
                    break
                try:
                    reply = answer(line)
                except (ValueError, KeyError, TypeError):
                    self._fault = f"the service wrote no reply: {line[:200]!r}"
                    return False
                self._revision, self._is_answered = reply.revision, True
                with self._lock:
                    _, future = self._waiting.popleft()
                future.settle(reply)
        return not self._is_killed and (bool(self._waiting) or not self._is_all_asked)

    def _has_ended(self, limit: float) -> bool:
        """Waits until the service has ended the connection; answers whether no line of it can be carried out."""
        shut(self._socket, socket.SHUT_WR)
        try:
            while True:
                self._socket.settimeout(max(limit - time.monotonic(), LEAST))
                if not self._socket.recv(PIECE):
                    return True
        except TimeoutError:
            return not self._has_commands()
        except OSError:
            return True

    def _has_commands(self) -> bool:
        with self._lock:
            return not all(changes_nothing(line) for line, _ in self._waiting)

    def _again(self, limit: float) -> bool:
        """Connects again and asks again; answers whether that was possible in time."""
        self._leave(self._socket)
        while time.monotonic() < limit and not self._is_killed:
            time.sleep(PAUSE)
            with contextlib.suppress(OSError):
                if not self._has_commands():
                    self._go_on_with(self._opened(limit, GREETING)[0], [])
                    return True
                connection, _ = self._opened(limit, FENCE)
                try:
                    known = self._known(self._commands(limit))
                except BaseException:
                    self._leave(connection)
                    raise
                self._go_on_with(connection, known)
                return True
        return False

    def _known(self, commands: list[bytes]) -> list[tuple[Waiting, int]]:
        """Which lines were carried out, by their revisions: after what was told last, and in their order."""
        with self._lock:
            waiting = list(self._waiting)
        known, revision = [], self._revision
        for line, future in waiting:
            with contextlib.suppress(ValueError):
                revision = commands.index(journal_line(line), revision) + 1
                known.append((future, revision))
        return known

    def _go_on_with(self, connection: socket.socket, known: list[tuple[Waiting, int]]) -> None:
        """Asks by another connection what is not known."""
        settled = {id(future) for future, _ in known}
        with self._lock:
            self._waiting = deque((line, future) for line, future in self._waiting if id(future) not in settled)
            self._socket, self._is_new = connection, True
        self._lines.put([])
        for future, revision in known:
            self._revision, self._is_answered = revision, True
            future.settle(Accepted(revision))

    # Connections

    def _connected(self, limit: float) -> socket.socket:
        connection = connect(self._address, max(limit - time.monotonic(), LEAST))
        self._open.add(connection)
        if not self._is_killed:
            return connection
        self._leave(connection)
        raise ConnectionAbortedError

    def _leave(self, connection: socket.socket) -> None:
        shut(connection, socket.SHUT_RDWR)  # so that who still writes to it ends
        self._open.discard(connection)
        connection.close()

    def _opened(self, limit: float, line: bytes) -> tuple[socket.socket, int]:
        """A connection, with the revision at which it has answered a line."""
        connection = self._connected(limit)
        try:
            with contextlib.suppress(BrokenPipeError):  # one that lets its client go at once may have told why
                connection.sendall(line)
            revision = revision_of(read_until(connection, b"\n", limit), self._address)
        except BaseException:
            self._leave(connection)
            raise
        connection.settimeout(None)
        return connection, revision

    def _commands(self, limit: float) -> list[bytes]:
        """The lines of the commands in the journal of the service, which it tells over HTTP."""
        connection = self._connected(limit)
        try:
            connection.sendall(b"GET /journal HTTP/1.0\r\n\r\n")
            head, _, text = read_until(connection, None, limit).partition(b"\r\n\r\n")
        finally:
            self._leave(connection)
        lines = text.split(b"\n") if b" 200 " in head.partition(b"\r\n")[0] else []
        if lines[-2:] != [b"end %d" % (len(lines) - 3), b""]:
            raise OSError("the service does not tell its journal now")
        return [line for line in lines[1:-2] if not line.endswith(b'"op":"learn"}')]


def connect(address: str, seconds: float) -> socket.socket:
    host, colon, port = address.rpartition(":")
    if colon and "/" not in address and port.isdigit():
        connection = socket.create_connection((host.strip("[]"), int(port)), seconds)
        # a line is not held back until the one before is known to have come
        connection.setsockopt(socket.IPPROTO_TCP, socket.TCP_NODELAY, 1)
        return connection
    connection = socket.socket(socket.AF_UNIX)
    try:
        connection.settimeout(seconds)
        connection.connect(address)
    except OSError:
        connection.close()
        raise
    return connection


def read_until(connection: socket.socket, end: bytes | None, limit: float) -> bytes:
    pieces = [b"."]
    while pieces[-1] and not (end and pieces[-1].endswith(end)):
        connection.settimeout(max(limit - time.monotonic(), LEAST))
        pieces.append(connection.recv(PIECE))
    return b"".join(pieces[1:])


def revision_of(line: bytes, address: str) -> int:
    """The revision of a reply, unless it tells that the service can't be asked now."""
    if is_unavailable(line):
        raise ConnectionRefusedError(f"the service at {address} can't be asked now: {json.loads(line)['name']}")
    try:
        return int(json.loads(line)["revision"])
    except (ValueError, KeyError, TypeError):
        raise ConnectionAbortedError(f"the service at {address} has ended, or is none") from None


def shut(connection: socket.socket, how: int) -> None:
    with contextlib.suppress(OSError):  # it is shut
        connection.shutdown(how)


def journal_line(line: bytes) -> bytes:
    """A line as a journal has it, where it is a command; else one that no journal has."""
    try:
        return json.dumps(json.loads(line), sort_keys=True, separators=(",", ":"), ensure_ascii=False).encode()
    except (ValueError, RecursionError):
        return b""


def changes_nothing(line: bytes) -> bool:
    """Whether a line asks for what may be asked twice."""
    try:
        return json.loads(line)["op"] in REQUESTS
    except (ValueError, KeyError, TypeError, RecursionError):
        return False


def is_unavailable(line: bytes) -> bool:
    return line.startswith(UNAVAILABLE)
