"""What a service answers over HTTP: its counts, whether it is well, the journal, and when its commands came."""
from __future__ import annotations

import asyncio
import contextlib
import os
import re
from collections.abc import Callable, Sequence
from functools import partial
from typing import TYPE_CHECKING

from registry_cli.failures import Failed
from registry_cli.program import version

from .journal import Copy
from .ops import BLANKS

if TYPE_CHECKING:
    from .service import Service

LINES, HTTP, OTHER = "lines", "HTTP", "neither"  # what may be spoken on a connection
REQUEST = re.compile(rb"([A-Z]+) (\S+) HTTP/1\.([01])(\s*\n)?")
OBJECT = re.compile(rb"[ \t\r]*\{")
UNFINISHED = re.compile(rb"[ \t\r]*\Z|[A-Z]")  # the beginning of a line that may become one of these
HOST = re.compile(rb"(?im)^host:[ \t]*(\S+?)(?::[0-9]+)?[ \t]*\r?$")
HOSTS = re.compile(rb"(?im)^[ \t]*host\b")  # whatever may be taken for one
COPY = re.compile(rb"GET /(?:journal|log)\b")
HERE = b"localhost", b"127.0.0.1", b"[::1]"
MOST_HEAD = 65_536
MOST_COPIES = 4  # of the journal that are told at a time
MOST_GUESTS = 16  # connections beyond the clients that may be, on which it may be asked how the service is
HEARING = 1  # seconds for a guest to ask
FULL = b'{"error":503,"name":"TooManyClients","revision":%d}\n'
PATIENCE = 30  # seconds for a request to come and its answer to be read
PAGE = os.sysconf("SC_PAGE_SIZE")
OK, UNAVAILABLE = "200 OK", "503 Service Unavailable"
PLAIN, PROMETHEUS = "text/plain; charset=utf-8", "text/plain; version=0.0.4; charset=utf-8"

Answer = tuple[str, str, "bytes | Copy"]  # the status, what kind of text it is, and the text


def spoken(lines: Sequence[bytes], rest: bytes) -> str | None:
    """What is spoken on a connection, by its first line that is not blank; nothing where that can't be told so far."""
    first = next((line for line in lines if line.strip(BLANKS)), None)
    if OBJECT.match(rest if first is None else first):
        return LINES
    if lines and REQUEST.match(lines[0]):
        return HTTP
    return None if first is None and len(rest) <= MOST_HEAD and UNFINISHED.match(rest) else OTHER


def page(service: Service, transport: asyncio.BaseTransport | None = None,
         begun: bytes = b"") -> asyncio.StreamReaderProtocol:
    """What speaks HTTP on a new connection, or on one that has begun with these bytes."""
    made = asyncio.StreamReaderProtocol(asyncio.StreamReader(), partial(tell, service))
    if transport:
        transport.set_protocol(made)
        made.connection_made(transport)
        made.data_received(begun)
    return made


async def tell(service: Service, reader: asyncio.StreamReader, writer: asyncio.StreamWriter) -> None:
    place = writer.transport
    is_guest = place not in service.pages and not service.takes_in(place, service.pages)
    try:
        async with asyncio.timeout(PATIENCE):
            head = await (guest_head(service, reader, place) if is_guest else head_of(reader))
            if is_guest and not REQUEST.match(head):
                service.watch.turned_away()
                writer.write(FULL % service.keeper.revision)
            elif head:
                await tell_one(service, head, writer, is_guest)
            writer.close()
            await writer.wait_closed()
    except (OSError, asyncio.CancelledError):  # it takes too long, the other end has gone, or the service ends
        place.abort()
    finally:
        service.pages.discard(place)
        service.guests.discard(place)


async def head_of(reader: asyncio.StreamReader) -> bytes:
    """What comes up to the first empty line, or up to a first line that is not of HTTP, and perhaps more."""
    head, piece = b"", b"."
    while piece and b"\r\n\r\n" not in head and b"\n\n" not in head and len(head) <= MOST_HEAD:
        if b"\n" in head and not REQUEST.match(head):
            break
        piece = await reader.read(MOST_HEAD)
        head += piece
    return head if piece else b""


async def guest_head(service: Service, reader: asyncio.StreamReader, place: asyncio.BaseTransport) -> bytes:
    """The same where there is no room; nothing where there are too many of these, or it takes too long."""
    if len(service.guests) < MOST_GUESTS:
        service.guests.add(place)
        with contextlib.suppress(TimeoutError):
            async with asyncio.timeout(HEARING):
                return await head_of(reader)
    return b""


async def tell_one(service: Service, head: bytes, writer: asyncio.StreamWriter, is_guest: bool) -> None:
    turn: contextlib.AbstractAsyncContextManager[None] = contextlib.nullcontext()
    if COPY.match(head) and not is_guest:
        turn = service.copying
    async with turn:
        status, kind, text = await answer(service, head, writer.get_extra_info("peername"), is_guest)
        writer.write(f"HTTP/1.1 {status}\r\nContent-Type: {kind}\r\nContent-Length: {len(text)}\r\n"
                     "Connection: close\r\n\r\n".encode())
        for piece in (text,) if isinstance(text, bytes) else iter(text):
            writer.write(piece)
            await writer.drain()


async def answer(service: Service, head: bytes, address: object, is_guest: bool = False) -> Answer:
    line, hosts = REQUEST.match(head), HOST.findall(head)
    if not line or not line[4]:
        return "400 Bad Request", PLAIN, b"this is no request over HTTP\n"
    # only HTTP/1.1, which browsers speak, has to name its host
    if address and (len(HOSTS.findall(head)) != len(hosts) or len(hosts) > 1 or len(hosts) < int(line[3])):
        return "400 Bad Request", PLAIN, b"a request has to name its host exactly once\n"
    if address and hosts and hosts[0].lower() not in HERE:  # a browser was led here by a page from elsewhere
        return "421 Misdirected Request", PLAIN, b"this service is of another host\n"
    if line[1] != b"GET":
        return "405 Method Not Allowed", PLAIN, b"GET alone is answered over HTTP; request lines come without it\n"
    path, _, query = line[2].partition(b"?")
    if path == b"/metrics":
        return OK, PROMETHEUS, metrics(service, await service.build)
    if path == b"/health":
        ill = illness(service)
        return (UNAVAILABLE if ill else OK), PLAIN, (ill or "ok").encode() + b"\n"
    if path in (b"/journal", b"/log"):
        return await journal(service, path, query, is_guest)
    return "404 Not Found", PLAIN, b"there are /metrics, /health, /journal and /log\n"


def illness(service: Service) -> str:
    """Why it can't do all that it is for; the empty text where it can."""
    if service.is_stopping:
        return "stopping"
    if service.keeper.disk.fault:
        return service.keeper.disk.fault
    if not service.keeper.is_up:
        return "the program that keeps the journal is being begun again: commands wait"
    if not service.readers.ready():
        return "no reader is ready: requests wait"
    return "no reader is free: requests wait" if service.readers.are_late() else ""


def metrics(service: Service, build: str) -> bytes:
    size = os.stat(service.path).st_size if os.path.exists(service.path) else 0
    can_accept = service.keeper.is_up and not service.keeper.disk.fault
    return service.watch.text({
        "clients": len(service.clients),
        "lines_waiting": sum(len(client.asked) + len(client.lines) for client in service.clients),
        "readers": service.readers.ready(), "keeper_up": can_accept, "revision": service.keeper.revision,
        "journal_bytes": size, "disk_free_bytes": free_bytes(service.path), "resident_bytes": memory(service),
        "build_info": {build: 1}})


def build() -> str:
    said = ""
    with contextlib.suppress(Failed, OSError):
        said = version()
    found = re.match(r"\w+ ([\w.+~-]+), commit (\w+)", said)
    proved = "unknown" if not found else "yes" if "The program is proved" in said else "no"
    number, commit = found.groups() if found else ("unknown", "unknown")
    return f'version="{number}",commit="{commit}",proved="{proved}"'


def free_bytes(path: str) -> int:
    try:
        found = os.statvfs(os.path.dirname(os.path.realpath(path)))
    except OSError:
        return 0
    return found.f_bavail * found.f_frsize


def memory(service: Service) -> dict[str, int]:
    programs = [("service", os.getpid())]
    programs += [(each.role, each.child.process.pid) for each in (service.keeper, *service.readers.readers)
                 if each.child]
    found = {}
    for role, process in programs:
        with contextlib.suppress(OSError, IndexError), open(f"/proc/{process}/statm", encoding="ascii") as file:
            found[f'program="{role}",process="{process}"'] = int(file.read().split()[1]) * PAGE
    return found


async def journal(service: Service, path: bytes, query: bytes, is_guest: bool) -> Answer:
    """The journal at a revision, or its commands after one with their times. Clients are answered while it is read."""
    if is_guest:
        return UNAVAILABLE, PLAIN, b"as many clients as are allowed are connected\n"
    if not service.keeper.is_up:
        return UNAVAILABLE, PLAIN, b"the journal can be copied once the program that keeps it runs again\n"
    word, last = (b"after" if path == b"/log" else b"revision"), service.keeper.revision
    asked = re.fullmatch(word + b"=([0-9]{1,9})", query)
    if query and not asked:
        return "400 Bad Request", PLAIN, b"what may be asked for is %s, or %s?%s=N\n" % (path, path, word)
    if asked and int(asked[1]) > last:
        return "404 Not Found", PLAIN, f"the journal is at revision {last}\n".encode()
    number = int(asked[1]) if asked else 0 if path == b"/log" else last
    read: Callable[[], bytes | Copy] = partial(Copy, service.path, number)
    if path == b"/log":
        read = partial(service.times.text, service.path, number, last)
    try:
        return OK, PLAIN, await service.loop.run_in_executor(None, read)
    except OSError as fault:
        return UNAVAILABLE, PLAIN, f"the journal can't be read: {fault.strerror}\n".encode()
