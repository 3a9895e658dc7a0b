"""`registry serve`: a service for many clients, over the one journal, until a signal ends it."""
import asyncio

from registry_service.pages import show
from registry_service.service import Service

from ..failures import FAILED, Usage
from ..session import journal_of
from ..shapes import Output, Served


def run(options: Served, out: Output) -> int | None:
    if not options.socket and options.port is None:
        raise Usage("a service listens on --socket PATH, on --port N, or on both")
    if options.connect:
        raise Usage("a service keeps a journal itself: --journal FILE names it, and --connect is for those who ask it")
    if options.group and not options.socket:
        raise Usage("--group needs --socket")
    return asyncio.run(serve(journal_of(options), options, out))


async def serve(path: str, options: Served, out: Output) -> int | None:
    service = Service(path, options)
    with service.left:
        await service.begin()
        addresses = (server.sockets[0].getsockname() for server in service.servers)
        names = [it if isinstance(it, str) else "{}:{}".format(*it) for it in addresses]
        where = names[:len(names) - (options.metrics_port is not None)]
        out.give({"listening": where[0], "also": where[1:], "revision": service.keeper.revision},
                 [f"{path} is served at {' and '.join(where)} (revision {service.keeper.revision})"])
        await show(service, where[0], out)
        await service.signalled.wait()
        if await service.end():
            return None
    out.note(f"{path} has no end line: it has all accepted commands, and the next session continues it")
    return FAILED
