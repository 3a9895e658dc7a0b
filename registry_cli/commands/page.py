"""`registry page`: shows the journal in a browser of this machine, until a key ends it."""
import sys

from ..page.journal import File, Journal, Service
from ..page.server import Server
from ..session import journal_of, service_of
from ..shapes import Options, Output

SECONDS = 10  # that a search may take


def run(options: Options, out: Output) -> None:
    service = service_of(options)
    source: File | Service = File(journal_of(options))
    if service:
        source = Service(service)
    journal = Journal(source, options.seconds or SECONDS)
    try:
        for it in journal.view.warnings:
            out.note(it)
        with Server(journal, options.port or 0) as server:
            out.give({"address": server.address, "port": server.port}, [server.address])
            if not out.is_json:
                out.note(f"{journal.path} is shown there, to this machine only; Ctrl-C ends it")
            sys.stdout.flush()
            server.serve_forever()
    finally:
        journal.leave()
