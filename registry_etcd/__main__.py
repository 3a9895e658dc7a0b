"""The program for several machines: the journal stands in etcd, and each machine has a front with a replica of its own.

    registryd-etcd found   --endpoints URL,.. [--journal FILE] founds a journal, empty or with that of a file
    registryd-etcd serve   --endpoints URL,.. --seat N         reads request lines and writes reply lines
    registryd-etcd journal --endpoints URL,..                  prints the journal's file
    registryd-etcd compact --endpoints URL,..                  keeps a snapshot, and drops the cells before it

docs/SCALE.md tells how to begin, and what is promised."""
import argparse
import contextlib
import os
import sys
from collections.abc import Callable
from io import BufferedReader
from typing import NoReturn, cast

from registry_cli import tied
from registry_cli.limits import MOST_WORKERS
from registry_cli.output import visible
from registry_etcd.cells import MOST_PLACE, Cells
from registry_etcd.front import Front
from registry_etcd.gateway import Fault, Gateway, endpoints, tls_context
from registry_etcd.replica import Replica
from registry_etcd.snapshot import Snapshots, journal_text, load, read, read_journal, save, try_to_save

PROGRAM = os.path.join(os.path.dirname(os.path.dirname(os.path.realpath(__file__))), "registryd")
MOST_SEAT = 2 ** 32 - 1  # an entry has no higher number
MOST_SECONDS = 10 ** 9


class Words(argparse.ArgumentParser):
    def error(self, message: str) -> NoReturn:
        self.exit(2, f"registryd-etcd: {visible(message)}: see registryd-etcd --help\n")


def number(least: int, most: int) -> Callable[[str], int]:
    def read(word: str) -> int:
        if not (word.isascii() and word.isdigit()) or not least <= int(word[:20]) <= most:
            raise argparse.ArgumentTypeError(f"'{word}' is no whole number from {least} to {most}")
        return int(word)
    return read


def seconds(word: str) -> float:
    try:
        found = float(word)
    except ValueError:
        found = 0.0
    if not 0 < found <= MOST_SECONDS:
        raise argparse.ArgumentTypeError(f"'{word}' is no number of seconds above 0")
    return found


def name(word: str) -> str:
    if not word or not word.isprintable():
        raise argparse.ArgumentTypeError(f"{word!r} is no name")
    return word


def reader_of_words() -> Words:
    asked = Words(prog="registryd-etcd", description=__doc__, formatter_class=argparse.RawDescriptionHelpFormatter,
                  allow_abbrev=False)
    asked.add_argument("what", choices=("found", "serve", "journal", "compact"))
    asked.add_argument("--endpoints", default="127.0.0.1:2379",
                       help="the members' addresses for clients, HOST:PORT or URL, with commas between them")
    asked.add_argument("--prefix", type=name, default="registry", help="what the journal's keys begin with")
    asked.add_argument("--cacert", help="file with the certificates that the members' are trusted by")
    asked.add_argument("--cert", help="file with the certificate that is shown to members")
    asked.add_argument("--key", help="file with its key")
    asked.add_argument("--timeout", type=seconds, default=3.0, help="seconds until another member is asked")
    asked.add_argument("--patience", type=seconds, default=60.0,
                       help="seconds without any answer after which a front ends")
    asked.add_argument("--program", default=PROGRAM, help="the program that each replica runs")
    asked.add_argument("--workers", type=number(1, MOST_WORKERS), default=1,
                       help="how many threads of the replica resolve")
    asked.add_argument("--seat", type=number(1, MOST_SEAT), default=1,
                       help="the front's number, which stands in each reply")
    asked.add_argument("--writer", type=name,
                       help="a name that no other front has: begun again with the same lines, it enters none twice")
    asked.add_argument("--journal", metavar="FILE",
                       help="found: begin with the journal that a session kept in a file, however that session ended")
    asked.add_argument("--load", metavar="FILE", help="begin with what --save wrote; found: with a journal's file")
    asked.add_argument("--save", metavar="FILE", help="write the journal there in the end, and its place beside it")
    asked.add_argument("--stale", action="store_true",
                       help="answer what changes nothing at once, from what the watch brought")
    asked.add_argument("--newest", action="store_true", help="has no effect: each selection is the newest")
    asked.add_argument("--compact-every", type=number(0, MOST_PLACE), default=4096, metavar="N",
                       help="entries between snapshots; 0: none")
    asked.add_argument("--keep", type=number(0, MOST_PLACE), default=1024, metavar="N",
                       help="cells that stay before a snapshot")
    return asked


def read_words() -> argparse.Namespace:
    reader = reader_of_words()
    asked = reader.parse_args()
    if asked.journal and (asked.load or asked.what != "found"):
        reader.error("--journal is for found alone, and without --load: what a front was told stands in etcd, "
                     "and a front keeps no file of it")
    if asked.key and not asked.cert:
        reader.error("--key goes with --cert")
    try:
        asked.endpoints = endpoints(asked.endpoints, is_secure=bool(asked.cacert or asked.cert))
    except ValueError as wrong:
        reader.error(f"argument --endpoints: {wrong}")
    return asked


def found(asked: argparse.Namespace, cells: Cells) -> None:
    accepted: list[bytes] = []
    if asked.journal:
        # the program brings it to its last whole line, unless a session still has it
        Replica.kept(asked.program, asked.journal)
    if asked.load or asked.journal:
        accepted = read_journal(read(asked.journal or asked.load))
        Replica(asked.program, 1, journal_text(accepted)).end()  # the program tells the line where it is no journal
    Snapshots(cells).found(accepted)


def serve(asked: argparse.Namespace, cells: Cells) -> None:
    if asked.what == "serve" and not sys.stdin or asked.what in ("serve", "journal") and not sys.stdout:
        raise Fault("its standard input and output have to be open")
    front = Front(cells, asked.program, asked.seat, asked.workers, asked.writer, asked.stale, asked.compact_every,
                  asked.keep)
    if asked.save:
        try_to_save(asked.save)
    if asked.what == "serve":
        # a search for which nobody waits any more is of no use
        tied.when_unread(sys.stdout, lambda: os._exit(1))
    try:
        front.begin(load(asked.load) if asked.load else front.snapshots.read())
        if asked.what == "serve":
            front.serve(cast("BufferedReader", sys.stdin.buffer), sys.stdout.buffer)
        elif asked.what == "journal":
            sys.stdout.buffer.write(front.stands.text())
            sys.stdout.buffer.flush()
        else:
            front.snapshots.compact(front.stands, asked.keep)
        if asked.save:
            save(asked.save, front.stands)
    finally:
        if front.replica:
            front.replica.end()


def main() -> int:
    try:
        asked = read_words()
        context = tls_context(asked.cacert, asked.cert, asked.key) if asked.cacert or asked.cert else None
        gateway = Gateway(asked.endpoints, context, asked.timeout, asked.patience)
        (found if asked.what == "found" else serve)(asked, Cells(gateway, asked.prefix))
    except (BrokenPipeError, KeyboardInterrupt):
        return 1  # whoever has gone is told nothing
    except Fault as fault:
        return failed(str(fault))
    except OSError as fault:
        return failed(f"{fault.filename or 'the system'}: {fault.strerror or fault}")
    return 0


def failed(why: str) -> int:
    with contextlib.suppress(OSError, AttributeError):
        sys.stderr.write(f"registryd-etcd: {visible(' '.join(why.split()))}\n")
        sys.stderr.flush()
    return 1


if __name__ == "__main__":
    # a thread may still wait for a line, and isn't waited for
    os._exit(main())
