"""What is seen of a service from outside: its log, and its counts in the text form of Prometheus."""
import asyncio
import contextlib
import json
import re
import socket
import struct
import sys
from bisect import bisect_left
from collections import Counter, defaultdict
from collections.abc import Iterator, Mapping
from itertools import accumulate, count
from typing import TextIO

from .client import Asked, Client
from .ops import COMMANDS
from .times import now

Family = tuple[str, str]  # a name with labels

SLOW = 1.0  # seconds; what takes longer is logged in any case
BUCKETS = (0.001, 0.003, 0.01, 0.03, 0.1, 0.3, 1.0, 3.0, 10.0, 30.0)  # and one for what takes longer
ERROR = re.compile(rb'\{"error":([0-9]+),"name":"(\w+)"')
ACCEPTED = re.compile(rb'\{"ok":true,"revision":([0-9]+)')
# what a reply is, by how it begins
KINDS = ((b'{"ok"', "accepted"), (b'{"revision"', "selected"), (b'{"refused"', "refused"),
         (b'{"derivation"', "refused"), (b'{"follows"', "checked"), (b'{"packages"', "listed"))
COUNTS = {
    "commands_accepted_total": "Commands that were accepted.",
    "refused_total": "Lines that were refused, by the number of the refusal.",
    "budgets_spent_total": "Requests that met more conflicts than their budget, or took more seconds than they may.",
    "restarts_total": "Programs that ended and were begun again.",
    "clients_cut_off_total": "Clients that were cut off since they did not read.",
    "clients_refused_total": "Clients that came when there were as many as may be.",
    "clients": "Clients that are connected.",
    "lines_waiting": "Lines that have no reply so far.",
    "readers": "Readers that are ready.",
    "keeper_up": "Whether commands can be accepted.",
    "revision": "The commands in the journal.",
    "journal_bytes": "The length of the journal's file.",
    "disk_free_bytes": "The bytes that are free for the journal on its file system.",
    "resident_bytes": "The memory that each process of the service has.",
    "build_info": "1, with the version, and whether the program is proved.",
}
TIMES = {
    "request_seconds": "Seconds from a line to its reply.",
    "commit_seconds": "Seconds from an accepted command to its reply, before which the journal is synced.",
}
MOST_SHOWN = 256  # letters of a value in the log
PLAIN = re.compile(r"[A-Za-z0-9_.+-]{1,256}")  # a value that stands in the log without quotes


def name_of(transport: asyncio.BaseTransport) -> str:
    """Who is at the other end: an address, or the user and process behind a socket in the file system."""
    address = transport.get_extra_info("peername")
    if address:
        return "{}:{}".format(*address)
    peer = transport.get_extra_info("socket").getsockopt(socket.SOL_SOCKET, socket.SO_PEERCRED, struct.calcsize("3i"))
    process, user, _ = struct.unpack("3i", peer)
    return f"user:{user}:process:{process}"


def command_of(line: bytes) -> dict[str, str]:
    try:
        found = json.loads(line)
        return {"package": shown(found["name"]), "version": shown(found["version"])}
    except (ValueError, TypeError, KeyError, RecursionError):
        return {}


def shown(value: str) -> str:
    """What is more than letters and digits stands in quotes, so nobody writes a line of the log."""
    return value if PLAIN.fullmatch(value) else json.dumps(value[:MOST_SHOWN])


class Watch:
    """Counts what happens, and logs it: all where a log is wanted, else on standard error what is slow or wrong."""

    def __init__(self, path: str | None) -> None:
        self.path = path
        self.counts: Counter[Family] = Counter()
        self.sums: dict[Family, float] = defaultdict(float)
        # lines by bucket, for each family of times and its labels
        self.taken: dict[Family, list[int]] = defaultdict(lambda: [0] * (len(BUCKETS) + 1))
        self.connections = count(1)
        self.file = self.opened()

    def opened(self) -> TextIO:
        if self.path is None:
            return sys.stderr
        return sys.stdout if self.path == "-" else open(self.path, "a", encoding="utf-8")

    def reopen(self) -> None:
        """Opens the log anew, since it was moved away; where that can't be, it goes on where it is."""
        before = self.file
        with contextlib.suppress(OSError):
            self.file = self.opened()
            if before is not self.file:
                before.close()

    def note(self, **values: object) -> None:
        with contextlib.suppress(OSError):  # on a full disk the service goes on
            print(now(), *(f"{name}={value}" for name, value in values.items()), file=self.file, flush=True)

    def named(self, transport: asyncio.BaseTransport) -> tuple[str, int]:
        return name_of(transport), next(self.connections)

    def timed(self, seconds: float, family: str, labels: str = "") -> None:
        self.sums[family, labels] += seconds
        self.taken[family, labels][bisect_left(BUCKETS, seconds)] += 1

    def answered(self, asked: Asked, seconds: float) -> None:
        assert asked.reply is not None
        op, error = asked.op or "other", ERROR.match(asked.reply)
        self.timed(seconds, "request_seconds", f'op="{op}"')
        if error:
            self.counts["refused_total", f'number="{int(error[1])}",name="{error[2].decode()}"'] += 1
            self.counts["budgets_spent_total", ""] += error[1] == b"22"
        elif asked.reply.startswith(b'{"ok"'):
            self.counts["commands_accepted_total", ""] += 1
            self.timed(seconds, "commit_seconds")
        if self.path or seconds > SLOW:
            kind = next((kind for begin, kind in KINDS if asked.reply.startswith(begin)), "other")
            accepted = ACCEPTED.match(asked.reply)
            self.note(client=asked.client.name, connection=asked.client.number, op=op,
                      **(command_of(asked.line) if op in COMMANDS else {}),
                      seconds=f"{seconds:.6f}", reply=error[2].decode() if error else kind,
                      **({"revision": int(accepted[1])} if accepted else {}),
                      request_bytes=len(asked.line), reply_bytes=len(asked.reply))

    def restarted(self, which: str, why: str) -> None:
        self.counts["restarts_total", f'program="{which}"'] += 1
        self.note(event="restart", program=which, why=repr(why))

    def turned_away(self) -> None:
        self.counts["clients_refused_total", ""] += 1

    def cut_off(self, client: Client) -> None:
        self.counts["clients_cut_off_total", ""] += 1
        self.note(event="cut-off", client=client.name, why="'it does not read its replies'")

    def text(self, gauges: Mapping[str, int | dict[str, int]]) -> bytes:
        lines = []
        for name, about in COUNTS.items():
            gauge = gauges.get(name, 0)
            counted = {labels: count for (other, labels), count in self.counts.items() if other == name}
            found = counted or (gauge if isinstance(gauge, dict) else {"": gauge})
            kind = "gauge" if name in gauges else "counter"
            lines += [f"# HELP registryd_{name} {about}", f"# TYPE registryd_{name} {kind}"]
            lines += [f"registryd_{name}{labels and '{' + labels + '}'} {int(value)}"
                      for labels, value in sorted(found.items())]
        return "\n".join([*lines, *(line for family in TIMES for line in self.histogram(family)), ""]).encode()

    def histogram(self, family: str) -> Iterator[str]:
        """How long it took, by what was asked where there are such labels."""
        name = f"registryd_{family}"
        yield from (f"# HELP {name} {TIMES[family]}", f"# TYPE {name} histogram")
        found = sorted((labels, taken) for (other, labels), taken in self.taken.items() if other == family)
        for labels, taken in found:
            for bucket, total in zip((*BUCKETS, "+Inf"), accumulate(taken)):
                yield f'{name}_bucket{{{labels}{labels and ","}le="{bucket}"}} {total}'
            within = labels and f"{{{labels}}}"
            yield f"{name}_sum{within} {self.sums[family, labels]:.6f}"
            yield f"{name}_count{within} {total}"
