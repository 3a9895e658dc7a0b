"""A row of write-once cells in etcd: the entry at place 1 stands in the first, and place 0 says that there is one.

Two transactions write. `Cells.put` makes cells behind one that is there, where none is; `Snapshots.renew` takes away
those before one that stays. So the cells that stand are always those from one place to the last, without a hole, and a
writer that was held up, however long, can't put anything in front of that or between."""
from __future__ import annotations

import json
from base64 import b64decode
from collections.abc import Iterator, Sequence
from typing import NamedTuple

from registry_cli.check_derivation import COMMANDS, formed
from registry_etcd.gateway import Fault, Gateway, Message, Unanswered, encoded, understood

FORMS = {form["op"]: form for form in COMMANDS}
PAGE = 1024  # cells that one read brings at most
MOST_PLACE = 99_999_999  # a key has eight digits


class Behind(Exception):
    """The cells that come next were dropped: a snapshot stands for them."""


class Entry(NamedTuple):
    """A command as the journal's file writes it, none where nobody can read it, and who put it there."""
    command: bytes | None
    seat: int
    writer: str
    serial: int


class Cell(NamedTuple):
    place: int
    stamp: int | None  # etcd's revision when it was put; of the last one that was read it may be unknown
    entry: Entry | None  # none of the last one that was read, where it does not count any more


def command_line(value: object) -> bytes | None:
    """The line that a journal's file has for a command; none where a JSON value has not the form of one."""
    op = value.get("op") if isinstance(value, dict) else None
    form = FORMS.get(op) if isinstance(op, str) else None
    return compact(value) if form and formed(value, form) else None


def compact(value: object) -> bytes:
    return json.dumps(value, sort_keys=True, separators=(",", ":")).encode()


def entry_bytes(entry: Entry) -> bytes:
    assert entry.command is not None
    command = json.loads(entry.command)
    return compact({"seat": entry.seat, "serial": entry.serial, "writer": entry.writer, "command": command})


def read_entry(data: bytes) -> Entry:
    """What a cell says. One that no front has written says nothing, on each replica alike."""
    try:
        said = json.loads(data.decode())
        command, seat, writer, serial = (said[name] for name in ("command", "seat", "writer", "serial"))
        if formed([seat, serial], [int]) and isinstance(writer, str):
            return Entry(command_line(command), seat, writer, serial)
    except (ValueError, KeyError, TypeError, RecursionError):
        pass
    return Entry(None, 0, "", 0)


class Cells:
    def __init__(self, gateway: Gateway, prefix: str) -> None:
        self.gateway, self.prefix = gateway, prefix

    def elsewhere(self) -> Cells:
        return Cells(self.gateway.another(), self.prefix)

    def key(self, place: int) -> str:
        return encoded(f"{self.prefix}/cells/{place:08}".encode())

    def bounds(self, place: int) -> Message:
        return {"key": self.key(place), "range_end": encoded(f"{self.prefix}/cells0".encode())}

    def page(self, last: Cell) -> Message:
        """The range of a cell and of those behind it, as many as a page has; etcd gives them in order of their keys."""
        return {**self.bounds(last.place), "limit": PAGE + 1}

    def place(self, found: Message) -> tuple[int, int]:
        """The place and the stamp of a cell as etcd tells it."""
        name = b64decode(found["key"]).rsplit(b"/", 1)[1]
        if len(name) != 8 or not name.isdigit():
            raise Fault(f"no cell has the key {name!r}")
        place, stamp = int(name), int(found["mod_revision"])
        if found["version"] != "1":
            raise Fault(f"cell {place} was written twice")
        return place, stamp

    def cell(self, found: Message) -> Cell:
        return Cell(*self.place(found), read_entry(b64decode(found.get("value", ""))))

    @understood()
    def behind(self, last: Cell, told: Message) -> list[Cell]:
        """The cells of a page behind the last one that was read, which has to begin it."""
        first, *more = told.get("kvs") or [None]
        if not first:
            raise Behind
        place, stamp = self.place(first)
        if place != last.place:
            raise Behind
        if last.stamp not in (None, stamp):
            raise Fault(f"cell {place} is another than it was")
        found = [self.cell(one) for one in more]
        for cell in found:
            assert cell.stamp is not None
            if cell.place != place + 1 or cell.stamp < stamp:
                raise Fault(f"cell {cell.place} does not follow on cell {place}")
            place, stamp = cell.place, cell.stamp
        return found

    def pages(self, last: Cell) -> Iterator[list[Cell]]:
        """All that etcd held when this call began, since its reads are linearizable."""
        more = True
        while more:
            told = self.gateway.insist("/v3/kv/range", self.page(last))
            found, more = self.behind(last, told), told.get("more", False)
            yield found
            last = found[-1] if found else last

    @understood()
    def put(self, last: Cell, entries: Sequence[Entry]) -> list[Cell]:
        """Tries it. Answers what stands there: own cells, others', or none, and then it is open what became of it."""
        writes = [{"request_put": {"key": self.key(place), "value": encoded(entry_bytes(entry))}}
                  for place, entry in enumerate(entries, last.place + 1)]
        created: Message = {"target": "CREATE", "create_revision": 0}
        asked = {"compare": [{"key": self.key(last.place), "result": "GREATER", **created},
                             {"key": self.key(last.place + 1), "result": "EQUAL", **created}],
                 "success": writes, "failure": [{"request_range": self.page(last)}]}
        try:
            told = self.gateway.once("/v3/kv/txn", asked)
        except Unanswered:
            return []
        if told.get("succeeded"):
            stamp = int(told["header"]["revision"])
            return [Cell(place, stamp, entry) for place, entry in enumerate(entries, last.place + 1)]
        return self.behind(last, told["responses"][0]["response_range"])

    def watch(self) -> Iterator[list[Cell]]:
        """What is put into cells, as it comes; first of all an empty list, once nothing more is missed."""
        for told in self.gateway.stream("/v3/watch", {"create_request": self.bounds(0)}):
            yield self.news(told)

    @understood()
    def news(self, told: Message) -> list[Cell]:
        if told.get("canceled"):
            raise Unanswered("the watch has ended")
        return [self.cell(event["kv"]) for event in told.get("events", []) if event.get("type", "PUT") == "PUT"]
