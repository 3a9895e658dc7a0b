"""Cells in etcd, over a gateway that answers as told: what is asked of etcd, and what a cell or a row may not be."""
import json
from base64 import b64encode

import pytest

from registry_etcd.cells import Behind, Cell, Cells, Entry, entry_bytes, read_entry
from registry_etcd.gateway import Unanswered

YANK = {"name": "a", "op": "yank", "version": "1.0.0"}
WRITTEN = {"command": YANK, "seat": 1, "serial": 3, "writer": "w"}
ENTRY = Entry(b'{"name":"a","op":"yank","version":"1.0.0"}', 1, "w", 3)
NOTHING = Entry(None, 0, "", 0)


def encoded(text):
    return b64encode(text.encode()).decode()


def row(place, stamp=5, name=None, **more):
    """A cell as etcd tells it."""
    return {"key": encoded(f"p/cells/{place:08}" if name is None else f"p/cells/{name}"),
            "mod_revision": str(stamp), "version": "1", "value": encoded(json.dumps(WRITTEN)), **more}


class Gateway:
    """Gives its answers in turn, and keeps what was asked. An answer that is a fault is raised."""

    def __init__(self, *answers):
        self.answers, self.asked = list(answers), []

    def once(self, path, asked):
        self.asked.append((path, asked))
        answer = self.answers.pop(0)
        if isinstance(answer, Exception):
            raise answer
        return answer

    insist = stream = once


class TestEntries:
    def test_what_a_cell_says(self):
        assert entry_bytes(ENTRY) == json.dumps(WRITTEN, sort_keys=True, separators=(",", ":")).encode()
        assert read_entry(entry_bytes(ENTRY)) == ENTRY
        # who wrote it is known, and what can't be read is no command
        for command in ({"op": ""}, {"op": "list"}, {"op": 1}, {**YANK, "more": 1}, {"name": "a", "op": "yank"},
                        None, "yank", [YANK], {}):
            assert read_entry(json.dumps({**WRITTEN,
                                          "command": command}).encode()) == ENTRY._replace(command=None), command


class TestRows:
    def behind(self, last, *rows):
        return Cells(None, "p").behind(last, {"kvs": list(rows)} if rows else {})

    def test_cells_that_follow(self):
        last = Cell(2, 5, ENTRY)
        assert self.behind(last, row(2)) == []
        for begin in (last, last._replace(stamp=None)):
            assert self.behind(begin, row(2), row(3), row(4, 9)) == [Cell(3, 5, ENTRY), Cell(4, 9, ENTRY)]
        assert self.behind(last, row(2), row(3, value="")) == [Cell(3, 5, NOTHING)]

    def test_cells_that_were_dropped(self):
        for rows in ([], [row(3)], [row(1), row(2)]):
            with pytest.raises(Behind):
                self.behind(Cell(2, 5, ENTRY), *rows)


class TestAsked:
    RANGE = {"key": encoded("p/cells/00000002"), "range_end": encoded("p/cells0"), "limit": 1025}

    def test_pages(self):
        gateway = Gateway({"kvs": [row(2), row(3)], "more": True}, {"kvs": [row(3), row(4)]})
        assert list(Cells(gateway, "p").pages(Cell(2, 5, ENTRY))) == [[Cell(3, 5, ENTRY)], [Cell(4, 5, ENTRY)]]
        then = {**self.RANGE, "key": encoded("p/cells/00000003")}
        assert gateway.asked == [("/v3/kv/range", self.RANGE), ("/v3/kv/range", then)]

    def test_what_is_put(self):
        gateway = Gateway({"succeeded": True, "header": {"revision": "8"}},
                          {"responses": [{"response_range": {"kvs": [row(2), row(3)]}}]}, Unanswered("no"))
        cells, last = Cells(gateway, "p"), Cell(2, 5, ENTRY)
        assert cells.put(last, [ENTRY, ENTRY]) == [Cell(3, 8, ENTRY), Cell(4, 8, ENTRY)]
        assert cells.put(last, [ENTRY]) == [Cell(3, 5, ENTRY)]
        assert cells.put(last, [ENTRY]) == []
        puts = [{"request_put": {"key": encoded(f"p/cells/0000000{place}"),
                                 "value": b64encode(entry_bytes(ENTRY)).decode()}} for place in (3, 4)]
        compared = [{"key": encoded(f"p/cells/{place:08}"), "target": "CREATE", "result": is_so, "create_revision": 0}
                    for place, is_so in ((2, "GREATER"), (3, "EQUAL"))]
        assert gateway.asked[0] == ("/v3/kv/txn", {"compare": compared, "success": puts,
                                                   "failure": [{"request_range": self.RANGE}]})

    def test_what_is_watched(self):
        told = [{}, {"events": [{"kv": row(3)}, {"type": "DELETE", "kv": {"key": encoded("p/cells/00000001")}},
                                {"type": "PUT", "kv": row(4)}]}, {"canceled": True}]
        gateway = Gateway(told)
        seen = Cells(gateway, "p").watch()
        assert [next(seen), next(seen)] == [[], [Cell(3, 5, ENTRY), Cell(4, 5, ENTRY)]]
        with pytest.raises(Unanswered, match="the watch has ended"):
            next(seen)
        assert gateway.asked == [("/v3/watch", {"create_request": {"key": encoded("p/cells/00000000"),
                                                                   "range_end": encoded("p/cells0")}})]
