"""A connection of a service, over stand-ins of its ends: the order of lines and replies, and what it may take."""
import json
import random
from pathlib import Path
from types import SimpleNamespace
from unittest import mock

from registry_service import client, ops
from tests.support.made_lines import Maker
from tests.support.program import LIST, TOP, publish, resolve, yank

ROWS = json.loads(Path(TOP, "tests/support/data/service_rows.json").read_text(encoding="ascii"))
A1 = publish("a", "1.0.0").encode()
ASK = resolve("a *").encode()
BAD = b'{"error":19,"name":"BadLine","revision":4}\n'


class Transport:
    """The other end of a connection, as far as a client is concerned with it."""

    def __init__(self):
        self.written, self.unread, self.protocol = b"", 0, None
        self.is_closed = self.is_paused = self.was_cut = False

    def get_extra_info(self, name):
        return ("127.0.0.1", 7) if name == "peername" else None

    def write(self, data):
        self.written += data

    def close(self):
        self.is_closed = True

    def abort(self):
        self.was_cut = self.is_closed = True

    def is_closing(self):
        return self.is_closed

    def get_write_buffer_size(self):
        return self.unread

    def pause_reading(self):
        self.is_paused = True

    def resume_reading(self):
        self.is_paused = False

    def set_protocol(self, protocol):
        self.protocol = protocol


class Service:
    """What a client asks is kept, and answered by the test."""

    def __init__(self):
        self.asked, self.soon, self.later, self.cut, self.takes = [], [], [], [], True
        self.clients, self.pages = set(), set()
        self.keeper, self.time = SimpleNamespace(revision=4, is_up=True), 0.0
        self.loop = SimpleNamespace(call_soon=self.soon.append, call_later=self.call_later)
        self.watch = SimpleNamespace(answered=lambda asked, seconds: None, cut_off=self.cut.append,
                                     named=lambda transport: (transport.get_extra_info("peername"), 1))

    def call_later(self, *call):
        self.later.append(call)
        return SimpleNamespace(cancel=lambda: self.later.remove(call))

    def now(self):
        return self.time

    def takes_in(self, it, kind):
        assert kind is self.clients
        kind |= {it} if self.takes else set()
        return self.takes

    def ask(self, asked):
        self.asked.append(asked)

    def answer(self, *replies):
        """Answers what was asked, one after the other, and does what is due."""
        for reply in replies:
            self.asked.pop(0).answer(reply)
            while self.soon:
                self.soon.pop(0)()


class TestClients:
    def setup_method(self):
        self.service, self.transport = Service(), Transport()
        self.client = client.Client(self.service)
        self.client.connection_made(self.transport)

    def lines(self):
        return [it.line for it in self.service.asked]

    def test_what_a_line_asks(self):
        known = (ASK, "resolve"), (A1, "publish"), (LIST.encode(), "list"), (yank("a", "1.0.0").encode(), "yank")
        rows = ((line.encode("latin-1"), wanted) for line, wanted in ROWS["ops"])
        for line, wanted in (*known, *rows, (b"[" * 100_000, "")):
            assert ops.op_of(line) == wanted, line[:20]

    def test_what_a_long_line_asks(self):
        long = b"[" + b"[]," * 1_000 + b"0]"
        # what seems to name it more than once is no line that is asked
        for line, wanted in ROWS["long ops"]:
            assert ops.op_of(line.encode() % long) == wanted, line
        for line in (b'{"op":"list","x":%s,"op":"yank"}' % long, LIST.encode()):
            self.client.data_received(line + b"\n")
        assert [(it.line, it.op) for it in self.service.asked] == [(b"", "")]
        self.service.answer(b"x")
        assert [(it.line, it.op) for it in self.service.asked] == [(LIST.encode(), "list")]

    def test_a_long_line_asks_what_its_json_says(self):
        maker, judged = Maker(random.Random(5)), 0
        with mock.patch.object(ops, "LONG", 1 << 30):
            for _ in range(5_000):
                line = maker.line(maker.value()).replace(b"\n", b" ")
                op, found = ops.op_of(line), ops.op_of_long(line)
                judged += op == found != ""
                assert not op or found in (op, None), line
        assert judged > 1_000

    def test_a_long_line_is_not_read_as_json(self):
        """It would hold up all clients. What waits is looked at once."""
        line = b'{"op":"list","x":[' + b"[]," * 349_000 + b"0]}"
        with mock.patch.object(ops.json, "loads", side_effect=json.loads) as loads, \
                mock.patch.object(ops, "op_of_long", side_effect=ops.op_of_long) as looked:
            self.client.data_received(A1 + b"\n" + line + b"\n" + line + b"\n")
            for _ in range(3):
                self.client.go_on()
            assert self.lines() == [A1]
            self.service.answer(b"x")
            assert self.lines() == [line]
            self.service.answer(b"x")
        assert self.lines() == [line]
        assert max(len(call.args[0]) for call in loads.call_args_list) <= ops.LONG
        assert looked.call_count == 2

    def test_at_most_64_commands_are_under_way(self):
        self.client.data_received((A1 + b"\n") * 70)
        assert (len(self.service.asked), len(self.client.lines), self.transport.is_paused) == (64, 6, True)
        self.service.answer(b"x")
        assert (len(self.service.asked), len(self.client.lines)) == (64, 5)
        self.service.answer(*[b"x"] * 5)
        assert (len(self.service.asked), len(self.client.lines), self.transport.is_paused) == (64, 0, False)

    def test_while_a_request_is_under_way_no_more_is_read_than_came(self):
        self.client.data_received((ASK + b"\n") * 70)
        assert (len(self.service.asked), len(self.client.lines), self.transport.is_paused) == (1, 69, True)
        self.service.answer(*[b"x"] * 69)
        assert (len(self.service.asked), len(self.client.lines), self.transport.is_paused) == (1, 0, False)

    def test_replies_that_are_more_than_may_wait(self):
        for unread, is_cut in ((64 << 20, False), ((64 << 20) + 1, True)):
            self.setup_method()
            self.client.data_received(ASK + b"\n")
            self.transport.unread = unread
            self.service.answer(b"x")
            assert self.transport.was_cut == is_cut

    def test_what_begins_no_object_is_closed(self):
        for pieces in ((b"\x16",), (b" \t\r\n", b"\x16"), (b"\xef\xbb\xbf" + A1 + b"\n",),
                       (b"GET /", b" \n" + A1 + b"\n"), (b"G" * 65_537,), (b"get / HTTP/1.1\n",),
                       (b"\n\nGET / HTTP/1.1\r\n",), (b" \t{",), (b"\r\n", b" \n\n", b" {"), (b"G" * 65_536,)):
            self.setup_method()
            for it in pieces:
                if not self.transport.is_closed:
                    self.client.data_received(it)
            is_open = pieces[-1].strip() in (b"{", b"G" * 65_536)
            assert (self.transport.is_closed, self.transport.written) == ((False, b"") if is_open
                                                                          else (True, BAD)), pieces
