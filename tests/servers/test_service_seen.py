"""What is seen of a service from outside, in one process: what it answers over HTTP, and its log."""
import asyncio
import json
import os
import re
import tempfile
import unittest
from pathlib import Path
from types import SimpleNamespace
from unittest import mock

from registry_cli.failures import Failed
from registry_service import http, times, watching
from tests.program.test_journals import CHAIN, journal
from tests.support.program import LIST, TOP

ROWS = json.loads(Path(TOP, "tests/support/data/service_rows.json").read_text(encoding="ascii"))


class Http(unittest.TestCase):
    def setUp(self):
        self.folder = self.enterContext(tempfile.TemporaryDirectory())
        self.path = os.path.join(self.folder, "journals", "journal")
        os.mkdir(os.path.dirname(self.path))
        Path(self.path).write_bytes(journal([*CHAIN[:2], CHAIN[2]])[:-6])
        clients = [SimpleNamespace(asked=[1, 2], lines=[3]), SimpleNamespace(asked=[], lines=[])]
        keeper = SimpleNamespace(role="keeper", child=self.child(os.getppid()), is_up=True, revision=3,
                                 disk=SimpleNamespace(fault=""))
        readers = [SimpleNamespace(role="reader", child=self.child(2 ** 22 + 1)), SimpleNamespace(child=None)]
        self.service = SimpleNamespace(
            path=self.path, is_stopping=False, clients=clients, pages=set(), guests=set(),
            takes_in=lambda place, kind: kind.add(place) or True, copying=asyncio.Semaphore(4), keeper=keeper,
            readers=SimpleNamespace(readers=readers, ready=lambda: 2, are_late=lambda: False),
            watch=watching.Watch(None), times=times.Times(SimpleNamespace(followers=[])))

    @staticmethod
    def child(process):
        return SimpleNamespace(process=SimpleNamespace(pid=process))

    def answer(self, head, address=("127.0.0.1", 1), is_guest=False):
        async def asked():
            self.service.loop = asyncio.get_running_loop()
            self.service.build = self.service.loop.create_future()
            self.service.build.set_result('version="1.2.3",commit="c0ffee",proved="yes"')
            return await http.answer(self.service, head, address, is_guest)
        status, _, text = asyncio.run(asked())
        pieces = [text] if isinstance(text, bytes) else list(text)
        assert len(text) == sum(map(len, pieces))
        return status, b"".join(pieces).decode()

    def get(self, target, **more):
        return self.answer(f"GET {target} HTTP/1.1\r\nHost: localhost\r\n\r\n".encode(), **more)

    def test_what_is_refused(self):
        long = "GET /journal?revision=%s HTTP/1.0\r\n\r\n" % ("9" * 5_000)
        for head, status in [*ROWS["heads"], (long, "400")]:
            assert self.answer(head.encode())[0][:3] == status, head
        for host, status in ROWS["hosts"]:
            head = f"GET /health HTTP/1.1\r\nAccept: x\r\nhOsT: {host}\r\n\r\n".encode()
            assert (self.answer(head)[0][:3], self.answer(head, address=None)[0][:3]) == (status, "200"), host

    def test_a_request_over_a_port_names_its_host_once(self):
        for version, heads, status in ROWS["host lines"]:
            head = f"GET /health HTTP/1.{version}\r\n{heads}Accept: x\r\n\r\n".encode()
            assert (self.answer(head)[0][:3], self.answer(head, address="")[0][:3]) == (status, "200"), head

    def test_health(self):
        readers, keeper = self.service.readers, self.service.keeper
        again = "the program that keeps the journal is being begun again: commands wait"
        for of, name, value, said in (
                (keeper, "is_up", True, "ok"), (readers, "are_late", lambda: True, "no reader is free: requests wait"),
                (readers, "ready", lambda: 0, "no reader is ready: requests wait"), (keeper, "is_up", False, again),
                (keeper.disk, "fault", "the disk is full", "the disk is full"),
                (self.service, "is_stopping", True, "stopping")):
            setattr(of, name, value)
            assert self.get("/health") == ("200 OK" if said == "ok" else "503 Service Unavailable", f"{said}\n")

    def test_times(self):
        """Those of what a program finds as it begins are not known."""
        keeper = SimpleNamespace(followers=[], is_up=False, revision=1)
        made = times.Times(keeper)
        keeper.followers[0](b"line")
        keeper.is_up, keeper.revision = True, 2
        with mock.patch.object(times, "now", return_value="then"):
            keeper.followers[0](b"line")
        assert made.known == {2: "then"}
        assert re.search(r"\A20\d\d-\d\d-\d\dT\d\d:\d\d:\d\d\.\d{3}Z\Z", times.now())

    def test_what_the_program_says_of_itself(self):
        for said, wanted in (("registryd 0.3.0, commit c0ffee1\nThe program is " "proved: all.",
                              ("0.3.0", "c0ffee1", "yes")),
                             ("registryd 0.3.0-rc.1+b, commit c0ffee1\nThe program is compiled "
                              "from its sources. It is not proved.", ("0.3.0-rc.1+b", "c0ffee1", "no")),
                             ("what else", ("unknown", "unknown", "unknown"))):
            with mock.patch.object(http, "version", return_value=said):
                assert http.build() == 'version="{}",commit="{}",proved="{}"'.format(*wanted)
        for fault in (Failed("no"), OSError("no")):
            with mock.patch.object(http, "version", side_effect=fault):
                assert http.build() == 'version="unknown",commit="unknown",proved="unknown"'

    def test_how_long_a_request_is_waited_for(self):
        async def told(given):
            reader, writer = asyncio.StreamReader(), mock.Mock(drain=mock.AsyncMock(), wait_closed=mock.AsyncMock())
            self.service.loop = asyncio.get_running_loop()
            writer.get_extra_info.return_value = ("127.0.0.1", 1)
            reader.feed_data(given)
            await http.tell(self.service, reader, writer)
            return b"".join(call.args[0] for call in writer.write.call_args_list)
        # a head that is too long is answered as it is, and one that does not come is not waited for
        with mock.patch.object(http, "MOST_HEAD", 20):
            assert b"HTTP/1.1 200 OK" in asyncio.run(told(b"GET /health HTTP/1.0\r\nx"))
        with mock.patch.object(http, "PATIENCE", 0.01):
            assert asyncio.run(told(b"GET /health HTTP/1.0\r\n")) == b""
        # where there is no room it is answered too, and nothing else is
        self.service.takes_in = lambda place, kind: False
        with mock.patch.object(http, "HEARING", 0.01):
            for given in (b"GET /hea", LIST.encode() + b"\n", b"\n"):
                assert asyncio.run(told(given)) == b'{"error":503,"name":"TooManyClients","revision":3}\n'
        assert b"HTTP/1.1 200 OK" in asyncio.run(told(b"GET /health HTTP/1.0\r\n\r\n"))


class TestWatched:
    def asked(self, op, reply, line=b"line"):
        return SimpleNamespace(op=op, reply=reply, line=line, client=SimpleNamespace(name="me", number=7))

    def test_the_log(self):
        with tempfile.TemporaryDirectory() as folder:
            path = os.path.join(folder, "log")
            watch = watching.Watch(path)
            for reply, kind in ROWS["replies"]:
                watch.answered(self.asked("list", reply.encode()), 0.25)
                line = Path(path).read_text(encoding="utf-8").splitlines()[-1]
                accepted = " revision=12" if kind == "accepted" else ""
                assert re.search(rf"\A\d{{4}}-\d\d-\d\dT\d\d:\d\d:\d\d\.\d{{3}}Z client=me "
                                 rf"connection=7 op=list seconds=0\.250000 reply={kind}{accepted} "
                                 rf"request_bytes=4 reply_bytes={len(reply)}\Z", line)
            # of a command it names what that is of; nobody writes a line of the log, or a field of it
            long = '{"op":"publish","name":"%s","version":"1"}' % ("a" * 999)
            for op, line, said in [*ROWS["logged"], ("publish", "[" * 9_999, "publish"),
                                   ("publish", long, f'publish package="{"a" * 256}" version=1')]:
                watch.answered(self.asked(op, b'{"ok":true}', line.encode("latin-1")), 0.25)
                line = Path(path).read_text(encoding="utf-8").splitlines()[-1]
                assert f" client=me connection=7 op={said} seconds=0.250000 reply=accepted request_bytes=" in line
            os.rename(path, path + ".1")
            watch.reopen()
            watch.restarted("reader", "it's gone")
            watch.cut_off(SimpleNamespace(name="me"))
            first, second = (line.partition(" ")[2] for line in Path(path).read_text(encoding="utf-8").splitlines())
            assert first == 'event=restart program=reader why="it\'s gone"'
            assert second == "event=cut-off client=me why='it does not read its replies'"
            lines = watch.text({}).decode().splitlines()
            assert 'registryd_restarts_total{program="reader"} 1' in lines
            assert "registryd_clients_cut_off_total 1" in lines
            # where it can't be opened anew it goes on where it is
            before, watch.path = watch.file, os.path.join(folder, "none", "log")
            watch.reopen()
            assert watch.file is before
            assert not before.closed
            before.close()
