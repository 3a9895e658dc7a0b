"""Copies of a service's journal are told over HTTP in pieces, and never stop it from telling how it is.
`tests/transcripts/watching.t` has what places such connections take."""
import os
from concurrent.futures import ThreadPoolExecutor
from pathlib import Path

from tests.program.test_journals import journal
from tests.support.program import publish
from tests.support.services import Case, Client, wait_for

COMMANDS = 2_000
MORE = 12 << 20  # bytes of memory that a service may take for copies of its journal, which would be 36 million


class Copies(Case):
    """Over a journal of some megabytes."""

    def setUp(self):
        super().setUp()
        names = [f"{'d' * 60}{number} *" for number in range(16)]
        self.lines = [publish("log", f"1.{minor}.0", names) for minor in range(COMMANDS)]
        Path(self.folder, "team.journal").write_bytes(journal(self.lines))

    @staticmethod
    def memory(service):
        return int(Path(f"/proc/{service.running.pid}/statm").read_text().split()[1]) * os.sysconf("SC_PAGE_SIZE")

    def test_a_copy_is_told_in_pieces_and_only_as_it_is_read(self):
        service = self.begin()
        assert service.get("/journal") == (200, journal(self.lines).decode())
        before = self.memory(service)
        asked = [self.enterContext(service.client()) for _ in range(16)]
        for it in asked:
            it.socket.sendall(b"GET /journal HTTP/1.0\r\n\r\n")
        # some of them are told, and all others wait
        wait_for(lambda: sum(self.has_come(it) for it in asked) >= 4)
        with service.client() as client:
            for minor in range(20):
                assert client.ask(publish("log", f"2.{minor}.0")) == [{"ok": True, "revision": COMMANDS + minor + 1}]
        assert service.get("/health") == (200, "ok\n")
        assert self.memory(service) - before < MORE
        # once they read, each has a whole one
        with ThreadPoolExecutor(len(asked)) as pool:
            list(pool.map(Client.rest, asked))
        whole = journal(self.lines).splitlines()[:-1]
        for it in asked:
            head, _, text = it.read.partition(b"\r\n\r\n")
            assert b"\r\nContent-Length: %d\r\n" % len(text) in head
            lines = text.splitlines()
            assert len(lines) - 2 in range(COMMANDS, COMMANDS + 21)
            assert (lines[:COMMANDS + 1], lines[-1]) == (whole, b"end %d" % (len(lines) - 2))
        assert self.memory(service) - before < MORE
        self.ends_well(service)

    @staticmethod
    def has_come(client):
        client.socket.setblocking(False)
        try:
            client.read += client.socket.recv(1) if not client.read else b""
        except BlockingIOError:
            pass
        finally:
            client.socket.settimeout(60)
        return bool(client.read)
