"""The page of a service: it shows what the service accepts, is begun again, and ends with the service."""
import json
import os
import re
import signal
from contextlib import closing, suppress
from http.client import HTTPConnection

from tests.support.program import publish
from tests.support.services import Case, wait_for, words_of
from tests.support.time_limit import children


class Pages(Case):
    def shown(self, service):
        """The port of its page, once that is told."""
        found = re.fullmatch(rf"{re.escape(str(service.journal))} is shown at http://127\.0\.0\.1:([0-9]+)/\n",
                             service.running.stdout.readline())
        return int(found[1])

    @staticmethod
    def ask(port, path, method="GET", host=None):
        with closing(HTTPConnection("127.0.0.1", port, timeout=60)) as connection:
            connection.request(method, path, headers={"Host": host} if host else {})
            reply = connection.getresponse()
            text = reply.read()
        return reply.status, json.loads(text) if path.startswith("/api/") and reply.status == 200 else text

    @staticmethod
    def pages(service):
        """The processes of its page."""
        for process in children(service.running.pid):
            with suppress(OSError):
                if b"\0page\0" in words_of(process):
                    yield process

    def test_it_shows_what_is_accepted(self):
        service = self.begin("--page-port", 0)
        port = self.shown(service)
        assert self.ask(port, "/api/status")[1]["revision"] == 0
        with service.client() as client:
            client.ask(publish("log", "1.3.0"), publish("app", "1.0.0", ["log ^1"]))
        wait_for(lambda: self.ask(port, "/api/status")[1]["revision"] == 2)
        assert [it["name"] for it in self.ask(port, "/api/search")[1]["packages"]] == ["app", "log"]
        assert [it["name"] for it in self.ask(port, "/api/resolve?need=app")[1]["selected"]] == ["app", "log"]
        # it reads alone, and answers no other host
        assert self.ask(port, "/api/status", "POST")[0] == 405
        assert self.ask(port, "/api/status", host="evil.example")[0] == 421
        assert b'src="/page.js"' in self.ask(port, "/")[1]
        # begun again, it is where it was
        [page] = self.pages(service)
        os.kill(page, signal.SIGKILL)
        wait_for(lambda: self.answers(port))
        with service.client() as client:
            assert client.ask(publish("web", "1.0.0")) == [{"ok": True, "revision": 3}]
        assert 'registryd_restarts_total{program="page"} 1\n' in service.get("/metrics")[1]
        [page] = self.pages(service)
        status, said = service.end()
        assert status == 0
        assert re.search(r"event=restart program=page why='the page ended with status -9'\n", said)
        wait_for(lambda: not os.path.exists(f"/proc/{page}") or b"page" not in words_of(page))

    def answers(self, port):
        try:
            return self.ask(port, "/api/status")[0] == 200
        except OSError:
            return False

    def test_it_ends_with_a_service_that_is_killed(self):
        service = self.begin("--page-port", 0)
        self.shown(service)
        [page] = self.pages(service)
        service.running.kill()
        service.wait()
        wait_for(lambda: not os.path.exists(f"/proc/{page}") or not words_of(page))

    def test_a_signal_while_it_begins(self):
        service = self.begin("--page-port", 0)
        status, said = service.end()
        assert (status, said) == (0, "")
