"""A journal on the page that `registry page` serves, in this process, and short ways to ask it."""
import contextlib
import http.client
import json
import os
import threading
from collections.abc import Iterable
from typing import Any
from unittest import mock
from urllib.parse import urlencode

from registry_cli.page.journal import File, Journal
from registry_cli.page.server import Server
from tests.support.program import PROGRAM, publish, yank
from tests.support.registry_folder import Folder

# by hand: a pre-release, a yanked version, one package that is needed and not published
WORKED = [publish("log", "1.0.0"), publish("log", "1.2.0"), publish("log", "1.10.0"), publish("log", "2.0.0-rc.1"),
          yank("log", "1.10.0"), publish("zlib", "1.0.0"), publish("app", "1.0.0", ["log ^1", "zlib *"]),
          publish("app", "1.1.0", ["log >=1.2.0, <2.0.0", "zlib *"]), publish("web", "0.1.0", ["apps ^1"])]


class Served(Folder):
    """Tests of a page. It is served from `self.serve()` on, to the end of the test."""

    def serve(self, *lines: str, seconds: float = 60) -> Server:
        self.enterContext(mock.patch.dict(os.environ, {"REGISTRY_PROGRAM": PROGRAM}))
        if lines:
            self.hold(*lines)
        self.shown = Journal(File(self.journal), seconds)
        self.addCleanup(self.shown.leave)
        self.server = Server(self.shown, 0)
        self.addCleanup(self.server.server_close)
        thread = threading.Thread(target=self.server.serve_forever, args=(0.05,))
        thread.start()
        self.addCleanup(thread.join)
        self.addCleanup(self.server.shutdown)
        return self.server

    def ask(self, path: str, method: str = "GET", host: Iterable[str] | None = None,
            **headers: str) -> tuple[int, http.client.HTTPMessage, bytes]:
        """The status, the headers and the contents that a request is answered with."""
        with contextlib.closing(http.client.HTTPConnection("127.0.0.1", self.server.port, timeout=60)) as connection:
            connection.putrequest(method, path, skip_host=True)
            for it in [f"127.0.0.1:{self.server.port}"] if host is None else host:
                connection.putheader("Host", it)
            for name, value in headers.items():
                connection.putheader(name.replace("_", "-"), value)
            connection.endheaders()
            reply = connection.getresponse()
            return reply.status, reply.headers, reply.read()

    def told(self, answer: str, status: int = 200, **fields: object) -> Any:
        """The value that the page is answered."""
        found, _, text = self.ask(f"/api/{answer}?{urlencode(fields, doseq=True)}")
        self.assertEqual(found, status, text)
        return json.loads(text)
