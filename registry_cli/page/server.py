"""Serves the page to this machine alone. It answers GET and HEAD for a fixed set of addresses, and only who asks for
this host: a page from elsewhere whose name is made to lead here is refused."""
from __future__ import annotations

import json
import os
import sys
from http import HTTPStatus
from http.server import BaseHTTPRequestHandler, ThreadingHTTPServer
from urllib.parse import parse_qs, urlsplit

from ..failures import Failed, Failure, Refused, Unanswered, one_line
from ..shapes import Any, Callable, Query, Value
from .answers import ANSWERS, AtFault, NotThere
from .journal import Journal

HOST = "127.0.0.1"
FILES = os.path.join(os.path.dirname(os.path.abspath(__file__)), "files")
KINDS = {".html": "text/html", ".css": "text/css", ".js": "text/javascript", ".svg": "image/svg+xml"}
STATUSES = {Refused: HTTPStatus.BAD_REQUEST, AtFault: HTTPStatus.BAD_REQUEST, NotThere: HTTPStatus.NOT_FOUND,
            Unanswered: HTTPStatus.SERVICE_UNAVAILABLE}
PATIENCE = 30  # seconds for a request to come
# all that the page loads is from here, and no text becomes HTML or a script
POLICY = ("default-src 'none'; script-src 'self'; style-src 'self'; img-src 'self'; connect-src 'self'; base-uri "
          "'none'; form-action 'none'; frame-ancestors 'none'; require-trusted-types-for 'script'; trusted-types "
          "'none'")
HEADERS = {"Content-Security-Policy": POLICY, "X-Content-Type-Options": "nosniff", "X-Frame-Options": "DENY",
           "Referrer-Policy": "no-referrer", "Cross-Origin-Resource-Policy": "same-origin",
           "Cross-Origin-Opener-Policy": "same-origin", "Cache-Control": "no-store"}


def files() -> dict[str, tuple[bytes, str]]:
    found = {}
    for name in sorted(os.listdir(FILES)):
        kind = KINDS.get(os.path.splitext(name)[1])
        if kind:
            with open(os.path.join(FILES, name), "rb") as file:
                found["/" + name] = file.read(), kind
    found["/"] = found["/page.html"]
    return found


class Handler(BaseHTTPRequestHandler):
    server: Server
    server_version, sys_version, timeout = "registry", "", PATIENCE
    error_message_format, error_content_type = "%(code)d %(message)s\n", "text/plain; charset=utf-8"

    def do_GET(self) -> None:
        refused = self.refused()
        if refused:
            self.send_error(*refused)
            return
        address = urlsplit(self.path)
        answer = ANSWERS.get(address.path.removeprefix("/api/")) if address.path.startswith("/api/") else None
        if answer:
            self.give(*self.answered(answer, address.query))
        elif address.path in self.server.files:
            self.give(HTTPStatus.OK, *self.server.files[address.path])
        else:
            self.send_error(HTTPStatus.NOT_FOUND)

    do_HEAD = do_GET

    def not_allowed(self) -> None:
        self.send_error(HTTPStatus.METHOD_NOT_ALLOWED)

    do_POST = do_PUT = do_PATCH = do_DELETE = do_OPTIONS = do_TRACE = do_CONNECT = not_allowed

    def refused(self) -> tuple[HTTPStatus, str] | None:
        """The status that a request is refused with, and why; none where it is not."""
        hosts = [it.strip().lower() for it in self.headers.get_all("Host", [])]
        if len(hosts) != 1 or hosts[0] not in self.server.hosts or not self.path.startswith("/"):
            return HTTPStatus.MISDIRECTED_REQUEST, "This page is of another host"
        if self.headers.get("Sec-Fetch-Site", "none") not in ("none", "same-origin"):
            return HTTPStatus.FORBIDDEN, "This page answers no other page"
        if self.headers.get("Content-Length", "0") != "0" or "Transfer-Encoding" in self.headers:
            return HTTPStatus.BAD_REQUEST, "A request here has no contents"
        return None

    def answered(self, answer: Callable[[Journal, Query], Value], query: str) -> tuple[HTTPStatus, bytes, str]:
        try:
            value = answer(self.server.journal, parse_qs(query, max_num_fields=100))
            status = HTTPStatus.OK
        except Failure as fault:
            status = STATUSES.get(type(fault), HTTPStatus.INTERNAL_SERVER_ERROR)
            value = {"error": str(fault), "field": getattr(fault, "field", None)}
        except ValueError as fault:  # too many fields, or what the checker of derivations says
            status, value = HTTPStatus.BAD_REQUEST, {"error": str(fault)}
        return status, json.dumps(value, separators=(",", ":")).encode(), "application/json"

    def give(self, status: HTTPStatus, text: bytes, kind: str) -> None:
        self.send_response(status)
        self.send_header("Content-Type", kind + ("" if kind == "image/svg+xml" else "; charset=utf-8"))
        self.send_header("Content-Length", str(len(text)))
        self.end_headers()
        if self.command != "HEAD":
            self.wfile.write(text)

    def end_headers(self) -> None:
        for name, value in HEADERS.items():
            self.send_header(name, value)
        if getattr(self, "command", None) not in ("GET", "HEAD"):
            self.send_header("Allow", "GET, HEAD")
        super().end_headers()

    def log_message(self, *_: object) -> None:
        """Says nothing of requests."""


class Server(ThreadingHTTPServer):
    """The page of a journal, at a port of this machine; one that is free where it is 0."""
    daemon_threads, allow_reuse_address = True, True

    def __init__(self, journal: Journal, port: int) -> None:
        try:
            super().__init__((HOST, port), Handler)
        except OSError as fault:
            reason = f"port {port} can't be taken: {one_line(fault)}"
            raise Failed(f"{reason}; without --port one is picked that is free") from None
        self.journal, self.files, self.port = journal, files(), self.server_address[1]
        names = (HOST, "localhost")
        self.hosts = {f"{it}:{self.port}" for it in names} | (set(names) if self.port == 80 else set())

    @property
    def address(self) -> str:
        return f"http://{HOST}:{self.port}/"

    def handle_error(self, request: Any, client_address: Any) -> None:
        """A browser that leaves before it has its answer is no fault; any other is told."""
        if not isinstance(sys.exc_info()[1], (ConnectionError, TimeoutError)):
            super().handle_error(request, client_address)
