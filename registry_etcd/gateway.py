"""etcd's JSON gateway: what is asked of one member of several, over HTTP."""
from __future__ import annotations

import base64
import contextlib
import http.client
import json
import re
import socket
import ssl
import time
from collections.abc import Iterator, Sequence
from typing import Any, NamedTuple, NoReturn

Message = dict[str, Any]  # an object of JSON, as etcd takes and gives it

FINAL = {3, 7, 9, 11, 12, 16}  # codes of gRPC that another try, or another member, would answer alike
FULL = "database space exceeded"


class Unanswered(Exception):
    """No reply came. What was asked may have been done, may yet be, or never."""


class Fault(Exception):
    """Why a front can't go on."""


class Full(Fault):
    """etcd holds as much as it may, and takes nothing more."""


class Endpoint(NamedTuple):
    is_secure: bool
    host: str
    port: int


PORT = 2379
ADDRESS = re.compile(r"(?:(https?)://)?(?:\[([0-9A-Fa-f:.]+(?:%[\w.-]+)?)\]|([\w.-]+))(?::([0-9]{1,5}))?/?")
LEAST_WAIT = 0.001  # since 0 would mean not to wait at all


def endpoints(text: str, is_secure: bool = False) -> list[Endpoint]:
    """Parted by commas: of http or https, or HOST:PORT as for etcdctl; `ValueError` where one can't be an address."""
    return [endpoint(word.strip(), is_secure) for word in text.split(",")]


def endpoint(word: str, is_secure: bool) -> Endpoint:
    found = ADDRESS.fullmatch(word)
    scheme, in_brackets, name, digits = found.groups(default="") if found else [""] * 4
    host, port = in_brackets or name, int(digits or PORT)
    try:
        is_address = host.encode("idna") and 0 < port < 65_536
    except UnicodeError:
        is_address = False
    if not is_address:
        raise ValueError(f"{word!r} is no address: HOST:PORT, http://HOST:PORT or https://HOST:PORT")
    return Endpoint(scheme == "https" if scheme else is_secure, host, port)


def encoded(data: bytes) -> str:
    return base64.b64encode(data).decode()


@contextlib.contextmanager
def understood() -> Iterator[None]:
    """Tells that an answer has not the form that etcd's documents say."""
    try:
        yield
    except (ValueError, LookupError, TypeError, AttributeError, RecursionError) as wrong:
        raise Fault(f"etcd's answer does not have the form of one: {wrong!r}") from wrong


def tls_context(cacert: str | None, cert: str | None, key: str | None) -> ssl.SSLContext:
    """What a connection of https trusts and shows; the arguments are names of files."""
    with told_of(cacert):
        context = ssl.create_default_context(cafile=cacert)
    if cert:
        with told_of(f"{cert} with {key}" if key else cert):
            context.load_cert_chain(cert, key, password=no_password)
    return context


@contextlib.contextmanager
def told_of(files: str | None) -> Iterator[None]:
    """Tells of which files a fault is: ssl doesn't."""
    try:
        yield
    except (OSError, ValueError) as fault:
        why = fault.strerror if isinstance(fault, OSError) else None
        raise Fault(f"{files}: {why or fault}") from fault


def no_password() -> NoReturn:
    raise ValueError("the key has a password, and a front asks for none")


class InOnePiece(http.client.HTTPConnection):
    """A connection that sends a request's head and its body together."""
    unsent = b""

    def send(self, data: bytes) -> None:  # type: ignore[override]  # it is given bytes alone
        self.unsent += data

    def getresponse(self) -> http.client.HTTPResponse:
        data, self.unsent = self.unsent, b""
        super().send(data)
        return super().getresponse()


class Plain(InOnePiece):
    """A connection of http."""


class Secure(InOnePiece, http.client.HTTPSConnection):
    """A connection of https."""


class Gateway:
    """One connection, to the member that answered last."""

    def __init__(self, members: Sequence[Endpoint], context: ssl.SSLContext | None = None, timeout: float = 3.0,
                 patience: float = 60.0) -> None:
        self.members, self.context, self.timeout, self.patience = members, context, timeout, patience
        self.turn = 0  # which member is asked
        self.connection: Plain | Secure | None = None
        self.silent_since: float | None = None  # when the first was asked of the requests since the last answer

    def another(self) -> Gateway:
        return Gateway(self.members, self.context, self.timeout, self.patience)

    def connect(self) -> Plain | Secure:
        member = self.members[self.turn % len(self.members)]
        if member.is_secure:
            return Secure(member.host, member.port, context=self.context or ssl.create_default_context())
        return Plain(member.host, member.port)

    def leave(self) -> None:
        """Lets the connection go; the next member is asked from now on."""
        if self.connection:
            self.connection.close()
        self.connection, self.turn = None, self.turn + 1

    def wait_until(self, end: float) -> None:
        """Has the connection wait no longer than until then for what comes next."""
        assert self.connection
        self.connection.timeout = max(end - time.monotonic(), LEAST_WAIT)
        if self.connection.sock:
            self.connection.sock.settimeout(self.connection.timeout)

    def count_anew(self) -> None:
        """Has the patience begin with what is asked next, whatever was asked in vain before."""
        self.silent_since = None

    def post(self, path: str, asked: Message, end: float) -> http.client.HTTPResponse:
        try:
            self.connection = self.connection or self.connect()
            self.connection.request("POST", path, json.dumps(asked).encode(), {"Content-Type": "application/json"})
            self.wait_until(end)
            response = self.connection.getresponse()
            if response.status == 200:
                return response
            told = response.read()
        except (OSError, http.client.HTTPException) as lost:
            self.leave()
            raise Unanswered(str(lost)) from lost
        self.leave()
        raise refusal(told)

    def once(self, path: str, asked: Message) -> Message:
        begun = time.monotonic()
        if self.silent_since is None:
            self.silent_since = begun
        try:
            response = self.post(path, asked, min(begun + self.timeout, self.silent_since + self.patience))
            said = json.loads(response.read())
            if not isinstance(said, dict):
                raise ValueError(f"{str(said)[:100]!r} is no answer of etcd")
        except Fault:
            self.silent_since = None
            raise
        except (OSError, http.client.HTTPException, ValueError, RecursionError) as lost:
            self.leave()
            raise Unanswered(str(lost)) from lost
        self.silent_since = None
        return said

    def insist(self, path: str, asked: Message) -> Message:
        """For what may be done twice. What was asked before in vain counts as waiting too."""
        pause = 0.01
        why: Unanswered | None = None
        while True:
            try:
                return self.once(path, asked)
            except Unanswered as lost:
                why = why or lost  # the last try has hardly any time
                assert self.silent_since is not None
                left = self.silent_since + self.patience - time.monotonic()
                if left <= 0:
                    raise Fault(f"no member of etcd answers, for {self.patience:g} seconds now: {why}") from lost
                time.sleep(min(pause, left))
                pause = min(pause * 2, 0.5)

    def stream(self, path: str, asked: Message) -> Iterator[Message]:
        """The results that one member sends, as they come; ends by `Unanswered`."""
        response = self.post(path, asked, time.monotonic() + self.timeout)
        try:
            assert self.connection
            # a silent stream is no lost one, so the system asks whether the other side is there
            self.connection.sock.settimeout(None)
            keep_alive(self.connection.sock)
            for line in iter(response.readline, b""):
                yield json.loads(line)["result"]
        except (OSError, http.client.HTTPException, ValueError, KeyError, TypeError, RecursionError) as lost:
            raise Unanswered(str(lost)) from lost
        finally:
            self.leave()
        raise Unanswered("the stream has ended")

    # ---- room

    @understood()
    def full_members(self) -> list[str]:
        """The members that hold as much as they may. Until their alarms are taken back nothing can be put."""
        alarms = self.insist("/v3/maintenance/alarm", {"action": "GET"}).get("alarms", [])
        return [alarm["memberID"] for alarm in alarms if alarm["alarm"] == "NOSPACE"]

    def demand_room(self) -> None:
        if self.full_members():
            raise Full("etcd holds as much as it may")

    def give_back(self, revision: int) -> None:
        """Gives back the room of what is past, and ends alarms. A member that doesn't answer is passed over."""
        every = self.patient(self.members)
        with contextlib.suppress(Fault):  # it was forgotten before
            every.insist("/v3/kv/compaction", {"revision": revision, "physical": True})
        every.leave()
        for member in self.members:
            one = self.patient([member])
            with contextlib.suppress(Unanswered):
                one.once("/v3/maintenance/defragment", {})
            one.leave()
        for number in self.full_members():
            self.insist("/v3/maintenance/alarm", {"action": "DEACTIVATE", "memberID": number, "alarm": "NOSPACE"})

    def patient(self, members: Sequence[Endpoint]) -> Gateway:
        """Some members, asked over a connection of its own for what takes longer than other answers."""
        return Gateway(members, self.context, self.patience, self.patience)


def keep_alive(connection: socket.socket) -> None:
    """Has a connection end some ten seconds after the other side is out of reach."""
    connection.setsockopt(socket.SOL_SOCKET, socket.SO_KEEPALIVE, 1)
    for name, value in (("TCP_KEEPIDLE", 4), ("TCP_KEEPINTVL", 2), ("TCP_KEEPCNT", 3)):
        if hasattr(socket, name):
            connection.setsockopt(socket.IPPROTO_TCP, getattr(socket, name), value)


def refusal(body: bytes) -> Unanswered | Fault:
    try:
        said = json.loads(body)
        text, code = str(said.get("error")), said.get("code")
    except (ValueError, AttributeError):
        return Unanswered(repr(body[:100]))
    if FULL in text:
        return Full(f"etcd refuses: {text}: `registryd-etcd compact` makes room")
    return Fault(f"etcd refuses: {text}") if code in FINAL else Unanswered(text)
