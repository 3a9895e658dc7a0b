"""The gateway to etcd without one: addresses and certificates, what is sent and read over pairs of sockets, which
refusals are final, how long is insisted, and which member is asked next. Codes are those of gRPC's page "Status codes
and their use in gRPC"."""
import io
import json
import socket
import ssl
from types import SimpleNamespace
from unittest import mock

import pytest

from registry_etcd import gateway
from registry_etcd.gateway import Endpoint, Fault, Full, Gateway, Plain, Secure, Unanswered, endpoints, refusal

MEMBERS = [Endpoint(False, "one", 1), Endpoint(True, "two", 2)]
OK = b"HTTP/1.1 200 OK\r\nContent-Length: %d\r\n\r\n%b"
# That another member, or a later try, may answer: a deadline, no resources, aborted, internal, unavailable.
PASSING = (1, 2, 4, 5, 6, 8, 10, 13, 14, 15)
# An invalid argument, no permission, a failed precondition, out of range, unimplemented, unauthenticated.
FINAL = (3, 7, 9, 11, 12, 16)


# ---- addresses and certificates


@pytest.mark.parametrize("text, wanted", [  # 2379 is the port of etcd's clients
    ("one", (False, "one", 2379)), ("one:1", (False, "one", 1)), ("http://one", (False, "one", 2379)),
    ("https://one:65535/", (True, "one", 65_535)), ("10.0.0.1:2", (False, "10.0.0.1", 2)),
    ("[::1]:7", (False, "::1", 7)),
    ("https://[fe80::1%25]", (True, "fe80::1%25", 2379)), ("a-b.example.", (False, "a-b.example.", 2379))])
def test_an_address(text, wanted):
    assert endpoints(text) == [wanted]


def test_several_addresses():
    wanted = [(True, "one", 2379), (False, "two", 5), (True, "three", 2379)]
    assert endpoints("one, http://two:5 ,https://three", True) == wanted


@pytest.mark.parametrize("word", ["", "one:", "one:0", "one:65536", "one:123456", "one two", "ftp://one",
                                  "http://", "one/path", "[one]", "::1", "a..b", "a" * 64, "one:1x",
                                  "one:\u0661", "me@a:1", "[::1", "a\nb"])
def test_what_is_no_address(word):
    with pytest.raises(ValueError) as told:
        endpoints(f"two,{word}")
    assert str(told.value) == f"{word!r} is no address: HOST:PORT, http://HOST:PORT or https://HOST:PORT"


def test_how_bytes_go_out():
    # the first examples of RFC 4648
    assert [gateway.encoded(it) for it in (b"", b"f", b"fo", b"foo", b"\xff")] == ["", "Zg==", "Zm8=", "Zm9v", "/w=="]


@pytest.mark.parametrize("given, at, fault, told", [
    (("ca", None, None), "made", FileNotFoundError(2, "No such file or directory"), "ca: No such file or directory"),
    (("ca", "cert", "key"), "load", FileNotFoundError(2, "No such file or directory"), "cert with key: No such file"),
    (("ca", "cert", None), "load", ssl.SSLError("bad"), r"cert: .*bad"),
    ((None, "cert", "key"), "load", lambda *_,
     password: password(), "cert with key: the key has a password, and a front as")])
def test_certificates(given, at, fault, told):
    with mock.patch.object(ssl, "create_default_context") as made:
        assert gateway.tls_context(*given) is made.return_value
        made.assert_called_once_with(cafile=given[0])
        loaded = [mock.call(*given[1:], password=gateway.no_password)] if given[1] else []
        assert made.return_value.load_cert_chain.mock_calls == loaded
        (made.return_value.load_cert_chain if at == "load" else made).side_effect = fault
        with pytest.raises(Fault, match=rf"\A{told}"):
            gateway.tls_context(*given)


# ---- one request


@pytest.fixture
def member():
    """Makes a gateway whose connection is there, with what the member will have answered."""
    held = []

    def made_gateway(said=b"", is_open=True, **more):
        ours, theirs = socket.socketpair()
        made = Gateway(MEMBERS, **more)
        made.connection = Plain("one", 1)
        made.connection.sock, made.theirs = ours, theirs
        theirs.sendall(said)
        if not is_open:
            theirs.shutdown(socket.SHUT_WR)
        held.extend([ours, theirs])
        return made
    yield made_gateway
    for it in held:
        it.close()


def test_a_request_goes_out_in_one_piece(member, monkeypatch):
    sent, made = [], member(OK % (8, b'{"a":[]}'))
    monkeypatch.setattr(gateway.http.client.HTTPConnection, "send",
                        lambda connection, data: (sent.append(data), connection.sock.sendall(data)))
    assert made.once("/v3/kv/range", {"key": "YQ=="}) == {"a": []}
    (data,) = sent
    head, _, body = data.partition(b"\r\n\r\n")
    assert (head.split(b"\r\n")[0], body) == (b"POST /v3/kv/range HTTP/1.1", b'{"key": "YQ=="}')
    assert b"Content-Type: application/json" in head.split(b"\r\n")
    assert (made.theirs.recv(10_000), made.connection.unsent, made.turn, made.silent_since) == (data, b"", 0, None)


def test_which_connections_are_made(monkeypatch):
    made = Gateway(MEMBERS, "context")
    assert (made.timeout, made.patience) == (3, 60)  # as docs/SCALE.md has them
    monkeypatch.setattr(ssl, "create_default_context", lambda: "default")
    with mock.patch.object(gateway, "Secure") as secure:
        asked = []
        for made.context in ("context", "context", "context", None):
            asked.append(made.connect())
            made.leave()
    # the next one is asked once one is left
    assert [type(it) for it in asked[::2]] == [Plain, Plain] and asked[0].host == "one"
    assert secure.mock_calls == [mock.call("two", 2, context="context"), mock.call("two", 2, context="default")]
    assert issubclass(Secure, gateway.http.client.HTTPSConnection)
    other = Gateway(MEMBERS, "context", 1.0, 7.0).another()
    found = other.members, other.context, other.timeout, other.patience, other.turn
    assert found == (MEMBERS, "context", 1.0, 7.0, 0)


@pytest.mark.parametrize("said, kind", [
    (b'{"error":"not now","code":14}', Unanswered), (b'{"error":"no key","code":3}', Fault)])
def test_answers_of_another_status(said, kind, member):
    made = member((OK % (len(said), said)).replace(b"200", b"503"))
    with pytest.raises(kind, match=json.loads(said)["error"]):
        made.once("/", {})
    # the next member is asked then, and a refusal counts as an answer
    assert (made.connection, made.turn, made.silent_since is None) == (None, 1, kind is Fault)


@pytest.mark.parametrize("said", [b"", b"nonsense\r\n\r\n", b"HTTP/1.1 200 OK\r\nContent-Length: 9\r\n\r\n{}",
                                  OK % (5, b"{nope")])
def test_answers_that_don_t_come(said, member):
    made = member(said, is_open=False)
    pytest.raises(Unanswered, made.once, "/", {})
    assert (made.connection, made.turn) == (None, 1)
    assert made.silent_since is not None


def test_how_long_is_waited(monkeypatch):
    made, ends = Gateway(MEMBERS, timeout=3.0, patience=60.0), []

    def post(path, asked, end):
        ends.append(end)
        if len(ends) < 4:
            raise Unanswered("no")
        return io.BytesIO(b"{}")
    made.post = post
    for now in (100.0, 150.0, 158.5, 159.5, 170.0):
        monkeypatch.setattr(gateway, "time", SimpleNamespace(monotonic=lambda: now))
        if now < 159:
            pytest.raises(Unanswered, made.once, "/", {})
        else:
            assert made.once("/", {}) == {}
    assert ends == [103, 153, 160, 160, 173]  # from 100 on all have been silent until 159.5


def test_the_time_that_is_left_is_the_connection_s(member, monkeypatch):
    made = member()
    monkeypatch.setattr(gateway, "time", SimpleNamespace(monotonic=lambda: 100.0))
    for end, left in ((102.5, 2.5), (100, 0.001), (90, 0.001)):
        made.wait_until(end)
        assert (made.connection.timeout, round(made.connection.sock.gettimeout(), 6)) == (left, left)
    made.connection.sock = None
    made.wait_until(101)
    assert made.connection.timeout == 1


@pytest.mark.parametrize("lines, wanted, told", [
    (b'{"result":{"a":1}}\n{"result":2}\n', [{"a": 1}, 2], "the stream has ended"), (b"", [], "the stream has ended"),
    (b'{"result":1}\n{"error":{}}\n{"result":2}\n', [1], "'result'"), (b'{"result":1}\n{"res', [1], "")])
def test_results_that_come_one_after_another(lines, wanted, told, monkeypatch):
    made, kept, found = Gateway(MEMBERS, timeout=3.0), [], []
    made.connection = connection = SimpleNamespace(sock=mock.Mock(), close=mock.Mock())
    made.post = lambda *given: io.BytesIO(lines)
    monkeypatch.setattr(gateway, "keep_alive", kept.append)
    with pytest.raises(Unanswered, match=told):
        for it in made.stream("/v3/watch", {"a": 1}):
            found.append(it)
    assert (found, kept, made.connection, made.turn) == (wanted, [connection.sock], None, 1)
    # it is waited for without an end, but for who is out of reach
    connection.sock.settimeout.assert_called_once_with(None)
    connection.close.assert_called_once()


def test_a_connection_that_is_out_of_reach_ends_after_some_ten_seconds():
    with socket.socket() as made:
        gateway.keep_alive(made)
        names = (socket.TCP_KEEPIDLE, socket.TCP_KEEPINTVL, socket.TCP_KEEPCNT)
        idle, pause, count = (made.getsockopt(socket.IPPROTO_TCP, it) for it in names)
        assert (made.getsockopt(socket.SOL_SOCKET, socket.SO_KEEPALIVE), idle + pause * count) == (1, 10)
        assert count > 1  # one that is lost is no end


# ---- refusals, and how long is insisted


@pytest.mark.parametrize("codes, kind, told", [(PASSING, Unanswered, "it can't"),
                                               (FINAL, Fault, "etcd refuses: it can't")])
def test_refusals_by_codes(codes, kind, told):
    for code in codes:
        found = refusal(json.dumps({"error": "it can't", "code": code}).encode())
        assert (type(found), str(found)) == (kind, told), code


def test_a_full_database_is_final():
    found = refusal(b'{"error":"etcdserver: mvcc: database space exceeded","code":8}')
    assert type(found) is Full and str(found).endswith("database space exceeded: `registryd-etcd compact` makes room")


def test_what_is_no_answer_of_the_gateway():
    for told in (b"<html>", b"", b"[1]", b"5", b"\xff", b"x" * 200):
        found = refusal(told)
        assert (type(found), str(found)) == (Unanswered, repr(told[:100]))


@pytest.fixture
def silent(monkeypatch):
    """Makes a gateway whose members answer in the end alone, by these answers; time goes on if somebody sleeps."""
    clock = SimpleNamespace(now=100.0, slept=[], monotonic=lambda: clock.now)

    def sleep(seconds):
        clock.slept.append(round(seconds, 6))
        clock.now += seconds
    clock.sleep = sleep
    monkeypatch.setattr(gateway, "time", clock)

    def made_gateway(answers=()):
        made, answers = Gateway(MEMBERS, patience=2.0), list(answers)

        def once(path, asked):
            made.silent_since = made.silent_since or clock.now
            if not (answers and answers.pop(0)):
                raise Unanswered("no")
            return {"kvs": []}
        made.once, made.clock = once, clock
        return made
    return made_gateway


def test_pauses_grow_to_half_a_second_and_end_with_the_patience(silent):
    made = silent()
    with pytest.raises(Fault, match=r"\Ano member of etcd answers, for 2 seconds now: no\Z"):
        made.insist("/v3/kv/range", {})
    assert made.clock.slept == [0.01, 0.02, 0.04, 0.08, 0.16, 0.32, 0.5, 0.5, 0.37]


def test_an_answer_in_time(silent):
    made = silent([False, False, True])
    assert (made.insist("/v3/kv/range", {}), made.clock.slept) == ({"kvs": []}, [0.01, 0.02])


@pytest.mark.parametrize("is_anew, seconds", [(False, 0.5), (True, 2.0)])
def test_what_was_asked_in_vain_before_counts_until_it_is_counted_anew(is_anew, seconds, silent):
    made = silent()
    made.silent_since = made.clock.now - 1.5
    if is_anew:
        made.count_anew()
    pytest.raises(Fault, made.insist, "/v3/kv/range", {})
    assert sum(made.clock.slept) == pytest.approx(seconds)
