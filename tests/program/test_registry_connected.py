"""A session with a service in one process: services that answer, break off and come back, and where one is. They are
made up."""
import contextlib
import io
import json
import os
import socket
import tempfile
import threading
import unittest
from types import SimpleNamespace
from unittest import mock

from registry_cli import connected
from registry_cli.failures import Failed, Refused
from tests.program.test_journals import CHAIN, journal, learn
from tests.support.program import in_time, publish, resolve

A1, B1, C1 = (json.loads(publish(name, "1.0.0")) for name in "abc")
OK, EMPTY = '{"ok":true,"revision":%d}', '{"revision":%d,"selected":[]}'


class Connections:
    """Services in turn, each of which answers these lines and is gone; and what was asked of each."""

    def __init__(self, *lives):
        self.lives, self.asked, self.made = list(lives), [], []

    def connect(self, _):
        if not self.lives:
            raise Failed("no service answers")
        answers = self.lives.pop(0)
        asked = []
        self.asked.append(asked)
        text = "".join(line if line.endswith("!") else line + "\n" for line in answers).replace("!", "").encode()
        self.made.append(mock.Mock(sendall=lambda data: asked.extend(data.decode().splitlines()),
                                   makefile=mock.Mock(return_value=io.BytesIO(text))))
        return self.made[-1]

    def closed(self):
        """Of each connection whether it is closed, with what is read from it."""
        return [made.close.called and made.makefile.return_value.closed for made in self.made]


class Connecting(unittest.TestCase):
    def setUp(self):
        self.now, self.slept = 0.0, []
        clock = SimpleNamespace(monotonic=lambda: self.now, sleep=self.sleep)
        self.enterContext(mock.patch.object(connected, "time", clock))

    def sleep(self, seconds):
        self.slept.append(seconds)
        self.now += seconds

    def connected(self, *lives, journals=()):
        self.connections = Connections(*lives)
        self.enterContext(mock.patch.object(connected, "connect", self.connections.connect))
        self.journals = self.enterContext(mock.patch.object(connected, "journal_of_service",
                                                            side_effect=list(journals)))
        return connected.Connected("address")

    def sent(self, life):
        return [json.loads(line) for line in self.connections.asked[life]]

    def test_requests_and_commands(self):
        made = self.connected([EMPTY % 2, OK % 3, '{"error":7,"name":"AlreadyPublished","revision":3}'])
        self.assertEqual(made.revision, 2)
        self.assertEqual(made.ask(A1, A1),
                         [{"ok": True, "revision": 3}, {"error": 7, "name": "AlreadyPublished", "revision": 3}])
        self.assertEqual((self.sent(0), made.revision, self.slept), ([{"op": "resolve", "needs": []}, A1, A1], 3, []))

    def test_what_was_carried_out_before_it_broke_off_is_not_asked_again(self):
        for broken in ([EMPTY % 0, OK % 1], [EMPTY % 0, OK % 1, '{"error":503,"name":"Unavailable","revision":1}'],
                       [EMPTY % 0, OK % 1, '{"ok":true,"revision":2}!']):
            made = self.connected(broken, [OK % 3], journals=[journal([json.dumps(A1), json.dumps(B1)])])
            self.assertEqual(made.ask(A1, B1, C1), [{"ok": True, "revision": number} for number in (1, 2, 3)])
            self.assertEqual((self.sent(1), made.revision), ([C1], 3))

    def test_what_was_not_is(self):
        request = json.loads(resolve("a *"))
        made = self.connected([EMPTY % 0, OK % 1], [OK % 2, '{"revision":2,"selected":[["a","1.0.0"]]}'],
                              journals=[journal([json.dumps(A1)])])
        self.assertEqual(made.ask(A1, B1, request), [{"ok": True, "revision": 1}, {"ok": True, "revision": 2},
                                                     {"revision": 2, "selected": [["a", "1.0.0"]]}])
        self.assertEqual((self.sent(1), self.slept), ([B1, request], [0.2]))

    def test_a_request_before_what_was_carried_out(self):
        request = json.loads(resolve("a *"))
        made = self.connected([EMPTY % 0], [EMPTY % 1], journals=[journal([json.dumps(A1)])])
        self.assertEqual(made.ask(request, A1), [{"revision": 1, "selected": []}, {"ok": True, "revision": 1}])
        self.assertEqual((self.sent(1), self.connections.closed()), ([request], [True, False]))

    def test_what_the_service_refuses_is_not_asked_again(self):
        made = self.connected([EMPTY % 0, OK % 1, '{"error":503,"name":"DiskFault","reason":"why","revision":1}'])
        with self.assertRaisesRegex(Failed, r"\Athe service at address accepts nothing now: why\Z"):
            made.ask(A1, B1)
        self.assertEqual((self.sent(0)[1:], self.slept), ([A1, B1], []))

    def test_patience_begins_anew_with_each_reply(self):
        made = self.connected([EMPTY % 0, OK % 1], [], [OK % 2],
                              journals=[Failed("not now"), journal([json.dumps(A1)])])
        self.now += 9.9
        self.assertEqual(made.ask(A1, B1), [{"ok": True, "revision": 1}, {"ok": True, "revision": 2}])
        self.assertEqual(self.connections.closed(), [True, True, False])

    def test_commands_of_others_are_told_apart(self):
        # another one's command stands before it, and its own behind that
        made = self.connected([EMPTY % 0], [], journals=[journal([json.dumps(C1), json.dumps(A1)])])
        self.assertEqual((made.ask(A1), made.revision), ([{"ok": True, "revision": 2}], 2))

    def test_a_service_that_does_not_come_back(self):
        made = self.connected([EMPTY % 0])
        with self.assertRaises(Failed) as caught:
            made.ask(A1)
        self.assertEqual(str(caught.exception), "the service at address broke off before it had answered, and does not "
                                                "come back: a command that was under way may have been accepted")
        self.assertTrue(10 < self.now < 10.5, self.now)

    def test_one_whose_journal_is_not_told_yet(self):
        made = self.connected([EMPTY % 0], [], [OK % 1], journals=[Failed("not now"), journal([])])
        self.assertEqual(made.ask(A1), [{"ok": True, "revision": 1}])
        self.assertEqual(len(self.connections.asked), 3)

    def test_many_lines_are_sent_by_a_thread(self):
        made = mock.Mock(wraps=threading.Thread)
        with mock.patch.multiple(connected, SMALL=10, threading=SimpleNamespace(Thread=made)):
            self.connected([EMPTY % 0, OK % 1]).ask(A1)
        self.assertEqual((made.call_count, [it.kwargs["daemon"] for it in made.call_args_list]), (2, [True, True]))
        sent = []
        connected.Connected.send(SimpleNamespace(sendall=sent.append), b"text")
        connected.Connected.send(SimpleNamespace(sendall=mock.Mock(side_effect=BrokenPipeError)), b"text")
        self.assertEqual(sent, [b"text"])

    def test_commands_and_the_end(self):
        made = self.connected([EMPTY % 2], journals=[journal([*CHAIN[:2], learn(0)]), journal([])])
        self.assertEqual(made.commands(), [json.loads(line) for line in CHAIN[:2]])
        self.journals.assert_called_with("address", 2)
        with mock.patch.object(connected.near_limits, "warn") as warn:
            for fault in (None, Refused("no"), Failed("no")):
                with contextlib.suppress(Refused, Failed), made as entered:
                    self.assertIs(entered, made)
                    if fault:
                        raise fault
        self.assertEqual([call.args for call in warn.call_args_list], [("address", made.text)] * 2)
        self.assertEqual(self.connections.closed(), [True])
        with mock.patch.object(connected.near_limits, "warn") as warn, self.connected([EMPTY % 2]):
            pass  # whose journal nobody asked for
        warn.assert_not_called()


class Addresses(unittest.TestCase):
    def served(self, family, address, told):
        listening = self.enterContext(socket.socket(family))
        listening.bind(address)
        listening.listen()
        heard = []

        def serve():
            connection, _ = listening.accept()
            with connection:
                heard.append(connection.recv(1000))
                connection.sendall(told)
        thread = threading.Thread(target=serve, daemon=True)
        thread.start()
        return listening.getsockname(), heard, thread

    def test_where_a_service_is(self):
        self.enterContext(in_time())
        path = os.path.join(self.enterContext(tempfile.TemporaryDirectory()), "with:colon")
        for family, at, revision in ((socket.AF_INET, ("127.0.0.1", 0), ""), (socket.AF_UNIX, path, 7)):
            found, heard, thread = self.served(family, at, b"HTTP/1.1 200 OK\r\nX: y\r\n\r\nregistry\r\n\r\nx")
            address = path if family == socket.AF_UNIX else f"[127.0.0.1]:{found[1]}"
            self.assertEqual(connected.journal_of_service(address, *([revision] if revision else [])),
                             b"registry\r\n\r\nx")
            thread.join()
            self.assertEqual(heard, [b"GET /journal HTTP/1.0\r\n\r\n" if revision == ""
                                     else b"GET /journal?revision=7 HTTP/1.0\r\n\r\n"])
        found, _, _ = self.served(socket.AF_INET, ("127.0.0.1", 0), b"HTTP/1.1 503 X\r\n\r\nnot now\xff\n")
        with self.assertRaisesRegex(Failed, rf"\Athe service at 127.0.0.1:{found[1]} does not tell its journal now: "
                                            r"not now\ufffd\Z"):
            connected.journal_of_service(f"127.0.0.1:{found[1]}")
        for address, told in ((path + "x", "No such file or directory"), ("127.0.0.1:1", "Connection refused"),
                              (path + "x" * 200, "AF_UNIX path too long"),
                              ("127.0.0.1:65536", "65535 is the highest port"),
                              ("127.0.0.1:" + "9" * 5000, "65535 is the highest port"),
                              ("127.0.0.1:\u00b2", "No such file or directory")):
            self.assertRaisesRegex(Failed, rf"\Ano service answers at {address}: {told}\Z", connected.connect, address)
        with mock.patch.object(connected.socket, "create_connection") as made:
            self.assertIs(connected.connect("[::1]:65535"), made.return_value)
        made.assert_called_once_with(("::1", 65_535))
        with mock.patch.object(connected.socket, "socket") as made:
            made.return_value.connect.side_effect = OSError(111, "Connection refused")
            self.assertRaises(Failed, connected.connect, path)
        made.return_value.close.assert_called_once_with()

    def test_a_command_as_a_journal_has_it(self):
        self.assertEqual(connected.line_of({"op": "yank", "name": "é", "version": "1.0.0"}),
                         '{"name":"é","op":"yank","version":"1.0.0"}'.encode())
