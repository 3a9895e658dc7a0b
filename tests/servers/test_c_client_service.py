"""The library for C with a service: its calls, what becomes of lines whose service ends meanwhile, what wrong addresses
are told as, a search that the service ends, and what goes beyond what sockets hold."""
import functools
import json
import os
import re
import signal
import subprocess
import tempfile
import time
import unittest

import pytest

from tests.support.library import TESTS, linked_with_sources, needs_library
from tests.support.program import LIST, PATIENCE, journal_line, publish, resolve, skip_without
from tests.support.registry_folder import pigeons
from tests.support.scripted_service import LOST, PUBLISHED, UNAVAILABLE, YANK, Scripted, accepted, answering
from tests.support.services import Case, wait_for

pytestmark = pytest.mark.not_quick("the static library")
CALLS = os.path.join(TESTS, "c_client_service.c")
ADDRESSES = ["-g", "-fsanitize=address,undefined", "-fno-sanitize-recover"]
THREADS = ["-g", "-fsanitize=thread"]
WAITS = ["-include", os.path.join(TESTS, "c_client_patience.h")]
# Milliseconds for a service to be there again: as long as that takes on a busy machine, and for one that stays away.
LONG, SHORT = 60_000, 1_000
# Seconds in which a session is closed on a busy machine, too: it waits for no service then.
SOON = 45
LINES, NEEDS = pigeons(15)
HARD = resolve(*(f"{it} *" for it in NEEDS))


@functools.cache
def callers():
    """Those of all classes here."""
    folder = tempfile.TemporaryDirectory()
    unittest.addModuleCleanup(folder.cleanup)
    return [linked_with_sources(os.path.join(folder.name, name), CALLS, *words)
            for name, words in (("caller", ADDRESSES + WAITS), ("threads", THREADS + WAITS))]


@needs_library
@skip_without("cc", "gcc")
class Called(Case):
    LONGEST = 300  # the library is compiled under two sanitizers

    @classmethod
    def setUpClass(cls):
        cls.caller, cls.threads = callers()

    def begin_caller(self, what, where, is_short=False):
        """One with the signals that a program has at first: SIGPIPE would end it."""
        words = [self.threads if "closed" in what else self.caller, what, where, str(SHORT if is_short else LONG)]
        # a server of names that does not answer is not waited for
        running = subprocess.Popen(words, stdin=subprocess.PIPE, stdout=subprocess.PIPE, stderr=subprocess.PIPE,
                                   text=True, env={**os.environ, "RES_OPTIONS": "timeout:1 attempts:1"})
        self.addCleanup(running.communicate)
        self.addCleanup(running.kill)
        return running

    def told(self, running, text=""):
        """What is printed by one that has read a text and ended well."""
        told, said = running.communicate(text, timeout=PATIENCE)
        assert (running.returncode, said) == (0, ""), told
        return told

    def tried(self, what, where, lines=(), is_short=False):
        return self.told(self.begin_caller(what, where, is_short), "".join(it + "\n" for it in lines))


class WithService(Called):
    def test_its_calls(self):
        assert self.tried("calls", self.begin().socket) == ""

    def test_a_port(self):
        host, port = self.begin("--port", 0).address()
        assert self.tried("calls", f"{host}:{port}") == ""
        assert self.tried("lines", f"localhost:{port}",
                          [LIST]) == '{"packages":[["a",[["1.0.0",false]]]],"revision":1}\n'

    def test_a_wrong_address(self):
        plain, long = os.path.join(self.folder, "plain"), os.path.join(self.folder, "n" * 108)
        with open(plain, "w", encoding="ascii"):
            pass
        for where, why in ((os.path.join(self.folder, "none"), "No such file or directory"),
                           (plain, "Connection refused"), (long, "File name too long"),
                           ("127.0.0.1:1", "Connection refused"), ("[127.0.0.1]:1", "Connection refused"),
                           ("127.0.0.1:65537", "Invalid argument"), (":1", "No route to host"),
                           ("no host:1", "No route to host"), ("none:", "No such file or directory"),
                           ("no/where:1", "No such file or directory"), ("", "Connection refused")):
            assert self.tried("nowhere", where) == f"3: {why}\n", where

    def test_a_service_that_ends_meanwhile(self):
        for number in (signal.SIGTERM, signal.SIGKILL):
            for words in ((), ("--port", 0)):
                service = self.begin(*words)
                where = "{}:{}".format(*service.address()) if words else service.socket
                running = self.begin_caller("gone", where, is_short=True)
                assert running.stdout.readline() == "asked\n"
                service.end(number)
                assert re.search(rf"^the connection to the service at {where} has ended(: .* \(os error \d+\))?\n$",
                                 self.told(running, "\n"))
                # nothing that was told is lost
                assert len(service.commands()) == 1
                os.unlink(service.journal)

    def test_a_service_that_ends_while_lines_wait(self):
        service = self.begin()
        running = self.begin_caller("lines", service.socket, is_short=True)
        running.stdin.write("".join(it + "\n" for it in [*LINES, LIST, HARD, LIST]))
        running.stdin.close()
        wait_for(lambda: f"registryd_revision {len(LINES)}\n" in service.get("/metrics")[1])
        service.end(signal.SIGKILL)
        *replies, last = running.stdout.read().splitlines()
        assert last == f"4: the connection to the service at {service.socket} has ended"
        assert replies[:len(LINES)] == [f'{{"ok":true,"revision":{number}}}' for number in range(1, len(LINES) + 1)]
        assert len(replies) <= len(LINES) + 1
        running.stdin = None
        self.told(running)

    def test_a_search_that_takes_too_long(self):
        service = self.begin("--seconds", 1)
        replies = self.tried("lines", service.socket, [*LINES, HARD, resolve("hole-1 =0.0.0")]).splitlines()
        assert replies[len(LINES):] == ['{"error":22,"name":"BudgetSpent","revision":%d}' % len(LINES),
                                        '{"revision":%d,"selected":[["hole-1","0.0.0"]]}' % len(LINES)]

    def test_a_client_too_many(self):
        service = self.begin("--clients", 1)
        with service.client() as client:
            client.ask(LIST)
            assert self.tried("nowhere", service.socket) == "3: Resource temporarily unavailable\n"

    def test_more_than_sockets_hold(self):
        # the service reads no more where its replies are not read, and so could not be fed
        service, count = self.begin(), 200
        commands = [publish("a", f"{number}.0.0") for number in range(count)]
        versions = ",".join(f'["{number}.0.0",false]' for number in range(count))
        replies = self.tried("lines", service.socket, [*commands, *[LIST + " " * 10_000] * count]).splitlines()
        assert replies[count:] == [f'{{"packages":[["a",[{versions}]]],"revision":{count}}}'] * count

    def test_a_session_is_closed_while_a_thread_waits_for_a_search(self):
        # amid its call, or before the next one
        assert self.tried("closed", self.begin().socket, [*LINES, HARD]) in ("connected\n4\n", "connected\n1\n")

    def closed_late(self, service, disturb, is_before):
        """Has a session closed in time, while it waits for a search of a service that something was done to."""
        running = self.begin_caller("closed late", service.socket)
        assert running.stdout.readline() == "connected\n"
        if is_before:
            disturb()
        running.stdin.write("".join(it + "\n" for it in [*LINES, HARD]))
        running.stdin.close()
        running.stdin = None
        if not is_before:
            wait_for(lambda: f"registryd_revision {len(LINES)}\n" in service.get("/metrics")[1])
            disturb()
        begun = time.monotonic()
        assert self.told(running, None) in ("4\n", "1\n")
        assert time.monotonic() - begun < SOON

    def test_a_session_is_closed_while_the_service_is_stopped(self):
        for is_before in (True, False):
            service = self.begin()
            self.closed_late(service, lambda: os.kill(service.running.pid, signal.SIGSTOP), is_before)
            service.end(signal.SIGKILL)
            os.unlink(service.journal)

    def test_a_session_is_closed_while_it_connects_again(self):
        service = self.begin()
        self.closed_late(service, lambda: service.end(signal.SIGKILL), False)

    def test_a_service_that_is_killed_and_begun_again(self):
        service = self.begin()
        running = self.begin_caller("steps", service.socket)
        for count in (20, 40):
            running.stdin.write(f"{count}\n")
            running.stdin.flush()
            wait_for(lambda: len(service.commands()) > count - 20)
            service.end(signal.SIGKILL)
            service = self.begin()
        told = self.told(running)
        # each is accepted once, in its order
        assert told.splitlines() == [f'{{"ok":true,"revision":{number}}}' for number in range(1, 61)]
        assert service.commands() == [b'{"name":"a","needs":[],"op":"publish","version":"%d.0.0"}' % number
                                      for number in range(60)]

    def test_its_keeper_is_killed(self):
        service, count = self.begin(), 600
        running = self.begin_caller("lines", service.socket)
        lines = [publish("a", f"{number}.0.0") for number in range(count)]
        running.stdin.write("".join(it + "\n" for it in lines))
        running.stdin.close()
        running.stdin = None
        for least in (10, 200):
            wait_for(lambda: service.journal.read_bytes().count(b"\n") > least)
            service.kill_keeper()
            wait_for(lambda: service.get("/health")[0] == 200)
        revisions = [json.loads(it)["revision"] for it in self.told(running, None).splitlines()]
        # each is accepted once, in its order, and where it is told
        assert revisions == list(range(1, count + 1))
        self.demand(dict(zip(revisions, lines)), service.journal.read_bytes().splitlines()[1:])


NEEDING = publish("log", "1.0.0", ["a ^1", "b-c *"])
FORMS = ['{ "version" : "1.0.0","needs":[ ["a" ,"^1"],[ "b-c","*" ] ],"name":"log","op":"publish"}\r',
         r'{"op":"publish","name":"\u006cog","version":"1.0.0","needs":[["a","^1"],["b-\u0063","*"]]}',
         r'{"op":"list","\u006fp":"publish","name":"x","version":"1.0.0","name":"log","needs":[["a","^1"],["b-c","*"]]}'
         ]


class WithScripts(Called):
    """What becomes of lines that have no reply, of a service that answers by a script."""

    def script(self, *script):
        service = Scripted(self.folder, *script)
        self.addCleanup(service.end)
        return service

    def test_lines_whose_replies_are_lost(self):
        for journal, scripts, lines, replies, asked in LOST:
            service = self.script(1, journal, scripts)
            assert self.tried("lines", service.path, lines) == replies, scripts
            assert service.asked == asked, scripts
        journal, scripts, lines, replies, asked = LOST[0]
        service = self.script(1, journal, scripts)
        assert (self.tried("bytes", service.path, lines), service.asked) == (replies, asked)

    def test_forms_of_lines(self):
        """However a line is written, it is the command that a journal has."""
        for line, is_same in ((NEEDING, True),
                              *((it, True) for it in FORMS),
                              (publish("log", "1.0.0", ["b-c *", "a ^1"]), False),
                              (publish("log", "1.0.0", ["a ^1"]), False), (publish("log", "1.0.0"), False),
                              (publish("logs", "1.0.0", ["a ^1", "b-c *"]), False), (NEEDING + "x", False),
                              (NEEDING[:-1], False), ("", False), ("{}", False), ('"' * 9, False), ("{" * 200, False),
                              (NEEDING.replace("log", "l\\u0000og"), False), (NEEDING.replace("log", "lög"), False),
                              (NEEDING.replace('"^1"', '"^1", "^1"'), False), (NEEDING.replace('"log"', "7"), False)):
            bad = '{"error":19,"name":"BadLine","revision":1}\n'
            service = self.script(0, [journal_line(NEEDING)], [(1, ""), (1, bad)])
            assert self.tried("lines", service.path, [line]) == (accepted(1) if is_same else bad), line

    def test_what_can_not_be_looked_up(self):
        """A journal that is cut off, and a connection that is not ended, on which the command may yet be under way."""
        for scripts in ([(1, ""), (0, "..."), (0, "..."), (0, "")], [(1, UNAVAILABLE + "..."), (1, accepted(2))]):
            service = self.script(1, [PUBLISHED], scripts)
            service.journal = service.journal.removesuffix("end 1\n")
            told = self.tried("lines", service.path, [YANK], is_short=True)
            assert re.search(f"^4: the connection to the service at {service.path} has ended(: .*)?\n$", told)

    def test_what_is_no_service(self):
        for text in ("no reply\n", "", "{}\n", "{" * 300, UNAVAILABLE):
            path = os.path.join(self.folder, "other")
            why = "Resource temporarily unavailable" if text == UNAVAILABLE else "Connection reset by peer"
            with answering(path, text):
                assert self.tried("nowhere", path) == f"3: {why}\n"
