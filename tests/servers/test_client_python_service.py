"""The client in Python over a service's socket: the same calls and answers, also where the service is begun again."""
import os
import re
import signal
import tempfile
import time
from concurrent.futures import ThreadPoolExecutor
from unittest import mock

import pytest

import registryd
import registryd.service
from registryd import Accepted, BudgetSpent, Ended, List, Listing, Publish, Registry, Resolve, Selection
from tests.program.test_client_python import Calls
from tests.support import client_python
from tests.support.client_python import HOPELESS, SECONDS, SOON, pigeons
from tests.support.program import journal_line
from tests.support.scripted_service import ASKED, FENCE, LOST, PUBLISHED, UNAVAILABLE, Scripted, answering
from tests.support.services import Service, kill, wait_for


class WithService(Calls, client_python.Case):
    several = {}
    # a service has a journal of its own
    test_a_journal_is_saved_and_loaded = test_a_journal_that_is_gone_on_with = None
    test_what_cannot_be_begun_or_saved = test_a_journal_that_finds_no_room = None

    def open(self, **options):
        """A session with a service that is new."""
        return Registry(connect=self.begin(tempfile.mkdtemp(dir=self.folder)).socket, **options)

    def begin(self, folder, *words):
        service = Service(folder, *words)
        self.addCleanup(service.running.communicate)
        self.addCleanup(service.running.kill)
        return service

    def service(self, *words):
        return self.begin(self.folder, *words)


class Connected(client_python.Case):
    begin, service = WithService.begin, WithService.service

    def test_what_cannot_be_asked_for(self):
        for options in ({"journal": "a"}, {"load": "a"}, {"save": "a"}, {"embedded": True}):
            with pytest.raises(ValueError):
                Registry(connect="nowhere", **options)
        with pytest.raises(FileNotFoundError):
            Registry(connect=self.path("nowhere"))
        with pytest.raises(ConnectionRefusedError):
            Registry(connect="127.0.0.1:1")

    def test_a_port(self):
        service = self.service("--port", 0)
        with Registry(connect="{}:{}".format(*service.address())) as registry:
            assert registry.publish("log", "1.0.0") == 1
            assert registry.resolve({"log": "*"}) == Selection(1, {"log": "1.0.0"})

    def test_two_sessions_see_each_other(self):
        service = self.service()
        with Registry(connect=service.socket) as one, Registry(connect=service.socket) as other:
            assert (one.publish("log", "1.0.0"), other.publish("log", "1.1.0")) == (1, 2)
            assert one.resolve({"log": "*"}) == Selection(2, {"log": "1.1.0"})
        # the service goes on
        with Registry(connect=service.socket) as registry:
            assert registry.list().revision == 2

    def test_it_is_killed_and_begun_again_while_it_is_asked(self):
        # so long a begin may take on a busy machine
        self.enterContext(mock.patch.object(registryd.service, "PATIENCE", SECONDS))
        service, told = self.service(), []

        def ask(registry):
            for minor in range(0, 120, 3):
                futures = registry.many([*(Publish("log", f"1.{minor + more}.0") for more in range(3)),
                                         Resolve({"log": "*"})])
                told.append([it.result(SECONDS) for it in futures])
                time.sleep(0.01)

        with Registry(connect=service.socket) as registry, ThreadPoolExecutor() as pool:
            asking = pool.submit(ask, registry)
            for _ in range(3):
                time.sleep(0.3)
                service.running.kill()
                service.wait()
                service = self.service()
            asking.result()
        assert told == [[*(Accepted(minor + more + 1) for more in range(3)),
                         Selection(minor + 3, {"log": f"1.{minor + 2}.0"})] for minor in range(0, 120, 3)]
        assert len(service.commands()) == 120

    def test_its_programs_are_killed_while_it_is_asked(self):
        service = self.service()
        with Registry(connect=service.socket) as registry:
            for number in range(6):
                futures = registry.many([*(Publish(f"p{number}", f"1.{minor}.0") for minor in range(100)),
                                         *[Resolve({"p0": "*"})] * 20])
                keepers, readers = service.programs()
                kill((keepers, readers, keepers + readers)[number % 3])
                replies = [it.result(SECONDS) for it in futures]
                assert [it.revision for it in replies[:100]] == list(range(100 * number + 1, 100 * number + 101))
                assert {type(it) for it in replies[100:]} == {Selection}
                wait_for(lambda: service.get("/health")[0] == 200)
        wanted = [Publish(f"p{number}", f"1.{minor}.0").line() for number in range(6) for minor in range(100)]
        assert service.commands() == [journal_line(it).encode() for it in wanted]

    def test_a_service_that_stays_away(self):
        service = self.service()
        registry = Registry(connect=service.socket)
        assert registry.publish("log", "1.0.0") == 1
        with mock.patch.object(registryd.service, "PATIENCE", 0.5):
            service.end()
            told = re.escape(f"the service at {service.socket} is not there any more")
            self.ends(told, registry.list)
            self.ends(told, registry.list)
            self.ends(told, registry.close)
            registry.close()

    def test_closing_has_a_limit_and_a_search_too(self):
        service = self.service("--seconds", 1)
        with Registry(connect=service.socket) as registry:
            with pytest.raises(BudgetSpent):
                registry.ask(pigeons(registry)).result(SECONDS)
        service.end()
        registry = Registry(connect=self.service("--seconds", SECONDS).socket)
        self.close_in_time(registry, [registry.ask(HOPELESS)])

    def test_many_lines_that_are_not_read_at_once(self):
        service = self.service()
        with Registry(connect=service.socket) as registry:
            futures = registry.many(Publish("a", f"{number}.0.0") for number in range(2_000))
            futures += registry.many([List()] * 100)
            assert len([it.result(SECONDS) for it in futures][-1].packages["a"]) == 2_000

    def test_too_many_clients(self):
        service = self.service("--clients", 1)
        with Registry(connect=service.socket) as one:
            with pytest.raises(ConnectionRefusedError,
                               match=re.escape(f"the service at {service.socket} can't be asked now: TooManyClients")):
                Registry(connect=service.socket)
            assert one.publish("log", "1.0.0") == 1

    def close_in_time(self, registry, futures):
        begun = time.monotonic()
        self.ends("the service had not answered 0.5 seconds after the session was closed", lambda: registry.close(0.5))
        assert time.monotonic() - begun < SOON
        for future in futures:
            assert isinstance(future.exception(SECONDS), Ended)

    def test_closing_has_a_limit_where_the_service_is_stopped(self):
        service = self.service()
        idle, asked, flooded = (Registry(connect=service.socket) for _ in range(3))
        hard = pigeons(asked)
        searching = asked.ask(hard)
        os.kill(service.running.pid, signal.SIGSTOP)
        try:
            self.close_in_time(idle, [])
            self.close_in_time(asked, [searching, asked.ask(List())])
            # more than sockets hold
            self.close_in_time(flooded, flooded.many([registryd.Line(b'{"op":"list"}' + b" " * 10_000)] * 500))
        finally:
            os.kill(service.running.pid, signal.SIGCONT)

    def test_killing_has_a_limit_where_the_service_is_stopped(self):
        service = self.service()
        registry = Registry(connect=service.socket)
        os.kill(service.running.pid, signal.SIGSTOP)
        begun, future = time.monotonic(), registry.ask(List())
        registry.kill()
        assert time.monotonic() - begun < SOON
        assert isinstance(future.exception(SECONDS), Ended)
        os.kill(service.running.pid, signal.SIGCONT)

    def test_what_a_future_calls_back_may_ask(self):
        """Also where more is under way than sockets hold."""
        service = self.service()
        with Registry(connect=service.socket) as registry:
            more = []
            for future in registry.many([registryd.Line(b'{"op":"list"}' + b" " * 10_000)] * 300):
                future.add_done_callback(lambda _: more.append(registry.ask(List())))
            wait_for(lambda: len(more) == 300)
            assert [it.result(SECONDS) for it in more] == [Listing(0, {})] * 300


class Scripts(client_python.Case):
    """What becomes of lines that have no reply, of a service that answers by a script."""

    def session(self, *script):
        service = Scripted(self.folder, *script)
        self.addCleanup(service.end)
        return service, Registry(connect=service.path)

    def test_lines_whose_replies_are_lost(self):
        for journal, scripts, lines, replies, asked in LOST:
            service, registry = self.session(1, journal, scripts)
            told = [it.exception(SECONDS) or it.result() for it in registry.many([ASKED[line] for line in lines])]
            wanted = [registryd.replies.answer(it.encode()) for it in replies.splitlines()]
            assert [(type(it), it.revision) for it in told] == [(type(it), it.revision) for it in wanted]
            assert service.asked == asked, scripts
            registry.kill()

    def test_a_journal_that_is_cut_off_tells_nothing(self):
        service, registry = self.session(1, [PUBLISHED], [(1, ""), (0, "..."), (0, "..."), (0, "")])
        service.journal = service.journal.removesuffix("end 1\n")
        with mock.patch.object(registryd.service, "PATIENCE", 3):
            self.ends("is not there any more", lambda: registry.yank("log", "1.0.0"))
            assert {tuple(it) for it in service.asked[1:]} == {(FENCE,)}

    def test_a_connection_that_is_not_ended(self):
        """A command may still be under way then, and a request asked again."""
        _, registry = self.session(1, [PUBLISHED], [(1, UNAVAILABLE + "...")])
        with mock.patch.object(registryd.service, "PATIENCE", 0.5):
            self.ends("is not there any more", lambda: registry.yank("log", "1.0.0"))

    def test_what_is_no_reply(self):
        for text in ("no reply\n", '{"revision":1}\n', "[]\n"):
            _, registry = self.session(1, [], [(1, text)])
            self.ends("the service wrote no reply: ", registry.list)
            self.ends("the service wrote no reply: ", registry.list)

    def test_what_is_no_service(self):
        for text in ("no reply\n", "", UNAVAILABLE):
            with answering(self.path("other"), text), pytest.raises(ConnectionError):
                Registry(connect=self.path("other"))
