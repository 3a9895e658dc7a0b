"""The client in Python where calls are interrupted: at each step of a call in turn, and at random moments, of which
`dev/long/interrupt_sessions.py` tries more. No later call gets a reply that is not its own, or waits for ever."""
import contextlib
import os
import signal
import sys
import tempfile
import threading
import unittest
from unittest import mock

import registryd
from dev.long import interrupt_sessions
from registryd import (
    Accepted, AlreadyPublished, Ended, List, Listing, NoSelection, Publish, Registry, Resolve, Selection)
from registryd.child import BROKEN_OFF
from tests.support.client_python import SECONDS, Case
from tests.support.library import LIBRARY, needs_library
from tests.support.program import PROGRAM
from tests.support.services import Service

NAMES = [f"p{number}" for number in range(10)]
# The files whose steps are counted, and the functions in them that make or read a line, and come before or after all
# that matters.
STEPPED = (*(os.path.join("registryd", f"{name}.py")
             for name in ("__init__", "child", "embedded", "service", "waiting")),
           os.path.join("concurrent", "futures", "_base.py"), "threading.py")
PASSED_OVER = ("written", "line", "rows", "text_of", "number_of", "is_set", "to", "answer", "__init__", "<genexpr>",
               "<listcomp>", "<dictcomp>")


class Broken(BaseException):
    """What interrupts a call."""


def leave(_):
    """What a future calls back, and which ends its thread."""
    raise SystemExit


class Steps:
    """Meanwhile the n-th step of this thread in the files that count, a bytecode, is not done: it raises an
    exception."""

    def __init__(self, number):
        self.left = number

    def enter(self, frame, event, _):
        if not frame.f_code.co_filename.endswith(STEPPED) or frame.f_code.co_name in PASSED_OVER:
            return None
        frame.f_trace_opcodes = True
        return self.step

    def step(self, frame, event, _):
        if event == "opcode":
            self.left -= 1
            if self.left == 0:
                raise Broken
        return self.step

    def __enter__(self):
        sys.settrace(self.enter)
        return self

    def __exit__(self, *_):
        sys.settrace(None)


class Stepped:
    """Each kind of call is interrupted at each of its steps, and the session, which `open` begins, used on."""

    def setUp(self):
        super().setUp()
        self.ended = 0
        self.begin()

    def begin(self):
        """A session with what the tests ask for."""
        self.registry, self.last = self.open(), 0
        for name in NAMES:
            with contextlib.suppress(AlreadyPublished):
                self.registry.publish(name, "1.0.0")

    def at_each_step(self, call, use=None):
        """Interrupts a call, which is given the number of the step, at each step; between them the session is used, by
        two threads where nothing else is to be done."""
        number, is_done = 0, False
        while not is_done:
            number += 1
            # the latter by Python's Condition, at one of its steps
            with contextlib.suppress(Broken, RuntimeError), Steps(number) as steps:
                call(number)
            sys.settrace(None)
            is_done = steps.left > 0
            (use or self.use)(number)
        self.registry.close()
        self.assertGreater(number, 20)
        return number

    def use(self, number):
        """Asks twice, from another thread and from this one; goes on with a new session where this one has ended."""
        try:
            for turn, ask in enumerate((self.elsewhere, lambda it: it())):
                name = NAMES[(number + turn) % len(NAMES)]
                self.assertEqual(ask(lambda: self.registry.resolve({name: "*"})).selected, {name: "1.0.0"}, number)
                self.assertRaises(AlreadyPublished, ask, lambda: self.registry.publish(name, "1.0.0"))
                revision = ask(self.registry.list).revision
                self.assertGreaterEqual(revision, self.last, number)
                self.last = revision
        except Ended as ended:
            self.assertEqual(str(ended), BROKEN_OFF, number)
            self.ended += 1
            self.ends(BROKEN_OFF, self.registry.close)
            self.begin()

    def elsewhere(self, call):
        """What a call answers or raises in another thread, which is not waited for for ever."""
        done = registryd.Awaited(List())

        def run():
            try:
                done.set_result(call())
            except BaseException as fault:
                done.set_exception(fault)
        threading.Thread(target=run, daemon=True).start()
        return done.result(SECONDS)

    def test_a_request(self):
        def ask(number):
            name = NAMES[number % len(NAMES)]
            self.assertEqual(self.registry.resolve({name: "*"}).selected, {name: "1.0.0"})
        self.at_each_step(ask)

    def test_a_publication(self):
        self.at_each_step(lambda number: self.registry.publish("q", f"{number}.0.0"))

    def test_lines_that_are_sent_together(self):
        def ask(number):
            *_, missing = self.registry.many([Resolve({NAMES[0]: "*"}), Publish(NAMES[1], "1.0.0"),
                                              Resolve({"missing": "*"})])
            self.assertIsInstance(missing.result(SECONDS), NoSelection)
        self.at_each_step(ask)

    def test_closing(self):
        def closed(_):
            self.registry.close()
            self.ends("the session was closed", self.registry.list)
            self.begin()
        self.at_each_step(lambda _: self.registry.close(), closed)


class WithProgram(Stepped, Case):
    def open(self):
        return Registry(PROGRAM, journal=self.path("journal"))

    def test_that_it_ends_at_few_steps(self):
        """A call that is interrupted while it waits, as it mostly does, leaves the session as it was."""
        number = self.at_each_step(lambda _: self.registry.list())
        self.assertTrue(0 < self.ended < number / 2, (self.ended, number))

    def test_a_long_text_and_lines_behind_it(self):
        self.at_each_step(lambda number: self.registry.many([List()] * (400 if number % 2 else 3))[-1])


@needs_library
class InProcess(Stepped, Case):
    def open(self):
        return Registry(embedded=True, library=LIBRARY, journal=self.path("journal"))

    def tearDown(self):
        self.assertEqual(self.ended, 0)

    def test_a_reply_that_is_taken_in_pieces(self):
        self.registry.many([Publish("long", f"{number}.0.0") for number in range(3_500)])
        self.at_each_step(lambda _: self.registry.list())

    def test_a_signal_that_makes_a_call_amid_another(self):
        told = []

        def handler(*_):
            with self.assertRaisesRegex(RuntimeError, "a call of this thread is under way"):
                self.registry.list()
            told.append(True)
        self.addCleanup(signal.signal, signal.SIGUSR1, signal.signal(signal.SIGUSR1, handler))
        library = self.registry._session._library

        def asked(*given):
            answered = library.registryd_ask(*given)
            signal.raise_signal(signal.SIGUSR1)
            return answered
        with mock.patch.object(self.registry._session, "_library", mock.Mock(wraps=library, registryd_ask=asked)):
            self.assertEqual(self.registry.resolve({"p1": "*"}), Selection(10, {"p1": "1.0.0"}))
        self.assertEqual(told, [True])
        self.registry.close()


class WithService(Stepped, Case):
    def setUp(self):
        self.service = None
        super().setUp()

    def open(self):
        if not self.service:
            self.service = Service(tempfile.mkdtemp(dir=self.folder))
            self.addCleanup(self.service.end)
        return Registry(connect=self.service.socket)

    def tearDown(self):
        self.assertEqual(self.ended, 0)

    def test_a_line_that_can_not_be_sent_ends_the_session(self):
        first, second = (registryd.Awaited(List()) for _ in range(2))
        first.add_done_callback(leave)
        self.registry._session.send([None, None], [first, second])  # as where there is no memory to put lines together
        self.assertRaisesRegex(Ended, "a line could not be sent: TypeError", second.result, SECONDS)
        self.ends("a line could not be sent: ", self.registry.close)


class Signals(Case):
    def interrupted(self, call):
        def handler(*_):
            raise Broken
        self.addCleanup(signal.signal, signal.SIGUSR1, signal.signal(signal.SIGUSR1, handler))
        timer = threading.Timer(0.1, signal.pthread_kill, [threading.get_ident(), signal.SIGUSR1])
        timer.start()
        self.assertRaises(Broken, call)
        timer.join()

    def test_a_call_that_nobody_waits_for_takes_its_own_reply(self):
        with Registry(PROGRAM) as registry:
            registry.publish("a", "1.0.0")
            os.kill(registry._session._process.pid, signal.SIGSTOP)
            self.interrupted(lambda: registry.publish("b", "1.0.0"))
            self.interrupted(registry.ask(Publish("c", "1.0.0")).result)
            os.kill(registry._session._process.pid, signal.SIGCONT)
            self.assertEqual(registry.resolve({"b": "*"}), Selection(3, {"b": "1.0.0"}))
            self.assertEqual(registry.publish("d", "1.0.0"), 4)

    def test_closing_that_is_interrupted_is_gone_on_with(self):
        path = self.path("journal")
        registry = Registry(PROGRAM, save=path)
        os.kill(registry._session._process.pid, signal.SIGSTOP)
        future = registry.ask(Publish("a", "1.0.0"))
        self.interrupted(registry.close)
        os.kill(registry._session._process.pid, signal.SIGCONT)
        registry.close()
        self.assertEqual(future.result(0), Accepted(1))
        self.assertTrue(os.path.exists(path))

    def test_a_callback_that_ends_its_thread_keeps_nobody_waiting(self):
        """Whether it is called for a reply, or since none comes."""
        registry = Registry(PROGRAM)
        registry.ask(List()).add_done_callback(leave)
        with contextlib.suppress(Ended):
            self.assertEqual(registry.list(), Listing(0, {}))
        registry.kill()
        registry = Registry(PROGRAM)
        os.kill(registry._session._process.pid, signal.SIGSTOP)
        first, second = registry.many([List()] * 2)
        first.add_done_callback(leave)
        registry.kill()
        self.assertRaises(Ended, second.result, SECONDS)


class AtRandom(unittest.TestCase):
    def test_a_few_sessions(self):
        told = [interrupt_sessions.tried(seed, 8) for seed in range(3)]
        self.assertEqual([find for *_, find in told if find], [])
