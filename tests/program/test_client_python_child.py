"""The client in Python and its child: programs that end, close or write what is no reply, sessions that are closed or
killed in the midst of a search, and what becomes of the program where this process ends."""
import contextlib
import os
import signal
import subprocess
import sys
import threading
import time
from concurrent.futures import ThreadPoolExecutor
from unittest import mock

import registryd
from registryd import Accepted, BudgetSpent, Ended, List, Listing, NoSelection, Publish, Registry, Selection
from tests.support.client_python import PYTHON, SECONDS, SOON, Case, other, pigeons
from tests.support.processes import comes, is_running
from tests.support.program import PROGRAM, TOP, heed_signals

# What a program in Python prints as a reply to a command.
OK = "print('{\"ok\":true,\"revision\":1}', flush=True)"


class Child(Case):
    def test_a_line_that_was_sent_is_not_cancelled(self):
        # neither has a reply before both are sent
        registry = other(f"for line in [sys.stdin.readline(), sys.stdin.readline()]: {OK}\nsys.stdin.read()")
        first = registry.ask(Publish("a", "1.0.0"))
        self.assertFalse(first.cancel())
        self.assertEqual(registry.ask(Publish("b", "1.0.0")).result(SECONDS), Accepted(1))
        self.assertEqual(first.result(SECONDS), Accepted(1))
        registry.close()

    def test_a_short_line_comes_behind_a_long_text(self):
        with Registry(PROGRAM) as registry:
            stdin, written = registry._session._stdin, []

            def write(text):
                if not written:
                    comes(lambda: registry._session._queued)  # as a thread that gets no processor until then
                written.append(text)
                return stdin.write(text)

            slow = mock.Mock(wraps=stdin, write=write)
            with mock.patch.object(registry._session, "_stdin", slow):
                registry.many(Publish("a", f"{number}.0.0") for number in range(300))
                self.assertEqual(registry.resolve({"a": "*"}), Selection(300, {"a": "299.0.0"}))
                self.assertTrue(comes(lambda: registry._session._is_whole))
                # now that nothing waits it is written at once, not by that thread
                self.assertEqual(len(written), 2)
                self.assertEqual(registry.resolve({"a": "^7"}).selected, {"a": "7.0.0"})
                self.assertEqual(len(written), 2)

    def test_what_is_called_back(self):
        told = []
        done = threading.Event()

        def again(future):
            with self.assertRaises(RuntimeError):
                registry.list()
            registry.ask(List()).add_done_callback(lambda it: (told.append(it.result()), done.set()))

        with Registry(PROGRAM) as registry:
            registry.ask(Publish("a", "1.0.0")).add_done_callback(again)
            self.assertTrue(done.wait(SECONDS))
        self.assertEqual(told, [Listing(1, {"a": (("1.0.0", False),)})])

    def test_a_program_that_is_killed_leaves_what_it_told(self):
        path, told = self.path("journal"), 0
        for _ in range(20):
            with self.assertRaises(Ended), Registry(PROGRAM, journal=path) as registry:
                futures = registry.many(Publish("a", f"{told}.{number}.0") for number in range(50))
                futures[told % 50].result(SECONDS)
                os.kill(registry._session._process.pid, signal.SIGKILL)
                answered = [future for future in futures if not future.exception(SECONDS)]
                self.assertEqual(answered, futures[:len(answered)])
                told += len(answered)
                raise Ended("it was killed")
            with Registry(PROGRAM, journal=path) as registry:
                self.assertGreaterEqual(registry.list().revision, told)
                told = registry.list().revision
        self.assertGreaterEqual(told, 20)

    def test_what_a_program_says_that_is_no_text(self):
        registry = other("os.write(2, b'\\xffno\\n'); sys.exit(3)")
        self.assertEqual(self.ends("\\Athe program ended with status 3: \ufffdno\\Z", registry.list), 3)
        registry.kill()

    def test_what_cannot_be_begun(self):
        with self.assertRaises(OSError):
            Registry(self.path("none"))
        self.assertEqual(self.ends("registryd: bad words", lambda: Registry([PROGRAM, "--none"])), 2)

    def test_a_budget_of_requests_that_name_none(self):
        needs = {"zed": "*"}  # which no package meets: that takes one conflict
        for budget in (0, 1, (1 << 32) - 1):
            with Registry(PROGRAM, budget=budget) as registry:
                if budget:
                    self.assertEqual(registry.resolve(needs), NoSelection(0))
                else:
                    with self.assertRaises(BudgetSpent):
                        registry.resolve(needs)
                # one that names its own has that
                self.assertEqual(registry.resolve(needs, budget=1), NoSelection(0))
        for options in ({"embedded": True}, {"connect": self.path("socket")}):
            with self.assertRaises(ValueError):
                Registry(budget=0, **options)

    def test_closing_has_a_limit_where_the_program_is_stopped(self):
        for is_asked in (False, True):
            registry = Registry(PROGRAM)
            hard = pigeons(registry) if is_asked else None
            futures = [registry.ask(hard)] if is_asked else []
            os.kill(registry._session._process.pid, signal.SIGSTOP)
            # more than a pipe holds
            futures += registry.many([registryd.Line(b'{"op":"list"}' + b" " * 10_000)] * 100 if is_asked else [])
            begun = time.monotonic()
            self.ends("the program was killed, since it had not ended 0.5 seconds after the session was closed",
                      lambda: registry.close(0.5))
            self.assertLess(time.monotonic() - begun, SOON)
            for future in futures:
                self.assertIsInstance(future.exception(SECONDS), Ended)

    def test_a_program_that_is_killed(self):
        with self.assertRaises(Ended):
            with Registry(PROGRAM) as registry:
                # it waits for its input, and then it's gone
                os.kill(registry._session._process.pid, signal.SIGKILL)
                self.assertEqual(self.ends("by signal 9", registry.list), -9)
                self.assertEqual(self.ends("by signal 9", lambda: registry.ask(List())), -9)

    def test_a_program_that_ends_while_lines_wait(self):
        registry = other(f"sys.stdin.readline()\n{OK}\nprint('told', file=sys.stderr)\nsys.exit(3)")
        futures = registry.many([Publish("a", "1.0.0")] * 10_000)
        self.assertEqual(futures[0].result(SECONDS), Accepted(1))
        for future in futures[1:]:
            self.assertEqual(self.ends("^the program ended with status 3: told$", lambda: future.result(SECONDS)), 3)
        self.ends("status 3", registry.close)

    @mock.patch.object(registryd.waiting, "WAITED", 0.05)
    def test_a_program_that_writes_what_is_no_reply(self):
        for text in ("no reply", "{}", "[]", "null", '{"revision":1,"selected":1}',
                     '{"revision":1,"packages":[["a"]]}'):
            registry = other(f"sys.stdin.readline()\nprint({text!r}, flush=True)\ntime.sleep(100)")
            future = registry.ask(List())
            self.ends("the program wrote no reply", lambda: future.result(SECONDS))
            self.ends("the program wrote no reply", registry.close)

    def test_a_program_that_writes_part_of_a_reply(self):
        registry = other("sys.stdin.readline()\nprint('{\"ok\":true,\"rev', end='', flush=True)")
        # it has ended when no more comes, or does so in a moment
        self.enterContext(mock.patch.object(registryd.waiting, "WAITED", SECONDS))
        self.ends("the program ended with status 0", lambda: registry.ask(List()).result(SECONDS))
        self.ends("the program ended", registry.close)

    @mock.patch.object(registryd.waiting, "WAITED", 0.05)
    def test_a_program_that_writes_one_reply_too_many(self):
        registry = other(f"{OK}\ntime.sleep(100)")
        registry._session._threads[2].join(SECONDS)
        for call in (registry.list, registry.close):
            self.ends("the program wrote no reply", call)

    @mock.patch.object(registryd.waiting, "WAITED", 0.05)
    def test_a_program_that_closes_its_ends(self):
        for closed in (0, 1):
            registry = other(f"sys.stdin.readline()\nos.close({closed})\ntime.sleep(100)")
            future = registry.ask(List())
            if not closed:
                # what is written then finds a broken pipe
                while registry._session._threads[0].is_alive():
                    with contextlib.suppress(Ended):
                        registry.ask(List())
            self.ends("the program ended", lambda: future.result(SECONDS))
            self.ends("the program ended", registry.close)

    @mock.patch.object(registryd.waiting, "WAITED", 2)
    def test_a_program_whose_standard_error_stays_open(self):
        registry = other("import subprocess\nnone = subprocess.DEVNULL\nholds = subprocess.Popen(['sleep', '60'], "
                         "stdin=none, stdout=none, start_new_session=True)\nprint(holds.pid, file=sys.stderr)")
        begun = time.monotonic()
        told = "the program ended with status 0: [0-9]+$"
        self.ends(told, registry.list)
        with self.assertRaisesRegex(Ended, told) as caught:
            registry.close()
        os.kill(int(str(caught.exception).split()[-1]), signal.SIGKILL)
        self.assertLess(time.monotonic() - begun, SOON)

    def test_a_session_that_is_closed_in_time(self):
        path = self.path("journal")
        registry = Registry(PROGRAM, save=path)
        future = registry.ask(Publish("a", "1.0.0"))
        registry.close(SECONDS)
        self.assertEqual(future.result(0), Accepted(1))
        self.assertTrue(os.path.exists(path))
        registry.close(SECONDS)

    def test_a_session_that_is_closed_amid_a_search(self):
        registry = Registry(PROGRAM, journal=self.path("journal"))
        future = registry.ask(pigeons(registry))
        begun = time.monotonic()
        self.assertEqual(self.ends("killed, since it had not ended 0.2 seconds after", lambda: registry.close(0.2)),
                         -signal.SIGKILL)
        self.assertLess(time.monotonic() - begun, SOON)
        self.ends("by signal 9", lambda: future.result(SECONDS))
        registry.close()
        # nothing that was told is lost
        with Registry(PROGRAM, journal=self.path("journal")) as registry:
            self.assertEqual(registry.list().revision, 15 * 14 * 2)

    def test_an_end_that_was_interrupted_is_gone_on_with(self):
        registry = Registry(PROGRAM)
        future = registry.ask(pigeons(registry))
        with mock.patch.object(registry._session._ending, "wait",
                               side_effect=KeyboardInterrupt), self.assertRaises(KeyboardInterrupt):
            registry.close()
        self.ends("killed", lambda: registry.close(0.1))
        self.ends("by signal 9", lambda: future.result(SECONDS))

    def begun(self, script, before=""):
        """A Python of its own that runs a script over a session that searches; and the program's process."""
        text = f"""
import os, registryd
from tests.support.client_python import pigeons
registryd.INTERRUPTED = 0.2
seen = os.dup(0)
{before}
with registryd.Registry({PROGRAM!r}) as registry:
    asked = pigeons(registry)
    future = registry.ask(asked)
    print(registry._session._process.pid, flush=True)
    os.read(seen, 1)
    {script}
"""
        parent = subprocess.Popen([sys.executable, "-c", text], cwd=TOP, env=PYTHON, stdin=subprocess.PIPE,
                                  stdout=subprocess.PIPE, stderr=subprocess.PIPE, text=True, preexec_fn=heed_signals)
        self.addCleanup(parent.communicate)
        self.addCleanup(parent.kill)
        program = int(parent.stdout.readline())
        self.assertTrue(is_running(program))
        parent.stdin.write("\n")
        parent.stdin.flush()
        return parent, program

    def test_no_program_outlives_a_parent_that_is_killed(self):
        # also one without the standard stream whose number the next file gets
        for before in ("", "os.close(0)"):
            parent, program = self.begun("future.result()", before)
            parent.kill()
            self.assertTrue(comes(lambda: not is_running(program)))

    def test_no_program_outlives_a_parent_that_ends(self):
        parent, program = self.begun("os._exit(3)")
        self.assertEqual(parent.wait(SECONDS), 3)
        self.assertTrue(comes(lambda: not is_running(program)))

    def test_a_program_goes_on_where_the_thread_has_ended_that_began_it(self):
        with ThreadPoolExecutor(1) as thread:
            registry = thread.submit(Registry, PROGRAM).result()
        time.sleep(0.1)
        with registry:
            self.assertEqual(registry.publish("a", "1.0.0"), 1)

    def test_an_interrupt_amid_a_search(self):
        parent, program = self.begun("future.result()")
        time.sleep(0.1)
        begun = time.monotonic()
        parent.send_signal(signal.SIGINT)
        _, told = parent.communicate(timeout=SECONDS)
        self.assertLess(time.monotonic() - begun, SOON)
        self.assertEqual(told.splitlines()[-1], "KeyboardInterrupt")
        self.assertFalse(is_running(program))
