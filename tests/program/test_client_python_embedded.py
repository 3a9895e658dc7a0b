"""The client in Python over the library in this process: which library it takes, what it refuses to begin, and what
becomes of sessions that are forgotten, forked, interrupted, or closed while a search runs."""
import contextlib
import os
import shutil
import threading
from pathlib import Path
from unittest import mock

import pytest

import registryd
from registryd import Accepted, Ended, List, Listing, Publish, Registry, Resolve
from tests.support.client_python import PYTHON, SOON, Case, accepted, printed
from tests.support.library import LIBRARY, needs_library
from tests.support.program import TOP

pytestmark = pytest.mark.not_quick("the static library")
CLIENT = os.path.join(TOP, "clients", "python", "registryd")
MOST = 64  # sessions that may be open at once


class Library(Case):
    """Which library is taken. What is named comes before what is installed, and that before what the system finds."""

    def test_a_library_that_is_named(self):
        with mock.patch.dict(os.environ, {"REGISTRYD_LIBRARY": "/from/the/variable.so"}):
            self.assertEqual(registryd.embedded.library_path("named.so"), "named.so")
            self.assertEqual(registryd.embedded.library_path(None), "/from/the/variable.so")

    def test_the_library_that_is_installed(self):
        client, library = self.path("share", "registryd", "clients", "python"), self.path("lib", "libregistryd.so")
        shutil.copytree(CLIENT, os.path.join(client, "registryd"))

        def taken():
            script = "import registryd; print(registryd.embedded.library_path(None))"
            return printed(script, client, REGISTRYD_LIBRARY="")

        self.assertEqual(taken(), "libregistryd.so")
        os.makedirs(os.path.dirname(library))
        Path(library).touch()
        self.assertEqual(os.path.realpath(taken()), os.path.realpath(library))

    def test_a_library_that_is_not_there(self):
        none = self.path("none.so")
        with self.assertRaisesRegex(OSError, "none.so"):
            Registry(embedded=True, library=none)


@needs_library
class Embedded(Case):
    def open(self, **options):
        return Registry(embedded=True, library=LIBRARY, **options)

    def test_a_name_counts_from_the_folder_in_which_the_session_began(self):
        self.addCleanup(os.chdir, os.getcwd())
        os.chdir(self.folder)
        with self.open(journal="kept") as registry:
            registry.publish("a", "1.0.0")
            os.chdir("/")
            self.assertEqual(registry.publish("b", "1.0.0"), 2)

    def test_what_cannot_be_asked_for(self):
        for options in ({"workers": 2}, {"journal": self.path("a"), "load": self.path("b")},
                        {"journal": self.path("a"), "save": self.path("b")}):
            with self.assertRaises(ValueError):
                self.open(**options)
        self.assertEqual(os.listdir(self.folder), [])

    def test_sessions_of_one_process(self):
        with self.open() as one, self.open() as other:
            self.assertEqual((one.publish("a", "1.0.0"), one.publish("b", "1.0.0"), other.publish("c", "1.0.0")),
                             (1, 2, 1))
            self.assertEqual(other.list(), Listing(1, {"c": (("1.0.0", False),)}))

    def test_more_sessions_than_there_may_be(self):
        with contextlib.ExitStack() as opened, self.assertRaisesRegex(Ended, "as many sessions are open as may be"):
            for _ in range(MOST + 1):
                opened.enter_context(self.open())
        self.open().close()

    def test_sessions_that_are_forgotten_are_closed(self):
        for number in range(2 * MOST):
            self.assertEqual(self.open(journal=self.path("journal")).publish("a", f"{number}.0.0"), number + 1)

    def test_what_is_called_back_may_call(self):
        told = []
        with self.open() as registry:
            asked = registry.ask(Publish("a", "1.0.0"))
            asked.add_done_callback(lambda it: told.append((it.result(), registry.list().revision)))
        self.assertEqual(told, [(Accepted(1), 1)])

    def test_a_forked_process_has_no_session(self):
        registry = self.open(journal=self.path("journal"))
        self.assertEqual(registry.publish("a", "1.0.0"), 1)
        child = os.fork()
        if not child:
            # nothing of the test may go on here
            try:
                registry.publish("b", "1.0.0")
            except Ended as told:
                os._exit(0 if "forked" in str(told) else 2)
            finally:
                os._exit(1)
        self.assertEqual(os.waitstatus_to_exitcode(os.waitpid(child, 0)[1]), 0)
        self.assertEqual(registry.publish("b", "1.0.0"), 2)
        registry.close()

    def test_a_call_that_was_interrupted_leaves_no_reply_to_the_next(self):
        registry = self.open()
        accepted(registry, [Publish("a", f"{number}.0.0") for number in range(4000)])
        library = registry._session._library

        def interrupted(*given):
            library.registryd_ask(*given)
            raise KeyboardInterrupt

        for request in (List(), Resolve({"a": "*"})):
            # the listing is longer than what is taken at once
            with mock.patch.object(registry._session, "_library", mock.Mock(wraps=library, registryd_ask=interrupted)):
                self.assertRaises(KeyboardInterrupt, registry.ask, request)
            self.assertEqual(registry.resolve({"a": "^7"}).selected, {"a": "7.0.0"})
        registry.close()

    def test_a_session_that_fails_on_the_way(self):
        registry = self.open()
        library = registry._session._library

        def failing(number, lines, length, *takes):
            library.registryd_feed(number, lines[:lines.index(b"\n") + 1], lines.index(b"\n") + 1)
            return 4

        with mock.patch.object(registry._session, "_library", mock.Mock(wraps=library, registryd_ask=failing)):
            first, second = registry.many([Publish("a", "1.0.0"), Publish("b", "1.0.0")])
        # what came before is told
        self.assertEqual(first.result(0), Accepted(1))
        self.ends("the library answered 4", lambda: second.result(0))
        self.ends("the library answered 4", registry.list)
        self.ends("the library answered 4", registry.close)
        registry.close()

    def test_a_session_that_is_closed_amid_a_search(self):
        # in a process of its own, since the search can't be ended
        script = f"""
import os, threading, time, registryd
from tests.support.client_python import pigeons
registry = registryd.Registry(embedded=True, library={LIBRARY!r}, journal="a.journal")
threading.Thread(target=registry.ask, args=[pigeons(registry)], daemon=True).start()
while not registry._session._asker:
    time.sleep(0.01)
begun = time.monotonic()
try:
    registry.close(0.2)
except TimeoutError as told:
    print(time.monotonic() - begun < {SOON}, told, flush=True)
"""
        path = os.pathsep.join([PYTHON["PYTHONPATH"], TOP])
        told = "a search of the session still runs after 0.2 seconds, and can't be ended in this process"
        self.assertEqual(printed(script, self.folder, PYTHONPATH=path), f"True {told}")
        # nothing that was told is lost
        with self.open(journal=self.path("a.journal")) as registry:
            self.assertEqual(registry.list().revision, 15 * 14 * 2)

    def test_a_session_is_closed_once_the_search_has_ended(self):
        with self.open(save=self.path("journal")) as registry:
            is_begun, may_end = threading.Event(), threading.Event()

            def search():
                is_begun.set()
                may_end.wait()

            searching = threading.Thread(target=registry._session._alone, args=[search])
            searching.start()
            is_begun.wait()
            self.assertRaises(TimeoutError, registry.close, 0.05)
            threading.Timer(0.2, may_end.set).start()
            self.assertEqual(registry.publish("a", "1.0.0"), 1)
            searching.join()
        self.assertTrue(os.path.exists(self.path("journal")))
