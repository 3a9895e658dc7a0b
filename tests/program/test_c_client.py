"""The library of clients/c over the program: its examples in C and in Rust, what a careless caller does, and a caller
that is killed."""
import os
import re
import signal
import subprocess
import time
from pathlib import Path

import pytest

from tests.support import library
from tests.support.library import CLIENT, FOLDER, TESTS, linked, linked_with_sources, needs_library
from tests.support.processes import is_gone, is_running
from tests.support.program import PROGRAM, resolve, skip_without
from tests.support.registry_folder import pigeons

pytestmark = pytest.mark.not_quick("the static library")
CALLS = os.path.join(TESTS, "c_client_calls.c")
OUTLIVED = os.path.join(TESTS, "c_client_outlived.c")
CLOSED = os.path.join(TESTS, "c_client_closed.c")
MEMORY = os.path.join(TESTS, "c_client_memory.c")
PAGE = Path(CLIENT, "README.md").read_text(encoding="utf-8")
PLACES, BIRDS = pigeons(15)
# A request whose search outlasts each test, behind what it is of.
SEARCH = "".join(line + "\n" for line in [*PLACES, resolve(*(f"{bird} *" for bird in BIRDS))]).encode()
REPLIES = (b'{"ok":true,"revision":1}\n{"ok":true,"revision":2}\n'
           b'{"revision":2,"selected":[["app","1.0.0"],["log","1.3.0"]]}\n')
AGAIN = (b'{"error":7,"name":"AlreadyPublished","revision":2}\n' * 2 + REPLIES.splitlines(True)[2])
JOURNAL = """registry-journal 2
{"name":"log","needs":[],"op":"publish","version":"1.3.0"}
{"name":"app","needs":[["log","^1.2"]],"op":"publish","version":"1.0.0"}
end 2
"""


def check_example(command, path, **more):
    """An example answers its lines; a second one goes on with its journal."""
    for wanted in (REPLIES, AGAIN):
        done = subprocess.run([*command, path], capture_output=True, timeout=300, **more)
        assert (done.returncode, done.stdout, done.stderr) == (0, wanted, b"")
    assert path.read_text(encoding="ascii") == JOURNAL
    path.unlink()


@needs_library
@skip_without("cc", "gcc")
class Client(library.Caller):
    def do(self, *words, status=0, told=b"", **more):
        """What a command prints in the test's folder, which has to end so, and to say this on standard error."""
        done = subprocess.run(words, cwd=self.folder, capture_output=True, timeout=300, **more)
        self.assertEqual((done.returncode, done.stderr), (status, told), done.stdout)
        return done.stdout

    def check_example(self, *words):
        check_example([self.caller, *words], Path(self.folder, "a.journal"))

    def test_the_example_in_process(self):
        linked(self.caller, os.path.join(CLIENT, "example.c"))
        self.check_example()
        told = b"journal no/such.journal: can't be created: No such file or directory (os error 2)\n"
        self.assertEqual(self.do(self.caller, "no/such.journal", status=1, told=told), b"")

    def test_the_example_by_a_child(self):
        linked(self.caller, os.path.join(CLIENT, "example_child.c"))
        self.check_example(PROGRAM)

    def test_the_example_that_explains(self):
        linked(self.caller, os.path.join(CLIENT, "example_why.c"))
        printed = re.search(r"It prints\n\n((?:    .*\n)+)", PAGE)[1]
        self.assertEqual(self.do(self.caller).decode(), re.sub("^    ", "", printed, flags=re.M))

    def test_the_example_of_seats(self):
        printed = re.search(r"example_seats.c cache.journal\n\nIt prints\n\n    (.*\n)", PAGE)[1]
        linked(self.caller, os.path.join(CLIENT, "example_seats.c"))
        # the second time all stands there already
        for told in (printed, printed.replace("145", "0")):
            self.assertEqual(self.do(self.caller, "cache.journal").decode(), told)

    @skip_without("rustc", "rustc")
    def test_the_example_in_rust(self):
        self.do("rustc", "--edition", "2021", os.path.join(CLIENT, "example.rs"), "-L", f"native={FOLDER}",
                "-o", self.caller)
        self.check_example(PROGRAM)

    def test_careless_callers(self):
        # what goes beyond its memory, or is undefined in C, ends the program
        linked_with_sources(self.caller, CALLS, "-g", "-fsanitize=address,undefined", "-fno-sanitize-recover")
        # the program's own words on the journal that isn't there, and on the one that another session has
        told = b"registryd: input failed\n" * 2 + b"registryd: journal k.journal: in use by another session\n"
        self.assertEqual(self.do(self.caller, PROGRAM, told=told), b"")

    def test_no_memory_for_replies(self):
        linked(self.caller, MEMORY, "-Wl,--wrap=realloc")
        # a program that nobody hears any more says so
        self.assertEqual(self.do(self.caller, PROGRAM, told=b"registryd: output failed\n"), b"")

    def test_a_session_is_closed_while_a_thread_waits_for_a_search(self):
        linked_with_sources(self.caller, CLOSED, "-g", "-fsanitize=thread")
        # it is told amid its call, or before the next one
        self.assertIn(self.do(self.caller, PROGRAM, input=SEARCH), (b"4\n", b"1\n"))

    def test_the_program_does_not_outlive_its_caller(self):
        linked(self.caller, OUTLIVED)
        with subprocess.Popen([self.caller, PROGRAM], stdin=subprocess.PIPE, stdout=subprocess.PIPE,
                              cwd=self.folder) as running:
            running.stdin.write(SEARCH)
            running.stdin.close()
            # the thread that started the program has ended, and the program searches
            program = int(running.stdout.readline())
            self.assertEqual(running.stdout.readline(), b"fed\n")
            time.sleep(0.3)
            self.assertTrue(is_running(program))
            running.send_signal(signal.SIGKILL)
            running.wait()
        self.assertTrue(is_gone(program), "the program has outlived its caller")
