"""Sessions in process under a careless caller: nulls, lengths, numbers of no session, many sessions, processes that are
forked, threads at one session; by itself, under valgrind, and under the sanitizers of the C compiler."""
import os
import subprocess
import tempfile

import pytest

from tests.support.library import TESTS, Caller, linked, linked_with_sources, needs_library
from tests.support.program import PROGRAM, skip_without

pytestmark = pytest.mark.not_quick("the static library")
CALLS = os.path.join(TESTS, "c_embedded_calls.c")
PATIENCE = 300  # seconds, under valgrind and on a busy machine too
ADDRESS = ["-g", "-fsanitize=address,undefined", "-fno-sanitize-recover"]
THREADS = ["-g", "-fsanitize=thread"]
# What the archive keeps of a session that a forked process forsakes is no leak of the process itself.
VALGRIND = ["valgrind", "-q", "--error-exitcode=99", "--leak-check=full", "--errors-for-leak-kinds=definite",
            "--trace-children=no"]


@needs_library
@skip_without("cc", "gcc")
class Calls(Caller):
    LONGEST = PATIENCE  # under valgrind
    SOURCE, KINDS = CALLS, ("calls", "forks", "forks beside a thread", "threads")

    def tried(self, *what, before=()):
        """The calls of such a kind hold, and nothing is said."""
        for word in what:
            with self.subTest(word), tempfile.TemporaryDirectory(dir=self.folder) as folder:
                done = subprocess.run([*before, self.caller, word, PROGRAM], cwd=folder, stdin=subprocess.DEVNULL,
                                      capture_output=True, timeout=PATIENCE)
                self.assertEqual((done.returncode, done.stdout, done.stderr), (0, b"", b""))

    def test_by_itself(self):
        linked(self.caller, self.SOURCE)
        self.tried(*self.KINDS)

    @skip_without("valgrind", "valgrind")
    def test_under_valgrind(self):
        linked(self.caller, self.SOURCE, "-g")
        self.tried("calls", "threads", before=VALGRIND)

    def test_under_the_sanitizers_of_addresses_and_of_what_is_undefined(self):
        linked_with_sources(self.caller, self.SOURCE, *ADDRESS)
        self.tried("calls", "forks", "threads")

    def test_under_the_sanitizer_of_threads(self):
        linked_with_sources(self.caller, self.SOURCE, *THREADS)
        self.tried("calls", "threads")
