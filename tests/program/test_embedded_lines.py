"""Sessions in process give the replies and the journals of the program, byte for byte, over every table of lines,
however the lines are cut into pieces; and what they load, save and refuse is what the program does."""
import os
import subprocess

import pytest

from tests.program.test_journals import CHAIN_LEARNT, CONFLICT, Sessions, journal
from tests.support.library import needs_library, serving
from tests.support.program import PROGRAM, SERVE, run
from tests.support.tables import tables_under

pytestmark = pytest.mark.not_quick("the static library")
PIECES = (1, 7, 64, 65_536)


@needs_library
class Lines(Sessions):
    @classmethod
    def setUpClass(cls):
        cls.serve = serving(cls)

    def setUp(self):
        super().setUp()
        self.theirs = os.path.join(self.folder, "theirs")

    def in_process(self, words, given, piece=65_536):
        """What a session in process says, how it ends, and what it tells."""
        done = subprocess.run([self.serve, "serve", *words], input=given, capture_output=True, timeout=100,
                              env={**os.environ, "EMBEDDED_PIECE": str(piece)})
        return done.stdout, done.returncode, done.stderr

    def test_every_table(self):
        pieces = 0
        for table in tables_under("lines"):
            given = table.requests()
            program = run(["serve", "--workers", "1", "--save", self.theirs], given)
            self.assertEqual((program.returncode, program.stdout.decode().splitlines()), (0, table.replies()))
            # a byte at a time takes a call each
            for piece in PIECES if len(given) < 100_000 else PIECES[2:]:
                for words, path in ((["--journal", self.kept], self.kept), (["--save", self.saved], self.saved)):
                    with self.subTest(table.place, piece=piece, words=words[0]):
                        self.assertEqual(self.in_process(words, given, piece), (program.stdout, 0, b""))
                        self.assertEqual(self.read(path), self.read(self.theirs))
                        os.unlink(path)
                        pieces += 1
        self.assertGreater(pieces, 800)

    def test_a_last_line_without_its_line_feed(self):
        for given in (b'{"op":"list"}', b'{"op":"list"}\n{"op"', b"\n\n", b"", b" ", b"x" * 2_000_000, b"x" * 2_000_000
                      + b"\n", b"\xff\0"):
            program = run(["serve", "--workers", "1"], given)
            for words in ([], ["--journal", self.kept]):
                self.assertEqual(self.in_process(words, given), (program.stdout, program.returncode, program.stderr))

    def test_what_is_loaded(self):
        for text in (journal(CONFLICT), journal(CONFLICT, 1), CHAIN_LEARNT, journal([])):
            self.write(self.loaded, text)
            given = b'{"op":"list"}\n{"op":"resolve","needs":[["foo",">=1.0.0"]]}\n'
            program = run(["serve", "--workers", "1", "--load", self.loaded, "--save", self.theirs], given)
            self.assertEqual(self.in_process(["--load", self.loaded, "--save", self.saved], given),
                             (program.stdout, 0, b""))
            self.assertEqual(self.read(self.saved), self.read(self.theirs))

    def test_what_is_no_journal(self):
        whole = CHAIN_LEARNT
        for text in (b"", b"hello\n", whole[:-1], whole + b"\n", whole.replace(b"end 4", b"end 5"),
                     whole.replace(b",", b", ", 1), *(whole[:cut] for cut in range(0, len(whole), 9))):
            self.write(self.loaded, text)
            self.write(self.saved, b"as it was")
            program = run(["serve", "--workers", "1", "--load", self.loaded], b"")
            line = int(program.stderr.split()[-1])
            told = f"registryd: journal {self.loaded}: line {line} is not a journal's, and nothing was changed\n"
            self.assertEqual(self.in_process(["--load", self.loaded, "--save", self.saved], b""),
                             (b"", 1, told.encode()))
            self.assertEqual(self.read(self.saved), b"as it was")

    def test_the_program_and_a_session_in_process_exclude_each_other(self):
        told = f"registryd: journal {self.kept}: in use by another session\n".encode()
        words, pipe = [*SERVE, "--journal", self.kept], subprocess.PIPE
        for one, other in ((PROGRAM, self.serve), (self.serve, PROGRAM)):
            with subprocess.Popen([one, *words], stdin=pipe, stdout=pipe, bufsize=0) as holder:
                holder.stdin.write(b'{"op":"list"}\n')
                self.assertTrue(holder.stdout.readline())
                done = subprocess.run([other, *words], input=b"", capture_output=True, timeout=100)
                self.assertEqual((done.returncode, done.stdout, done.stderr), (1, b"", told))
                holder.stdin.close()
                self.assertEqual(holder.wait(), 0)

    def test_each_goes_on_with_what_the_other_left(self):
        given = [line.encode() + b"\n" for line in CONFLICT]
        ways = (lambda line: run([*SERVE, "--journal", self.kept], line).stdout,
                lambda line: self.in_process(["--journal", self.kept], line)[0])
        for number, line in enumerate(given):
            self.assertEqual(ways[number % 2](line), b'{"ok":true,"revision":%d}\n' % (number + 1))
        self.assertEqual(self.read(self.kept), journal(CONFLICT))
