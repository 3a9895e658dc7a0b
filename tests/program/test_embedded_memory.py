"""Each request for memory of a session in process is refused in turn: a reply may then be 18, or the session is not
opened, or it ends and says so; nothing else changes, and a journal's file has what was told."""
import unittest
from unittest import mock

import pytest

from tests.program.test_memory import (
    BETWEEN, LINES, NO_MEMORY, commands_in, commands_told, each_until_none, missed)
from tests.support.library import needs_library, serving
from tests.support.plain_remnant import remnant
from tests.support.preloaded import REFUSE_MEMORY, built
from tests.support.program import LIST, run

pytestmark = pytest.mark.not_quick("the static library")
# Bytes that are fed at once: so that a session which ends in its midst has told of what came before.
PIECE = "100"


@needs_library
class Memory(unittest.TestCase):
    COMPILED = ()

    @classmethod
    def setUpClass(cls):
        cls.library, cls.serve = built(cls, REFUSE_MEMORY), serving(cls, *cls.COMPILED)

    def refuse_each(self, words, lines):
        """Runs a session with each request refused in turn; answers what each run left, the lawful replies that it
        gave, and how many of them are 18: one at most."""
        with mock.patch.dict("os.environ", EMBEDDED_PIECE=PIECE):
            for done, replies in each_until_none(self.library, [self.serve, "serve", *words], lines):
                self.assertIn((done.returncode, done.stderr), ((0, b""), (1, NO_MEMORY)), done.number)
                self.assertTrue(done.came or done.returncode == 0, done.number)
                if done.returncode == 0:
                    self.assertEqual(len(replies), len(lines), done.number)
                short = len(missed(tuple(lines), replies))
                self.assertLessEqual(short, 1, done.number)
                yield done, replies, short

    def test_each_request_of_a_session(self):
        early = short = 0
        for done, replies, missing in self.refuse_each([], LINES):
            self.assertLessEqual(missing + done.returncode, done.came)
            early += bool(done.returncode and not replies)
            short += missing
        self.assertTrue(early > 2 and short > 20, (early, short))

    def test_each_request_of_a_session_that_saves(self):
        saved = unsaved = 0
        for done, replies, _ in self.refuse_each(["--save", "saved"], BETWEEN):
            left = done.left("saved")
            if done.returncode:
                self.assertIsNone(left, done.number)
            else:
                self.assertEqual(commands_in(left), commands_told(BETWEEN, replies), done.number)
            saved, unsaved = saved + (done.returncode == 0), unsaved + (done.returncode != 0)
        self.assertTrue(saved > 100 and unsaved > 5, (saved, unsaved))

    def test_each_request_of_a_session_that_keeps_its_journal(self):
        whole = ended = 0
        for done, replies, _ in self.refuse_each(["--journal", "kept"], BETWEEN):
            left = done.left("kept")
            told, found = [line.encode() for line in commands_told(BETWEEN, replies)], remnant(left or b"").commands
            self.assertEqual(found[:len(told)], told, done.number)
            if done.returncode == 0:
                self.assertTrue(left.endswith(b"end %d\n" % (left.count(b"\n") - 2)), done.number)
                self.assertEqual(len(found), len(told), done.number)
                whole += 1
                continue
            # a few may stand there whose replies were not told any more
            self.assertLessEqual(len(found), len(told) + 2, done.number)
            ended += 1
            if left is not None:
                again = run(["serve", "--workers", "1", "--journal", f"{done.folder}/kept"], f"{LIST}\n".encode())
                self.assertEqual((again.returncode, again.stderr, again.stdout.count(b"\n")), (0, b"", 1), done.number)
        self.assertTrue(whole > 100 and ended > 5, (whole, ended))
