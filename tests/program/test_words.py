"""Tables of command lines: `rows/words.rows` has words of all kinds, `rows/broken.rows` reads, writes and files that
fail. `command_lines.py` says how they are written."""
import os
import tempfile
import unittest
from pathlib import Path

from tests.support.command_lines import cases
from tests.support.preloaded import BREAK_CALLS, built
from tests.support.program import TOP, run


class Words(unittest.TestCase):
    @classmethod
    def setUpClass(cls):
        cls.library = built(cls, BREAK_CALLS)

    def make(self, folder, files):
        for name, text in files.items():
            Path(folder, name).write_text(text, encoding="ascii")

    def read(self, folder, name):
        return Path(folder, name).read_text(encoding="ascii")

    def ran(self, case, words, folder):
        """What a run left, and what it printed."""
        given, broken = case.text("input").encode(), case.breaks()
        if case.told["room"]:
            path = os.path.join(folder, "standard output")
            with open(path, "wb") as out:
                done = run(words, given, cwd=folder, stdout=out, most=int(case.told["room"][0]))
            return done, self.read(folder, path)
        if broken:
            done, came = broken.run(self.library, words, given, cwd=folder)
            self.assertTrue(came, f"{case.place}: there is no such call")
        else:
            done = run(words, given, cwd=folder)
        return done, done.stdout.decode()

    def compare(self, case, words):
        told = f"{case.place}: {words}: {case.title}"
        with tempfile.TemporaryDirectory() as folder:
            self.make(folder, case.files)
            done, printed = self.ran(case, words, folder)
            self.assertEqual([str(done.returncode)], case.told["status"], told)
            self.compare_errors(case, done.stderr.decode(), told)
            for part in case.told["has"]:
                self.assertIn(part, printed, told)
            if not case.told["has"]:
                whole = case.text("output")
                self.assertEqual(printed, whole[:int(case.told["room"][0])] if case.told["room"] else whole, told)
            for name, text in case.left().items():
                self.assertEqual(self.read(folder, name), text, told)
            for name in case.told["none"]:
                self.assertFalse(os.path.exists(os.path.join(folder, name)), told)

    def compare_errors(self, case, said, told):
        last = case.text("error")
        before = said.removesuffix(last)
        self.assertEqual(before + last, said, told)
        for part in case.told["says"]:
            self.assertIn(part, before, told)
        if not case.told["says"]:
            self.assertEqual(before, "", told)

    def of_file(self, name, least):
        count = 0
        for case in cases(os.path.join(TOP, "rows", name)):
            for words in case.words:
                with self.subTest(case.place, words=words):
                    self.compare(case, words)
                count += 1
        self.assertGreater(count, least)

    def test_words(self):
        self.of_file("words.rows", 30)

    def test_broken(self):
        self.of_file("broken.rows", 20)

    def test_a_word_that_is_no_text(self):
        # nothing is shown: the reader of the command line takes texts
        done = run([b"\xff"])
        self.assertEqual((done.returncode, done.stdout, done.stderr), (2, b"", b"registryd: bad words\n"))
