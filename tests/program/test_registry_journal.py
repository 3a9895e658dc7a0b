"""`registry journal verify` and `registry journal repair`: worked journals with all that is told of them, and damaged
ones, of which the program says which line is at fault, and whether a session goes on with them."""
import os
import random
import tempfile
from pathlib import Path
from unittest import mock

from dev.long import fuzz
from registry_cli.journal_faults import why
from registry_cli.journal_file import CUT, FAULTY, WHOLE, journal_text, read_journal
from tests.support import program
from tests.support.made_lines import Maker
from tests.support.program import SERVE, run
from tests.support.registry_folder import Folder


class Verify(Folder):
    def read(self, said):
        path = self.path("some.journal")
        Path(path).write_bytes(said if isinstance(said, bytes) else said.encode())
        with mock.patch.dict(os.environ, REGISTRY_PROGRAM=program.PROGRAM):
            journal = read_journal(path)
            return journal, why(path, journal) if journal.state == FAULTY else None

    def test_damaged_journals(self):
        """The program says by `--load` which line is at fault, and by `--journal` whether a session goes on with the
        file."""
        states = {WHOLE: 0, CUT: 0, FAULTY: 0}
        for seed in range(4):
            maker = Maker(random.Random(seed))
            _, lines = fuzz.first_lines(maker, 150)
            fuzz.run(lines, "--save", self.journal)
            held = Path(self.journal).read_bytes()
            for _ in range(25):
                journal, told = self.read(fuzz.damaged(maker, held))
                states[journal.state] += 1
                self.assertEqual(journal.line, loaded(journal.text))
                self.assertEqual(told is not None, journal.state == FAULTY)
                self.go_on(journal)
        self.assertTrue(all(states.values()), states)

    def go_on(self, journal):
        """A session begins with a copy of the file, unless it is at fault, and what it leaves is what was lawful."""
        path = self.path("copy.journal")
        Path(path).write_bytes(journal.text)
        done = run(["serve", "--workers", "1", "--journal", path])
        self.assertEqual(done.returncode, int(journal.state == FAULTY), done.stderr)
        if journal.state == FAULTY:
            self.assertRegex(done.stderr, rb"^registryd: journal .*\bline %d\b" % journal.line)
        else:
            self.assertEqual(done.stderr, b"")
            self.assertEqual(Path(path).read_bytes(), journal_text(journal.items))


class Repair(Folder):
    def repair(self, *words):
        return self.registry("journal", "repair", *words)

    def test_damaged_journals(self):
        """What is kept is the longest beginning that the program loads, with an end."""
        maker = Maker(random.Random(7))
        _, lines = fuzz.first_lines(maker, 100)
        fuzz.run(lines, "--save", self.journal)
        held = Path(self.journal).read_bytes()
        for number in range(20):
            path, said = self.path(f"{number}.journal"), fuzz.damaged(maker, held)
            Path(path).write_bytes(said)
            if self.repair(path)[0] == 0 and os.path.exists(path + ".repaired"):
                kept = Path(path + ".repaired").read_bytes()
                *items, end = kept.split(b"\n")[1:-1]
                self.assertEqual((loaded(kept), end), (0, b"end %d" % len(items)))
                self.assertTrue(said.startswith(kept[:-len(end) - 1]) or said.split(b"\n")[0] not in kept)
                self.assertEqual(len(items), loaded(said) - 2 - (said.split(b"\n")[loaded(said) - 2] == end))


def loaded(said):
    """The line at which the program refuses a journal's text, 0 where it loads it."""
    with tempfile.NamedTemporaryFile() as file:
        file.write(said)
        file.flush()
        done = run([*SERVE, "--load", file.name])
    return int(done.stderr.split()[-1]) if done.returncode else 0
