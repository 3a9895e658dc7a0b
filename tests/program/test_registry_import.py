"""`registry import`: intervals of Debian, files that have no end, and a terminal. Transcripts have the samples."""
import os
import tempfile
import unittest
from pathlib import Path
from unittest import mock

from registry_cli import files
from registry_cli.indexes.debian import BEYOND, NOTHING, comparator, joined
from tests.program.test_check_derivation import rows
from tests.support.called import registry
from tests.support.program import PROGRAM, TOP
from tests.support.registry_folder import Folder, at_terminal

TOOL = os.path.join(TOP, "registry")
DEBIAN = os.path.join(TOP, "tests", "support", "data", "debian.txt")


class Debian(unittest.TestCase):
    def test_an_interval_as_a_requirement(self):
        def numbers(text, without):
            return without if text == "-" else tuple(map(int, text.split(".")))
        for row in rows("debian_intervals.txt"):
            low, high, wanted = row.split(" ", 2)
            self.assertEqual(comparator((numbers(low, NOTHING), numbers(high, BEYOND))), wanted)

    def test_alternatives_that_leave_nothing_out_are_one(self):
        one, two, three, four = [((number, 0, 0), (number + 1, 0, 0)) for number in (1, 2, 3, 4)]
        for parts, wanted in [([two, one], ((1, 0, 0), (3, 0, 0))), ([one, three], None),
                              ([four, two, three], ((2, 0, 0), (5, 0, 0))),
                              ([one, (NOTHING, BEYOND)], (NOTHING, BEYOND)), ([one], one)]:
            self.assertEqual(joined(parts), wanted)


class Published(Folder):
    def test_a_bar_on_a_terminal(self):
        # it is rewritten, and is gone at the end
        status, told = at_terminal([TOOL, "import", "debian", DEBIAN, "--journal", self.journal],
                                   {"REGISTRY_PROGRAM": PROGRAM})
        self.assertEqual(status, 0)
        self.assertIn("\rimporting [##############################] 100%, 7 of 7\r\x1b[K", told)
        self.assertIn("\rimporting [####..........................] 14%, 1 of 7\r", told)
        self.assertIn("left out: packages of features", told)
        self.assertTrue(told.startswith("reading the index\r\x1b[K"))


class Words(unittest.TestCase):
    def test_a_file_that_may_have_no_end_is_told(self):
        with mock.patch.object(files, "MOST_BYTES", 4_096), tempfile.TemporaryDirectory() as top:
            path = Path(top, "1", "a")
            path.parent.mkdir()
            path.write_text(" " * 4_097, encoding="ascii")
            for words, at in ((("debian", "/dev/zero"), "/dev/zero"), (("crates-io", top), path)):
                self.assertEqual(registry("import", words[0], "--lines", words[1]),
                                 (3, "", f"registry: {at} has more than 4,096 bytes, which is the limit\n"))
