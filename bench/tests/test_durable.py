"""That what a journal costs is measured of what it says: sessions that keep one, their syncs, and a journal that has
all lines."""
import os
import tempfile
import unittest

from bench.durable import Bench, sync_of
from tests.support.program import PROGRAM, skip_without

LINES, ASKED = 1_500, 20


class Durable(unittest.TestCase):
    def setUp(self):
        folder = tempfile.TemporaryDirectory()
        self.addCleanup(folder.cleanup)
        self.bench = Bench(PROGRAM, folder.name, LINES, ASKED)

    def ends(self, path):
        """How the file of a journal ends."""
        with open(path, "rb") as file:
            return file.read().splitlines()[-1]

    def test_sessions_of_lines_at_hand(self):
        plain, kept, saved = self.bench.at_hand(1)
        self.assertGreater(min(it.seconds for it in (plain, kept, saved)), 0)
        self.assertGreater(min(it.peak for it in (plain, kept, saved)), 1_000)
        self.assertEqual({self.ends(path) for path in (self.bench.kept, self.bench.saved)}, {b"end %d" % LINES})

    def test_a_client_that_waits(self):
        self.assertGreater(min(self.bench.one_by_one(1)), 0)
        self.assertEqual(self.ends(self.bench.kept), b"end %d" % ASKED)

    def test_what_is_loaded_is_all_of_it(self):
        none, loaded, gone_on = self.bench.loading(1)
        # of a processor, a tenth of it; how long they take hangs on what else runs
        self.assertLess(none.processor, min(loaded.processor, gone_on.processor))
        self.assertEqual(self.ends(self.bench.kept), b"end %d" % LINES)

    @skip_without("cc", "gcc")
    def test_syncs_are_counted(self):
        at_hand, one_by_one = self.bench.syncs()
        # one for each 65,536 bytes that are read, and one for the end; one for each publication, and one for the end
        size = os.path.getsize(self.bench.given)
        self.assertIn(at_hand, range(size // 65_536 + 1, size // 65_536 + 4))
        self.assertEqual(one_by_one, ASKED + 1)

    def test_a_sync_takes_time(self):
        self.assertGreater(sync_of(self.bench.folder, 100), 0)
