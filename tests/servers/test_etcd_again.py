"""Fronts over etcd that are killed and begun again, and whose cells are dropped: they answer as before, or say that
they can't. `tests/transcripts/etcd_again.t` has the cases worked by hand."""
import unittest

from dev.long import etcd_histories
from tests.support.fake_etcd import SmallMember

LEAST, MOST = 3, 30  # histories


class Histories(unittest.TestCase):
    def test_histories_whose_fronts_are_killed_and_whose_cells_are_dropped(self):
        forgotten = 0
        for seed in range(2, 2 + 3 * MOST, 3):
            members = SmallMember()
            self.addCleanup(members.close)
            history = etcd_histories.History(members, seed, 3, 2.0, 10)
            assert history.run() is None
            forgotten += history.done["replies no longer kept"]
            # when fronts are killed hangs on how fast the machine is
            if forgotten and seed >= 2 + 3 * LEAST:
                break
        assert forgotten > 0
