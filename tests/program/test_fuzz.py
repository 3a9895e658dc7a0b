"""A few sessions and journals that nobody would write by hand, each with its seed. `dev/long/fuzz.py` tries more."""
import unittest

from dev.long import fuzz


class Fuzz(unittest.TestCase):
    LONGEST = 300  # on a busy machine

    def test_sessions(self):
        for seed in range(20):
            _, find = fuzz.tried(seed, 250)
            self.assertIsNone(find)
