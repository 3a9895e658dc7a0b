"""A few sessions that keep a journal, whose files are moved or removed. `dev/long/move_journals.py` moves more."""
import unittest
from unittest import mock

import pytest

from dev.long import move_journals

pytestmark = pytest.mark.not_quick("random moments")


class Moves(unittest.TestCase):
    def test_moved_under_load(self):
        for seed in range(24):
            _, find = move_journals.tried(seed)
            self.assertIsNone(find)

    def test_what_is_accepted_later_is_found(self):
        # the session goes on with a file that was not moved
        ways = {way: mock.DEFAULT for way in ("renamed", "removed", "replaced")}
        with mock.patch.multiple(move_journals, **ways) as patched:
            for way in patched.values():
                way.__name__ = "left"
            _, find = move_journals.tried(1)
        self.assertRegex(find, r"\Aseed 1: left: 1\d\d commands were accepted that were sent later\Z")
