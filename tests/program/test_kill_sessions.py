"""A few sessions and seats that keep a journal and are killed at random moments. `dev/long/kill_sessions.py` and
`dev/long/kill_seats.py` kill more."""
import functools
import os
import tempfile
import unittest

import pytest

from dev.long import kill_seats, kill_sessions
from tests.support.library import linked, needs_library
from tests.support.program import skip_without

pytestmark = pytest.mark.not_quick("random moments")
KILLS = 40


def kill(case, tried):
    """Kills at random moments, until there were enough."""
    kills = replies = seed = 0
    while kills < KILLS:
        seed += 1
        of_one, of_replies, _, find = tried(seed, most=KILLS - kills)
        case.assertIsNone(find)
        kills, replies = kills + of_one, replies + of_replies
    case.assertGreater(replies, KILLS)
    print(f"({kills} kills, {replies} replies) ", end="")


class Kills(unittest.TestCase):
    def test_killed_under_load(self):
        kill(self, kill_sessions.tried)


@needs_library
@skip_without("cc", "gcc")
class Seats(unittest.TestCase):
    def test_killed_at_random_moments(self):
        with tempfile.TemporaryDirectory() as folder:
            told = linked(os.path.join(folder, "told"), kill_seats.SOURCE)
            kill(self, functools.partial(kill_seats.tried, told=told))
