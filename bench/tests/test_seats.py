"""That seats and sessions are measured of what is said: each way publishes all, and gives the same reply."""
import re

import pytest

from bench.seats import WAYS, Row, measured, table
from tests.support.library import FOLDER, needs_library
from tests.support.program import skip_without

pytestmark = pytest.mark.not_quick("the static library")


def test_the_best_of_all_rounds():
    row = Row(10, "seats", 4)
    row.take("2000 800 100 3000000\nreply")
    row.take("1000 4000 10 2000000\nreply")
    assert (row.publishing, row.rate, row.megabytes) == (1.0, 5e6, 2.0)


@needs_library
@skip_without("cc", "gcc")
def test_each_way():
    rows = measured(FOLDER, (40,), 1, 0.01)
    assert [(row.way, row.threads) for row in rows] == [*WAYS]
    assert all(min(row.rounds[0]) > 0 for row in rows)
    replies = {re.sub(r'"(place|seat)":\d+,?', "", row.reply) for row in rows}
    assert len({tuple(re.findall(r'\["p\d+","[^"]+"\]', reply)) for reply in replies}) == 1
    assert len([*table(rows)]) == 2 + len(WAYS)
