"""Each public call that takes memory, with each of its requests refused in turn: it then answers lack of memory and
leaves all as it was, or it answers what it answers otherwise.

The calls stand in `rows/refused.rows`. A table is named by the public calls that it is of. Its row with the member
`refuse` is the call, the rows before it set things up, and those behind it show what the call left. A call that has no
table is one whose contract says all of that."""
import functools
import json
import unittest

import pytest

from tests.support import generated_rows_chronicle, generated_rows_store
from tests.support.preloaded import REFUSE_MEMORY, built, each_refused
from tests.support.program import PROBE, TOP
from tests.support.public_calls import said_by_clauses, that_take_memory
from tests.support.row_tables import BEGIN, of_file
from tests.support.source_calls import Sources, sources_below

pytestmark = pytest.mark.not_quick("refused memory")
SHORT = {"refused": 18}


@functools.lru_cache(maxsize=64)
def values(text):
    """The value of each line; most runs of a table leave the same."""
    return [json.loads(line) for line in text.splitlines()]


class Answers:
    """What a run answered, how many requests there were, and whether it came to the one that is refused."""

    def __init__(self, run):
        self.answers = values(run.stdout)
        self.number, self.is_whole, self.requests, self.came = run.number, run.returncode == 0, run.requests, run.came


def without_offers(answer):
    """The answer to a request where there is no memory for what is offered to be learnt, which is then left out."""
    return {**answer, "offered": []} if isinstance(answer, dict) and "offered" in answer else answer


def is_in_part(answer, ample):
    """Whether these are the answers to several requests, some of which found no memory."""
    return (isinstance(ample, list) and isinstance(answer, list) and len(answer) == len(ample)
            and all(one in (SHORT, full) for one, full in zip(answer, ample)))


def refused_rows():
    """The title and the call of each table."""
    for table in of_file("refused.rows"):
        yield table.title, next(row for row in (json.loads(it.asked) for it in table.rows) if row.get("refuse"))


# Where the calls of a row are made, the kinds of rows of these crates, and what rows call that have another name.
PROBED = "probe/src/session.rt", "call"
OF = {"checker": "chain", "search": "partial"}
CALLED_SO = {"steps": ["seats"], "follow": ["new", "start", "resolve", "conclusion"]}


def names_in(row):
    """The names of what a row's words call."""
    steps = [it for step in row.get("steps", []) for it in (step if isinstance(step, list) else [step])]
    words = {row["call"], *(it for it in steps if isinstance(it, str)), *CALLED_SO.get(row["call"], [])}
    asked = [row, *(it for it in steps if isinstance(it, dict))]
    ends = [end for end, member in (("within", "budget"), ("with", "explain")) if any(member in it for it in asked)]
    return words | {f"{word}_{end}" for word in words for end in ends}


def found_in(sources, name):
    """The functions of a full name."""
    crate, _, rest = name.partition("::")
    return {one for one in sources.find(rest) if one.crate == crate}


class RefusedCalls(unittest.TestCase):
    LONGEST = 300  # each refused request for memory is a run of a program

    @classmethod
    def setUpClass(cls):
        cls.library = built(cls, REFUSE_MEMORY)

    def each(self, rows, numbers):
        """What each run of the probe on these rows left, of which one request for memory is refused: that of one of
        these numbers."""
        given = "".join(json.dumps(row) + "\n" for row in rows).encode()
        return map(Answers, each_refused(self.library, [PROBE], given, numbers))

    def run_of(self, rows):
        """What a run left that is refused nothing."""
        (told,) = self.each(rows, range(1))
        return told

    def refuse_each(self, table):
        """Refuses each request of the table's call in turn; answers how many answered lack of memory."""
        rows = [json.loads(line) for line in table.lines()]
        at = [number for number, row in enumerate(rows) if row.pop("refuse", False)]
        self.assertEqual(len(at), 1, f"{table.title}: one row is the call")
        at, short = at[0], 0
        first, last = self.run_of(rows[:at]).requests, self.run_of(rows[:at + 1]).requests
        ample, before = self.run_of(rows).answers, self.run_of(rows[:at] + rows[at + 1:]).answers
        self.assertEqual(len(ample), len(rows), table.title)
        self.assertNotIn(ample[at], (SHORT, {"bad": True}, {"skipped": True}), f"{table.title}: the call is not made")
        self.assertGreater(last, first, table.title)
        for told in self.each(rows, range(first + 1, last + 1)):
            self.assertTrue(told.came, (table.title, told.number))
            short += self.judge(table, at, told, ample, before)
        return short

    def refuse_last(self, made, count, step):
        """Refuses one in so many of the last requests of a long row: what is met there is answered as ever, after one
        more try."""
        (title, (row,)), = made
        asked = {name: value for name, value in row.items() if name != "gives"}
        rows = [json.loads(BEGIN), asked]
        ample = self.run_of(rows)
        self.assertEqual(ample.answers, [None, row["gives"]], title)
        tried_again = 0
        for told in self.each(rows, range(ample.requests - count + 1, ample.requests + 1, step)):
            self.assertTrue(told.came, (title, told.number))
            # what is refused where a step is answered, and not where it is made, is the whole row's answer
            self.assertIn(told.answers, (ample.answers, [None, SHORT]), (title, told.number))
            tried_again += told.answers == ample.answers
        self.assertGreater(tried_again, 0, title)

    def judge(self, table, at, told, ample, before):
        """Whether the call, which was refused a request, answered lack of memory; fails where it may not leave this."""
        number = told.number
        if not told.is_whole:
            # the row could not be read, so nothing more was
            self.assertEqual(told.answers, ample[:at], (table.title, number))
            return 0
        self.assertEqual(told.answers[:at], ample[:at], (table.title, number))
        if told.answers[at] == SHORT:
            self.assertEqual(told.answers[at + 1:], before[at:],
                             f"{table.title}: refused request {number}, it left something")
            return 1
        if not is_in_part(told.answers[at], ample[at]):
            self.assertIn(told.answers[at], (ample[at], without_offers(ample[at])),
                          f"{table.title}: request {number} was refused, its answer changed")
        self.assertEqual(told.answers[at + 1:], ample[at + 1:],
                         f"{table.title}: request {number} was refused, it did otherwise")
        return 0

    def test_each_public_call_has_a_table_or_a_clause(self):
        named = {name for table in of_file("refused.rows") for name in table.title.split(", ")}
        said = {name for name, _ in said_by_clauses()}
        self.assertEqual(named | said, that_take_memory())
        self.assertEqual(named & said, set())

    def test_each_table_makes_the_calls_of_its_title(self):
        sources, count = Sources(sources_below(TOP)), 0
        of_probe = sources.reached({one for one in sources.calls if (one.path, one.name) == PROBED})
        for title, row in refused_rows():
            made, *others = title.split(", ")
            crate, *_, name = made.split("::")
            self.assertIn(name, names_in(row), f"{title}: the row does not call {made}")
            self.assertIn(row["of"], (crate, OF.get(crate), "further"), title)
            self.assertTrue(found_in(sources, made) & of_probe, f"{title}: the probe does not call {made}")
            reached = sources.reached(found_in(sources, made))
            for other in others:
                self.assertTrue(other.split("::")[-1] in names_in(row) or found_in(sources, other) & reached,
                                f"{title}: {other} is not called")
            count += 1
        self.assertGreater(count, 30)

    def test_the_last_requests_of_a_row_that_ends_behind_a_segment(self):
        self.refuse_last(generated_rows_chronicle.a_row_that_ends_behind_a_segment(), 150, 3)

    def test_the_last_requests_of_a_seat_whose_store_was_full(self):
        self.refuse_last(generated_rows_store.a_seat_stores_at_most_4096(), 300, 300)

    def test_each_request_of_each_call(self):
        for table in of_file("refused.rows"):
            with self.subTest(table.title):
                self.assertGreater(self.refuse_each(table), 0, f"{table.title}: no request was refused")
