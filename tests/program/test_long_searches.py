"""Of lines that come together, a reply does not wait for the searches of later lines, by however many workers."""
import contextlib
import itertools
import os
import select
import tempfile
import time
import unittest

from tests.support.processes import used_by_thread
from tests.support.program import PATIENCE, publish, read_lines, resolve, talking
from tests.support.registry_folder import pigeons

# By so many workers, of a session that keeps a journal and of one that keeps none.
KINDS = ("1", "2", "7"), (False, True)
SESSIONS = list(itertools.product(*KINDS))

# One hole too few. What is learnt of one way to place the pigeons says little of the others, so that no search ends in
# the time of a test.
PLACES, BIRDS = pigeons(13)
LONG = [f"{bird} *" for bird in BIRDS]
SHORT, ANSWER = resolve("hole-0 *"), '"selected":[["hole-0","12.0.0"]]'
# so many conflicts are met in a tenth of a second or some
BUDGET = 1000
PAUSE = 0.2


def said(client, lines):
    client.stdin.write("".join(line + "\n" for line in lines).encode())


def is_silent(client):
    """Whether a program writes nothing for some time."""
    return not select.select([client.stdout], [], [], PAUSE)[0]


def that_worked(client, before):
    """The threads of a program that have used time since."""
    return [thread for thread, ticks in used_by_thread(client.pid).items() if ticks > before.get(thread, 0)]


@contextlib.contextmanager
def session(workers, keeps):
    """A session that has the packages. It is broken off in the end, since it may still search."""
    with tempfile.TemporaryDirectory() as folder:
        words = ["--journal", os.path.join(folder, "kept")] if keeps else []
        with talking(["serve", "--workers", workers, *words]) as client:
            try:
                said(client, PLACES)
                read_lines(client, len(PLACES))
                yield client
            finally:
                client.kill()


class LongSearches(unittest.TestCase):
    def test_replies_before_a_search_without_an_end(self):
        lines = [publish("more", "1.0.0"), *[SHORT] * 60]
        for *kind, explain in itertools.product(*KINDS, (False, True)):
            with self.subTest(kind, explain=explain), session(*kind) as client:
                said(client, [*lines, resolve(*LONG, explain=explain), *lines])
                told = read_lines(client, 61).decode().splitlines()
                self.assertEqual((len(told), sum(ANSWER in line for line in told)), (61, 60))
                self.assertTrue(is_silent(client))

    def test_replies_between_two_searches(self):
        for kind in SESSIONS:
            with self.subTest(kind), session(*kind) as client:
                said(client, [SHORT, resolve(*LONG, budget=BUDGET), *[SHORT] * 9, resolve(*LONG), SHORT])
                told = read_lines(client, 11).decode().splitlines()
                self.assertEqual([ANSWER in line for line in told], [True, False, *[True] * 9])
                self.assertIn('"error":22', told[1])
                self.assertTrue(is_silent(client))

    def test_searches_that_end_are_answered_in_order(self):
        for kind in SESSIONS:
            with self.subTest(kind), session(*kind) as client:
                budgets = [BUDGET, 0, 2 * BUDGET, BUDGET // 2, 9, 10]
                lines = [line for budget in budgets for line in (resolve(*LONG, budget=budget), SHORT)]
                said(client, lines)
                told = read_lines(client, len(lines)).decode().splitlines()
                self.assertEqual(['"error":22' in line for line in told], [True, False] * len(budgets))
                self.assertEqual([ANSWER in line for line in told], [False, True] * len(budgets))

    def test_as_many_searches_go_on_at_once_as_there_are_workers_or_requests(self):
        for workers, requests in ((1, 5), (2, 5), (3, 2), (4, 6)):
            with self.subTest(workers=workers, requests=requests), session(str(workers), False) as client:
                said(client, [resolve(*LONG, f"hole-{number} *") for number in range(requests)])
                wanted, until = min(workers, requests), time.monotonic() + PATIENCE
                # the first time what reads the lines may have used some, too
                for _ in range(2):
                    before = used_by_thread(client.pid)
                    while len(that_worked(client, before)) < wanted and time.monotonic() < until:
                        time.sleep(0.05)
                # one too many would have its time, too
                time.sleep(PAUSE)
                self.assertEqual(len(that_worked(client, before)), wanted)
