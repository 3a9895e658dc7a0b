"""The newest selection as the program answers it: beside the definition, and what follows from that: whatever order,
batches and workers, whoever asked what before, the same. Each judge is shown to find what answers otherwise: the
program with replies that are changed."""
import itertools
import json
import os
import tempfile
import unittest
from unittest import mock

from bench import workloads
from dev.long import newest_many
from dev.long.newest_many import serve
from tests.program.test_newest import WORKED, pairs, worked
from tests.support import newest_properties
from tests.support.plain_newest import Published
from tests.support.program import run

SEEDS = range(7_000, 7_100)


class Changed:
    """Answers as the program does, but for what is selected, which is changed."""

    def __init__(self, change):
        self.change = change

    def __call__(self, lines, workers=1):
        registry, replies = Published(), serve(lines, workers)
        for place, (line, reply) in enumerate(zip(lines, map(json.loads, replies))):
            if "selected" in reply:
                replies[place] = json.dumps({**reply, "selected": self.change(registry, line, reply["selected"])})
            elif reply.get("ok"):
                registry.apply(line)
        return replies


def second_best(registry, request, best):
    """The newest of all other selections, where there is one."""
    asked = request["needs"], request.get("lock", [])
    others = [it for it in registry.selections(*asked) if it != best]
    with mock.patch.object(registry, "selections", lambda *_: others):
        return registry.newest(*asked) or best


def one_less(_registry, _request, best):
    return best[:-1]


def now_and_then():
    """A change of each third selection."""
    count = itertools.count(1)
    return lambda _registry, _request, best: best[:-1] if next(count) % 3 == 0 else best


def without_locks(lines, workers=1):
    return serve([{name: it for name, it in line.items() if name != "lock"} for line in lines], workers)


class Definition(unittest.TestCase):
    def test_each_worked_case(self):
        for told, published, yanked, needs, lock, wanted in WORKED:
            commands, request = worked(published, yanked, needs, lock)
            selection = None if wanted is None else pairs(it for it in wanted.split(", ") if it)
            (*_, reply) = serve([*commands, request])
            self.assertEqual(newest_properties.selected(reply), selection, told)

    def test_random_registries(self):
        self.assertEqual(newest_many.faults(range(9_000, 9_400)), [])

    def test_what_answers_otherwise_is_found(self):
        # each case in a session of its own, whose selections can be listed
        with mock.patch.object(newest_many, "AT_ONCE", 1):
            for otherwise in (Changed(second_best), without_locks, Changed(one_less)):
                self.assertGreater(len(newest_many.faults(range(5_000, 5_025), otherwise)), 0)


class Properties(unittest.TestCase):
    def test_orders_batches_workers_and_what_was_asked_before(self):
        for seed in (1, 2):
            lines, requests = ([json.loads(it) for it in part] for part in workloads.conflicting(12, seed))
            self.assertEqual(newest_properties.orders(lines, requests, serve, seed=seed), [])
            self.assertGreater(len(newest_properties.orders(lines, requests, Changed(now_and_then()), ways=10,
                                                            seed=seed)), 0)

    def test_a_yank_of_what_is_not_selected(self):
        self.assertEqual(newest_properties.yanks(SEEDS, serve), [])
        self.assertGreater(len(newest_properties.yanks(SEEDS[:40], Changed(second_best))), 0)

    def test_a_publication_of_what_is_not_selected(self):
        self.assertEqual(newest_properties.publications(SEEDS, serve), [])
        self.assertGreater(len(newest_properties.publications(SEEDS[:40], Changed(second_best))), 0)


class TakenBack(unittest.TestCase):
    """Packages of each of which the newest version is taken back: the engine learns that of each, unless there are more
    than 32 and no budget."""

    @staticmethod
    def resolved(count, **members):
        """What is selected of so many packages, and how many incompatibilities were learnt by then."""
        lines, (request,) = workloads.dead_ends(count)
        lines.append(json.dumps({**json.loads(request), **members}))
        with tempfile.TemporaryDirectory() as folder:
            journal = os.path.join(folder, "saved.journal")
            done = run(["serve", "--workers", "1", "--save", journal], "".join(f"{line}\n" for line in lines).encode())
            assert (done.returncode, done.stderr) == (0, b""), (done.returncode, done.stderr)
            with open(journal, encoding="utf-8") as kept:
                learnt = sum('"derivation"' in line for line in kept)
        return json.loads(done.stdout.splitlines()[-1])["selected"], learnt

    def test_what_is_learnt(self):
        for count, members, learnt in ((1, {}, 1), (32, {}, 32), (33, {}, 0), (33, {"budget": 33}, 33), (64, {}, 0),
                                       (64, {"budget": 1_000}, 64)):
            with self.subTest(count=count, **members):
                older = [[f"d{number:05}", "1.0.0"] for number in range(count)]
                self.assertEqual(self.resolved(count, **members), (older, learnt))
