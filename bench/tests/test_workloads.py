"""That the benchmark's workloads are what they say: accepted, answered, and answered the way that they are to be."""
import itertools
import json
import random
import unittest

from bench import workloads
from bench.hostile import measured, size
from bench.hostile_lines import HOSTILE, MEGABYTE
from bench.race import dealt
from bench.workers import WORKERS, alone, by_workers
from tests.support.program import PROGRAM, serve
from tests.support.teaching import TEACHING


class Workloads(unittest.TestCase):
    def replies(self, workload):
        lines, requests = workload
        replies = serve(lines + requests)
        for reply in replies[:len(lines)]:
            self.assertIn('"ok":true', reply)
        return replies[len(lines):]

    def test_a_lockfile_is_found(self):
        for reply in self.replies(workloads.lockfile(60)):
            self.assertIn('"selected":[[', reply)

    def test_requests_of_a_batch(self):
        lines, requests = workloads.lockfile(60, count=256)
        self.assertEqual((len(set(requests)), workloads.lockfile(60)), (256, (lines, requests[:6])))
        for reply in self.replies((lines, requests)):
            self.assertIn('"selected":[[', reply)
        rates = by_workers(PROGRAM, lines, requests[:20], 1)
        self.assertEqual(list(rates), WORKERS)
        self.assertGreater(min(*rates.values(), alone(PROGRAM, WORKERS[-1], lines, requests[:5], 1)), 0)

    def test_a_random_registry(self):
        lines, requests = workloads.conflicting(12, 1)
        self.assertEqual((workloads.conflicting(12, 1), len(lines), len(requests)), ((lines, requests), 60, 16))
        versions = [json.loads(line) for line in lines]
        self.assertEqual(len({(it["name"], it["version"]) for it in versions}), 60)
        self.assertTrue(all(len(dict(it["needs"])) == 2 and it["name"] not in dict(it["needs"]) for it in versions))

    def test_a_tower_is_refused(self):
        for reply in self.replies(workloads.tower(5)):
            self.assertIn('"refused":true', reply)

    def test_conflicts_side_by_side_are_all_avoided(self):
        (reply,) = self.replies(workloads.partial(70))
        selected = json.loads(reply)["selected"]
        # of each copy the package that both are needed by, foo and target, and two packages that stand for all
        self.assertEqual(len(selected), 3 * 70 + 2)
        self.assertEqual({version for name, version in selected if name.startswith("foo")}, {"1.0.0"})

    def test_a_formula_is_decided(self):
        rng = random.Random(1)
        held = []
        for reply in self.replies(workloads.sat(10)):
            formula = workloads.clauses(10, rng)
            held.append(any(all(any(values[variable] == value for variable, value in clause) for clause in formula)
                            for values in itertools.product((0, 1), repeat=10)))
            if held[-1]:
                selected = dict(json.loads(reply)["selected"])
                values = {int(name[-3:]): int(version[2]) for name, version in selected.items() if name.startswith("x")}
                self.assertTrue(all(any(values.get(variable) == value for variable, value in clause)
                                    for clause in formula))
            else:
                self.assertIn('"refused":true', reply)
        self.assertEqual(set(held), {True, False})

    def test_requests_that_share_conflicts(self):
        refused = '"refused":true'
        for name, count, answer in (("towers", 4, refused), ("chain", 5, refused), ("worn", 60, '"selected":[[')):
            lines, requests = getattr(workloads, name)(count)
            self.assertEqual(len(set(requests)), len(requests))
            for reply in self.replies((lines, requests[:20])):
                self.assertIn(answer, reply)

    def test_a_session_has_so_many_requests(self):
        for make, count in workloads.SHARED.values():
            self.assertEqual(len(make(count)[1]), 200)

    def test_what_fills_a_store_is_found(self):
        for make in (workloads.dead_ends, workloads.about_one):
            lines, requests = make(130)
            for reply in self.replies((lines, requests)):
                found = dict(json.loads(reply)["selected"])
                versions = {version for name, version in found.items() if name.startswith("d")}
                self.assertEqual(versions, {"1.0.0"}, reply)
        self.assertIn('"refused":true', self.replies((workloads.about_one(1)[0], [workloads.crossed()]))[0])

    def test_what_each_version_says_anew(self):
        for name in ("all bumped", "two bumped"):
            lines, requests = HOSTILE[name](70)
            needs = [json.loads(line)["needs"] for line in lines[-70:]]
            self.assertTrue(all(len(row) == 64 for row in needs))
            self.assertEqual(len({json.dumps(row) for row in needs}), 70)
            for reply in self.replies((lines, requests)):
                self.assertIn('"refused":true', reply)

    def test_what_asks_for_much_is_answered_as_it_is_meant(self):
        refused = ("all bumped", "two bumped", "beyond", "long needs", "long texts")
        wanted = {**dict.fromkeys(refused, '"refused":true'), "explained": '"derivation":[', "listing": '"packages":[',
                  **{name: '"follows":true' for name in HOSTILE if name.startswith("cited")},
                  "long lock": '"selected":[["a","1.0.0"]]', "long publication": '"error":6',
                  **dict.fromkeys(("requirements", "many requirements", "resting"), '"ok":true')}
        self.assertEqual(set(wanted), set(HOSTILE))
        for name, make in HOSTILE.items():
            lines, asked = make(70)
            replies = serve(lines + asked)
            for line, reply in zip(lines, replies):
                self.assertIn('"ok":true' if '"op":"publish"' in line else '"refused":true', reply, name)
            for reply in replies[len(lines):]:
                self.assertIn(wanted[name], reply, name)
            if name.startswith("cited"):
                self.assertTrue(0.9 * MEGABYTE < size(asked) < 1_048_576, name)

    def test_what_is_learnt_stays_where_it_rests_on_other_versions(self):
        # That r can't be had rests on what each version of a needs, on what `one` needs, on both needs of r, and on
        # that of the request. Each step joins two of what stands there, so it takes one step less than there are facts,
        # at the least.
        facts_beside = 4
        needs = TEACHING + 1 - facts_beside
        self.assertEqual(HOSTILE["resting"](3), HOSTILE["resting"](3, needs=needs))
        # What a version needs is looked at when it is decided, and s has two: so the first conflict ends the search
        # only where it is known that r can't be had, which both need.
        both = [workloads.publish("s", (major, 0, 0), [["r0000", "*"]]) for major in (1, 2)]
        again = json.dumps({**json.loads(workloads.resolve([["s", "*"]])), "budget": 1})
        for more, told in ((0, '"refused":true'), (1, '"error":22')):
            lines, asked = HOSTILE["resting"](3, needs=needs + more)
            published = [line for line in lines if '"op":"publish"' in line]
            self.assertIn('"error":22', serve([*published, *both, again])[-1])
            self.assertIn(told, serve([*lines, *asked, *both, again])[-1])

    def test_hostile_lines_are_measured(self):
        loading, spent, answered = measured(PROGRAM, *HOSTILE["cited versions"](5))
        self.assertGreater(min(loading, spent), 0)
        self.assertEqual(answered, len(b'{"follows":true,"revision":10}\n'))

    def test_lines_are_dealt_out_once(self):
        lines = [str(number) for number in range(20)]
        files = dealt(lines, 3)
        self.assertEqual(sorted(sum(files, [])), sorted(lines))
        self.assertEqual(files[1], ["1", "4", "7", "10", "13", "16", "19"])
