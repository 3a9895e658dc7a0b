"""That the lines which feel a constant are lawful, and that each request has the answer which its workload says."""
import itertools
import json
import re
import unittest

from bench import tuned_lines as tuned
from tests.support.program import serve

REFUSED = {"chain": tuned.chain_of(3, 5), "pigeons": tuned.pigeons(4, 3), "one chain": tuned.one_chain(2, 3),
           "refused": tuned.refused(3), "one hub": tuned.one_hub(3)}


def replies(lines, requests):
    """The errors of the lines that come first, and the replies to the requests."""
    answered = [json.loads(reply) for reply in serve([*lines, *requests])]
    return [reply for reply in answered[:len(lines)] if "error" in reply], answered[len(lines):]


def can_hold(lines, formula, size, versions):
    """Whether some values of the variables make each clause of a formula true, by trying all."""
    clauses = {}
    for line in map(json.loads, lines):
        if line["name"].startswith(f"k{formula}-"):
            (variable, bound), = line["needs"]
            sign, minor = re.fullmatch(r"(>=|<)1\.(\d+)\.0", bound).groups()
            clauses.setdefault(line["name"], []).append((int(variable.partition("-")[2]), sign == "<", int(minor)))
    return any(all(any((values[variable] < minor) == is_below for variable, is_below, minor in clause)
                   for clause in clauses.values())
               for values in itertools.product(range(versions), repeat=size))


class TunedLines(unittest.TestCase):
    def test_formulas_over_many_versions(self):
        lines, requests = tuned.wide_formulas(4, 6, 4, 3, 16)
        errors, found = replies(lines, requests)
        self.assertEqual(errors, [])
        wanted = [can_hold(lines, formula, 4, 4) for formula in range(16)]
        self.assertEqual(["selected" in reply for reply in found], wanted)
        self.assertEqual(["refused" in reply for reply in found], [not it for it in wanted])
        self.assertEqual(set(wanted), {True, False})

    def test_requests_without_a_solution(self):
        for name, (lines, requests) in REFUSED.items():
            errors, found = replies(lines, requests)
            self.assertEqual(errors, [], name)
            self.assertEqual([reply.get("refused") for reply in found], [True] * len(requests), name)

    def test_a_request_with_one(self):
        errors, found = replies(*tuned.dead_chains(3, 2, 4))
        self.assertEqual((errors, len(found)), ([], 1))
        self.assertIn(["d1", "1.0.0"], found[0]["selected"])

    def test_a_hole_for_each_pigeon(self):
        errors, found = replies(*tuned.pigeons(3, 3))
        self.assertEqual(errors, [])
        self.assertEqual({name for name, _ in found[0]["selected"]}, {"p0", "p1", "p2", "h0", "h1", "h2"})

    def test_publications_alone(self):
        for lines, requests in (tuned.needs_each(6, 5), tuned.needs_each(12, 5), tuned.long_requirements(9)):
            self.assertEqual(replies(lines, requests), ([], []))

    def test_requirements_of_one_chain(self):
        needs = tuned.in_one_chain(50)
        self.assertEqual((len({*needs}), len({tuned.chain_number(need) for need in needs})), (50, 1))

    def test_names_have_lines(self):
        self.assertEqual([name for name, make in tuned.TUNED.items() if not make()[0]], [])
