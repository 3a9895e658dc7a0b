"""That round trips are measured of what is said: each language and way gives the same replies, as many times as trips
are asked for, and the table has a row for each."""
import json
import re
import shutil
import unittest

import pytest

from bench.embedded import PACKAGES, REQUESTS, Row, measured, publications, table
from tests.support.library import FOLDER, needs_library
from tests.support.program import PROGRAM, skip_without

pytestmark = pytest.mark.not_quick("the static library")


TRIPS, ROUNDS = 6, 2
NUMBER = r"\d+\.\d"


class Embedded(unittest.TestCase):
    def test_what_is_published(self):
        lines = [json.loads(line) for line in publications()]
        self.assertEqual(len(lines), 160)
        self.assertEqual({line["name"] for line in lines}, set(PACKAGES))

    def test_the_middle_and_the_slowest(self):
        row = Row("C", "embedded", [])
        for first in (1, 51):
            times = "\n".join(str(1000 * micros) for micros in range(first, first + 50))
            row.take("\n".join([f"reply\n{times}"] * len(REQUESTS)))
        found = [(row.replies[name], row.at(name, 0.5), row.at(name, 0.99)) for name in REQUESTS]
        self.assertEqual(found, [("reply", 51, 100)] * 2)

    @needs_library
    @skip_without("cc", "gcc")
    def test_each_language_by_each_way(self):
        rows = measured(PROGRAM, FOLDER, TRIPS, ROUNDS, optimized=False)
        languages = ["C", "Python", *(["Rust"] if shutil.which("rustc") else [])]
        wanted = [(language, way) for language in languages for way in ("embedded", "child", "socket")]
        self.assertEqual([(row.language, row.way) for row in rows], wanted)
        for row in rows:
            for name, count in zip(REQUESTS, (8, 1)):
                self.assertEqual(len(row.trips[name]), TRIPS)
                self.assertGreater(row.at(name, 0.5), 0)
                # each selected package once, in its newest version
                self.assertEqual(re.findall(r"1\.\d+\.0", row.replies[name]), ["1.19.0"] * count, row)
        head, _, *lines = table(rows)
        self.assertEqual(len(lines), len(rows))
        self.assertTrue(all(re.fullmatch(rf"\| \w+, [a-z ]+( \| {NUMBER}){{6}} \|", line) for line in lines), lines)
        self.assertRegex(lines[0], r"\| 1\.0 \| .* \| 1\.0 \|$")
