"""That what a subcommand takes is measured of one that does what it says, and that each kind has its figures."""
import json
import os
import subprocess
import tempfile
import unittest
from unittest import mock

from bench import start
from bench.lines import publish_lines
from tests.support.program import PROGRAM

STATUSES = {"python": 0, "loading": 0, "list": 0, "search": 0, "show": 0, "resolve": 0, "tree": 0, "refused": 1}


@mock.patch.dict(os.environ, {"REGISTRY_PROGRAM": PROGRAM})
class Measured(unittest.TestCase):
    def test_each_kind_has_figures(self):
        found = start.measured(PROGRAM, 20, 1)
        self.assertEqual(set(found), {*STATUSES, "page"})
        for kind, figures in found.items():
            self.assertTrue(all(it > 0 for it in figures), kind)

    def test_what_is_measured_is_done(self):
        with tempfile.TemporaryDirectory() as folder:
            journal = os.path.join(folder, "journal")
            lines = publish_lines(20)
            subprocess.run([PROGRAM, "serve", "--workers", "1", "--save", journal], stdout=subprocess.DEVNULL,
                           input="\n".join(lines).encode() + b"\n", check=True)
            for kind, (_, words) in start.kinds(PROGRAM, journal, json.loads(lines[0])["name"]).items():
                if kind in STATUSES:
                    done = subprocess.run(words, stdin=subprocess.DEVNULL, capture_output=True, check=False)
                    self.assertEqual(done.returncode, STATUSES[kind], (kind, done.stderr))
