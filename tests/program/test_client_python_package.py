"""The client in Python as a package: `pip install clients/python`, from a copy, without a network, and what it
exports."""
import importlib.util
import os
import re
import shutil
import subprocess
import sys
import unittest

import registryd
from tests.support.client_python import SECONDS, Case, printed, read
from tests.support.program import PROGRAM, TOP

SCRIPT = """
import registryd, registryd_lines
from registryd import *
with Registry({program!r}) as registry:
    try:
        registry.resolve({{"app": "==1"}})
    except BadRequirement as refusal:
        print(registryd.__version__, registryd.__file__, refusal.culprit.meant)
"""


def builder():
    """A Python with what builds a package of this form; none where there is none."""
    for python in (sys.executable, "/usr/bin/python3"):
        done = os.path.exists(python) and subprocess.run([python, "-c", "import setuptools, wheel, pip"],
                                                         stderr=subprocess.DEVNULL).returncode == 0
        if done:
            return python
    return None


class Package(Case):
    @unittest.skipUnless(builder(), "no Python has pip, setuptools and wheel (Debian: python3-pip)")
    def test_it_is_installed_and_used(self):
        # pip builds in the folder of the sources
        sources = shutil.copytree(os.path.join(TOP, "clients", "python"), self.path("python"))
        there = self.path("there")
        options = ["--quiet", "--no-build-isolation", "--no-deps", "--no-index", "--disable-pip-version-check",
                   "--root-user-action=ignore"]
        subprocess.run([builder(), "-m", "pip", "install", *options, "--target", there, sources], check=True,
                       timeout=SECONDS)
        self.assertLessEqual({"registryd", "registryd_lines"}, {*os.listdir(there)})
        for package in ("registryd", "registryd_lines"):
            wanted = {it for it in os.listdir(os.path.join(TOP, "clients", "python", package)) if it != "__pycache__"}
            self.assertEqual({it for it in os.listdir(os.path.join(there, package)) if it != "__pycache__"}, wanted)
            self.assertIn("py.typed", wanted)
        self.assertEqual(printed(SCRIPT.format(program=PROGRAM), self.folder, PYTHONPATH=there).split(),
                         [registryd.__version__, os.path.join(there, "registryd", "__init__.py"), "=1"])

    def test_what_is_exported_is_there_and_nothing_of_a_page_is_left_out(self):
        for name in registryd.__all__:
            self.assertTrue(hasattr(registryd, name), name)
        self.assertLessEqual({it.__name__ for it in registryd.REFUSALS.values()}, {*registryd.__all__})
        imported = {it for names in re.findall(r"^    from registryd import (.*)$", read("clients/README.md"), re.M)
                    for it in names.split(", ")}
        self.assertGreater(len(imported), 3)
        self.assertLessEqual(imported, {*registryd.__all__})

    def test_the_faults_of_lines_are_read_only_for_a_refusal(self):
        self.assertEqual(printed("import sys, registryd; print('registryd_lines' in sys.modules)"), "False")
        self.assertIsNotNone(importlib.util.find_spec("registryd_lines"))
