"""The client in Rust: its own tests, against the program, with a service and over the library in this process, and its
examples. Where `cargo` is not there, or is too old, what needs it is skipped. What cargo builds goes to a temporary
folder, so that nothing is left in the tree."""
import os
import re
import shutil
import subprocess
import tempfile
import unittest

import pytest

from tests.program import test_seats
from tests.support.client_python import read
from tests.support.library import LIBRARY, needs_library
from tests.support.program import PROGRAM, TOP

pytestmark = pytest.mark.not_quick("cargo")
HERE = os.path.join(TOP, "clients", "rust")
# What is built is run once: nothing is kept for later builds, nor for a debugger.
ONCE = {"CARGO_INCREMENTAL": "0", "CARGO_PROFILE_DEV_DEBUG": "0", "CARGO_PROFILE_TEST_DEBUG": "0"}
# Debian 12 has a cargo whose rustc is 1.63: too old for let-else, and for a child in a group of its own.
WHERE = "(Debian 12: cargo-web; Debian 13: cargo)"
IN_PROCESS = ("--features", "embedded")


def blocks(text):
    """A page's indented blocks, without their indent."""
    return [re.sub("^    ", "", block, flags=re.M).strip("\n")
            for block in re.findall("(?:^(?:    .*)?\n)+", text, re.M) if block.strip()]


PAGE = blocks(read("clients/rust/README.md"))


def numbers(text):
    """The first number with a point in a text, as its two parts."""
    return tuple(map(int, re.search(r"(\d+)\.(\d+)", text).groups()))


def why_not_built():
    """Why the client can't be built here: there is no cargo, or what it calls is older than the crate says. None where
    it can."""
    needed = numbers(re.search("rust-version = .*", read("clients/rust/Cargo.toml"))[0])
    for command in ("cargo", "rustc"):
        if not shutil.which(command):
            return f"there is no {command} {WHERE}"
        told = subprocess.run([command, "--version"], stdout=subprocess.PIPE, text=True, check=True).stdout
        if numbers(told) < needed:
            return f"the client needs {command} {needed[0]}.{needed[1]}, and here is {told.strip()} {WHERE}"
    return None


def adding(folder, main, *words):
    """Makes a program that adds the client, with these words; answers the variables with which cargo builds it."""
    given = {**os.environ, "CARGO_TARGET_DIR": os.path.join(folder, "target"),
             "REGISTRYD_LIBRARY_FOLDER": os.path.dirname(LIBRARY or ""), **ONCE}
    add = ["add", "--offline", "--path", HERE, *words, "--manifest-path", "adds/Cargo.toml"]
    for command in (["new", "--vcs", "none", "adds"], add):
        subprocess.run(["cargo", "--quiet", *command], cwd=folder, env=given, stderr=subprocess.DEVNULL, check=True)
    with open(os.path.join(folder, "adds", "src", "main.rs"), "w", encoding="utf-8") as out:
        out.write(main)
    return given


@needs_library
class Seats(test_seats.Judged):
    """Races over seats in Rust in place of those in C."""
    test_a_hundred_races = None

    @classmethod
    def setUpClass(cls):
        if without := why_not_built():
            raise unittest.SkipTest(without)
        folder = cls.enterClassContext(tempfile.TemporaryDirectory())
        given = adding(folder, read("tests/support/rust/seats_race.rs"), *IN_PROCESS)
        words = ["cargo", "build", "--quiet", "--offline", "--manifest-path", "adds/Cargo.toml"]
        subprocess.run(words, cwd=folder, env=given, check=True)
        cls.race = os.path.join(folder, "target", "debug", "adds")


class Client(unittest.TestCase):
    LONGEST = 600  # cargo compiles the client and its tests

    def cargo(self, folder, *words, **more):
        """What cargo prints; without the network, and with what it builds in a folder."""
        given = {**os.environ, "CARGO_TARGET_DIR": os.path.join(folder, "target"), "REGISTRYD": PROGRAM,
                 "REGISTRYD_LIBRARY_FOLDER": os.path.dirname(LIBRARY or ""), **ONCE}
        words = ["cargo", *words, "--offline", "--locked", "--manifest-path", os.path.join(HERE, "Cargo.toml")]
        done = subprocess.run(words, env=given, stdin=subprocess.DEVNULL, capture_output=True, text=True, **more)
        self.assertEqual(done.returncode, 0, done.stdout + done.stderr)
        return done.stdout

    def passed(self, folder, *words):
        """How many tests have passed, for each file of tests."""
        return list(map(int, re.findall(r"^test result: ok\. (\d+) passed; 0 failed; 0 ignored",
                                        self.cargo(folder, "test", *words), re.M)))

    def check_example(self, folder, name, journal, printed, *words, end=2):
        # the second time it goes on with its journal
        for _ in range(2):
            self.assertEqual(self.cargo(folder, "run", "--quiet", "--example", name, *words, cwd=folder).strip(),
                             printed)
            self.assertEqual(read(os.path.join(folder, journal)).splitlines()[-1], f"end {end}")

    def test_its_tests_and_its_example(self):
        if without := why_not_built():
            self.skipTest(without)
        with tempfile.TemporaryDirectory() as folder:
            beside, calls, culprits, embedded, explained, program, seats, service = self.passed(folder)
            self.assertGreater(min(beside, calls, program, service), 5)
            self.assertEqual((culprits, embedded, explained, seats), (1, 0, 3, 0))
            os.symlink(PROGRAM, os.path.join(folder, "registryd"))
            self.check_example(folder, "first", "rust.journal", PAGE[1])

    @needs_library
    def test_its_tests_and_its_example_in_process(self):
        if without := why_not_built():
            self.skipTest(without)
        with tempfile.TemporaryDirectory() as folder:
            beside, calls, culprits, embedded, explained, program, seats, service = self.passed(folder, *IN_PROCESS)
            # each call twice, and with a service those that take no files
            self.assertEqual((calls, embedded, seats), (10 + 10 + 6, 4, 6))
            self.check_example(folder, "embedded", "rust-embedded.journal", PAGE[3], *IN_PROCESS)
            # 25 tools, and 25 publications and a yank of each of the four
            self.check_example(folder, "seats", "seats.journal", PAGE[5], *IN_PROCESS, end=129)

    def test_a_program_that_adds_it(self):
        if without := why_not_built():
            self.skipTest(without)
        with tempfile.TemporaryDirectory() as folder:
            given = adding(folder, PAGE[0])
            os.symlink(PROGRAM, os.path.join(folder, "registryd"))
            done = subprocess.run(["cargo", "run", "--quiet", "--offline", "--manifest-path", "adds/Cargo.toml"],
                                  cwd=folder, env=given, capture_output=True, text=True)
            self.assertEqual((done.returncode, done.stdout.strip()), (0, PAGE[1]), done.stderr)

    def test_the_examples_are_those_that_are_shown(self):
        for block, name in ((PAGE[0], "first"), (PAGE[2], "embedded"), (PAGE[4], "seats")):
            self.assertEqual(block, read(f"clients/rust/examples/{name}.rs").strip())
            self.assertLessEqual(len(block.splitlines()), 30)

    def test_each_refusal_is_there(self):
        told = re.findall(r"^\| (\d+) \| ([A-Z]\w+) \|", read("docs/REGISTRY.md"), re.M)
        named = re.findall(r"^    ([A-Z]\w+)(?: = 1)?,$", read("clients/rust/src/refusal.rs"), re.M)
        self.assertEqual([name for _, name in told], named)
        self.assertEqual(len(named), 22)

    def test_it_needs_nothing_else(self):
        self.assertNotIn("dependencies", read("clients/rust/Cargo.toml"))
        self.assertEqual(re.findall("^name = .*", read("clients/rust/Cargo.lock"), re.M), ['name = "registryd"'])
