"""Seats of one journal in process: under a careless caller, by itself, under valgrind and under the sanitizers of the
C compiler, which see the library's C and not the archive's own code; and as a race of threads, judged as the program's
own races are."""
import json
import os
import subprocess
import tempfile
import unittest
from collections import defaultdict
from pathlib import Path
from unittest import mock

import pytest

from dev.long import race_many
from tests.program import test_embedded_calls, test_race
from tests.program.test_journals import CHAIN_LEARNT, CONFLICT, journal
from tests.support import plain_race, program
from tests.support.library import TESTS, needs_library, serving
from tests.support.program import skip_without

pytestmark = pytest.mark.not_quick("the static library")
CALLS, RACE = os.path.join(TESTS, "c_seat_calls.c"), "seats_race.c"


class Calls(test_embedded_calls.Calls):
    SOURCE, KINDS = CALLS, ("calls", "forks", "threads")


@needs_library
class Race(test_race.Race):
    """All that holds of the program's races."""

    @classmethod
    def setUpClass(cls):
        race = serving(cls, source=RACE)

        def run(words, *given, **more):
            with mock.patch.object(program, "PROGRAM", race):
                return program.run(words, *given, **more)
        cls.enterClassContext(mock.patch.object(test_race, "run", run))


def lines_in_order(replies, commands):
    """The lines that a session is given so that it stands where each reply was given: the commands of the journal, each
    reply's line behind the entries before its place; and what it has to answer to each."""
    at = defaultdict(list)
    for line, reply in replies:
        told = json.loads(reply)
        if "ok" not in told:
            at[told["place"]].append((line, {name: it for name, it in told.items() if name not in ("place", "seat")}))
    revision = 0
    for place in range(len(commands) + 1):
        if place and commands[place - 1]:
            revision += 1
            yield commands[place - 1], {"ok": True, "revision": revision}
        yield from at[place]


@needs_library
@skip_without("cc", "gcc")
class Judged(unittest.TestCase):
    @classmethod
    def setUpClass(cls):
        cls.race = serving(cls, source=RACE)

    def setUp(self):
        self.folder = self.enterContext(tempfile.TemporaryDirectory())

    def raced(self, files, **env):
        done = subprocess.run([self.race, "race", *plain_race.written(self.folder, files)], timeout=300,
                              env={**os.environ, **env}, capture_output=True)
        self.assertEqual((done.returncode, done.stderr), (0, b""))
        return done.stdout.decode()

    def test_a_hundred_races(self):
        pausing, lines, entries = race_many.library(self.folder), 0, 0
        with mock.patch.object(program, "PROGRAM", self.race):
            for seed in range(100):
                asked, entered, find = race_many.tried(seed, pausing)
                self.assertIsNone(find)
                lines, entries = lines + asked, entries + entered
        self.assertGreater(min(lines, entries), 1000)

    def test_races_of_many_threads(self):
        for seed, count in enumerate((4, 8, 64)):
            rng = race_many.random.Random(f"seats {seed}")
            maker = race_many.Maker(rng)
            files = [[race_many.made(maker) for _ in range(600 // count)] for _ in range(count)]
            # lines and replies in pieces of all lengths, most of them too short
            piece, room = rng.choice([7, 64, 4096]), rng.choice([1, 100, 4096])
            printed = self.raced(files, SEATS_PIECE=str(piece), SEATS_ROOM=str(room))
            self.assertGreater(plain_race.judge(files, printed), 20)
            self.answered_as_by_the_program(files, printed)

    def answered_as_by_the_program(self, files, printed):
        """A session of the program that is given the journal's commands answers each line the same at the same place,
        but for why there is no solution, which may rest on what it learnt itself."""
        lines, start = printed.split("\n"), printed.split("\n").index(plain_race.FIRST)
        commands = [None if it.startswith('{"derivation"') else it.encode() for it in lines[start + 1:-2]]
        wanted = list(lines_in_order(zip([line for file in files for line in file], lines), commands))
        self.assertGreater(len(wanted), 100)
        done = program.run(program.SERVE, b"".join(line + b"\n" for line, _ in wanted))
        self.assertEqual((done.returncode, done.stderr), (0, b""))
        for (line, told), reply in zip(wanted, done.stdout.splitlines(), strict=True):
            same = json.loads(reply)
            for members in (told, same):
                for name in ("derivation", "explanation"):
                    members.pop(name, None)
            self.assertEqual(same, told, line[:500])

    def test_a_journal_is_loaded_and_given_back(self):
        path = Path(self.folder, "loaded")
        for text in (journal(CONFLICT), CHAIN_LEARNT, journal([])):
            path.write_bytes(text)
            for count in (1, 64):
                # each of the seats has seen all of it
                printed = self.raced([[b'{"op":"list"}']] * count, SEATS_LOAD=str(path)).encode()
                self.assertTrue(printed.endswith(b"\n" + text), text)
                entries = text.count(b"\n") - 2
                self.assertEqual([json.loads(it)["place"] for it in printed.splitlines()[:count]], [entries] * count)
