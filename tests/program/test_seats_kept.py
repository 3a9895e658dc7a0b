"""Seats that keep their journal in a file: a seat passes the program's own tests of a journal that is kept, where it is
killed at each call, crashes with its machine, and has its file cut, damaged, held, changed or full; and several share
the syncs, and the fault of a full disk."""
import json
import os
import random
import subprocess
import tempfile
import unittest
from collections import Counter
from pathlib import Path

import pytest

from dev.long import kill_seats, kill_sessions
from registry_cli.limits import MOST_LEARNT, MOST_STORED
from tests.program import (
    test_durable_files, test_durable_full, test_durable_kills, test_embedded_full, test_embedded_memory,
    test_kill_sessions, test_move_journals)
from tests.program.test_journals import CHAIN, CONFLICT, journal, learn
from tests.support import plain_race
from tests.support.in_process import BySeat, by_seat
from tests.support.library import linked, needs_library
from tests.support.plain_disk import Disk, calls_in
from tests.support.plain_remnant import remnant
from tests.support.preloaded import NO_SYNC, WATCH_CALLS, built
from tests.support.program import LIST, files_of_at_most, publish, resolve, skip_without

pytestmark = pytest.mark.not_quick("the static library")
Cuts = by_seat(test_durable_files.Cuts)
Others = by_seat(test_durable_files.Others)
Places = by_seat(test_durable_files.Places)
Full = by_seat(test_durable_full.Full)
Failing = by_seat(test_durable_full.Failing)
Replies = by_seat(test_embedded_full.Replies)
Kills = by_seat(test_durable_kills.Kills)
UnderLoad = by_seat(test_kill_sessions.Kills)
Moves = by_seat(test_move_journals.Moves)


class Memory(test_embedded_memory.Memory):
    COMPILED = BySeat.COMPILED
    # of seats that keep no file
    test_each_request_of_a_session = test_each_request_of_a_session_that_saves = None


@needs_library
@skip_without("cc", "gcc")
class Several(unittest.TestCase):
    COUNT, EACH = 8, 25

    @classmethod
    def setUpClass(cls):
        sources = WATCH_CALLS, "count_syncs.c", NO_SYNC
        cls.watching, cls.counting, cls.idle = (built(cls, source) for source in sources)

    def setUp(self):
        self.folder = os.path.realpath(self.enterContext(tempfile.TemporaryDirectory()))
        self.told = linked(os.path.join(self.folder, "told"), kill_seats.SOURCE)
        self.kept = os.path.join(self.folder, "kept")

    def ran(self, files, most=None, **more):
        """What seats print that keep a journal and are given these lines, where files have at most so many bytes."""
        words = [self.told, self.kept, *plain_race.written(self.folder, files)]
        with files_of_at_most(most):
            return subprocess.run(words, capture_output=True, timeout=300, restore_signals=most is None, **more)

    def read(self):
        return Path(self.kept).read_bytes()

    def publications(self):
        return [[publish(f"p{seat}", f"{version}.0.0").encode() for version in range(self.EACH)]
                for seat in range(self.COUNT)]

    def test_calls_that_wait_share_a_sync(self):
        env, every = {**os.environ, "LD_PRELOAD": self.counting}, self.COUNT * self.EACH
        done = self.ran(self.publications(), env=env)
        self.assertEqual((done.returncode, done.stdout.count(b'"ok":true')), (0, every))
        self.assertTrue(self.read().endswith(b"\nend %d\n" % every))
        self.assertLess(int(done.stderr), every * 2 // 3)
        print(f"({int(done.stderr)} syncs for {every} commands) ", end="")
        # what is there already asks for none but that of the last line
        listed = self.ran([[LIST.encode()] * 3] * self.COUNT, env=env)
        self.assertEqual((listed.returncode, listed.stdout.count(b"\n"), listed.stderr), (0, 3 * self.COUNT, b"1"))

    def told_too_early(self, seed, *before):
        """A reply that goes out before all that it rests on outlasts a crash; None where there is none."""
        path, rng = os.path.join(self.folder, "log"), random.Random(f"watched {seed}")
        files = kill_seats.lines_of(rng, self.COUNT)
        log, disk = os.open(path, os.O_WRONLY | os.O_APPEND | os.O_CREAT | os.O_TRUNC), Disk(self.folder, {})
        env = {**os.environ, "LD_PRELOAD": " ".join([*before, self.watching]), "WATCH_TO": str(log)}
        Path(self.kept).unlink(missing_ok=True)
        done = self.ran(files, env=env, pass_fds=[log])
        os.close(log)
        self.assertEqual((done.returncode, done.stderr), (0, b""))
        calls, replies = list(calls_in(Path(path).read_bytes())), 0
        for call in calls:
            disk.follow(call)
            for reply in call.given.splitlines() if call.name == "write" and call.number == 1 else ():
                replies += 1
                lasts = disk.lasting.get(self.kept)
                if json.loads(reply)["place"] > (lasts.synced.count(b"\n") - 1 if lasts else 0):
                    return reply
        self.assertEqual(replies, sum(map(len, files)))
        return None

    def test_no_reply_goes_out_before_a_crash_leaves_what_it_rests_on(self):
        for seed in range(12):
            self.assertIsNone(self.told_too_early(seed), seed)
        self.assertIsNotNone(self.told_too_early(0, self.idle))

    def test_what_is_learnt_beyond_what_a_session_may_have(self):
        lines, versions, more = list(CHAIN), 1, publish("new", "1.0.0")
        for _ in range(MOST_LEARNT // MOST_STORED):
            lines += [learn(*range(versions), 100 + number) for number in range(MOST_STORED)]
            lines.append(publish("c", f"1.{versions}.0"))
            versions += 1
        Path(self.kept).write_bytes(journal(lines))
        done = self.ran([[line.encode() for line in [*CONFLICT, resolve("foo >=1.0.0"), more]]])
        self.assertEqual((done.returncode, done.stderr), (0, b""))
        # it is learnt, and the file does not get it
        self.assertGreater(json.loads(done.stdout.splitlines()[-1])["place"], len(lines) + len(CONFLICT) + 1)
        self.assertEqual(self.read(), journal([*lines, *CONFLICT, more]))
        self.assertIn(f'"revision":{len(CHAIN) + versions + len(CONFLICT)}',
                      kill_sessions.gone_on(self.kept).decode())

    def test_a_full_disk_is_told_by_all(self):
        fault = f"registryd: journal {self.kept}: can't be written: File too large (os error 27)\n".encode()
        for most in range(20, 5_000, 613):
            Path(self.kept).unlink(missing_ok=True)
            done = self.ran(self.publications(), most)
            entries, told = remnant(self.read()).lines, [json.loads(line) for line in done.stdout.splitlines()]
            self.assertTrue(all(it["place"] == it["revision"] <= len(entries) for it in told), most)
            # a seat may have come to its end before
            counts = Counter(it["seat"] for it in told)
            least = sum(counts[seat] < self.EACH for seat in range(1, self.COUNT + 1))
            self.assertEqual(done.returncode, 0)
            self.assertIn(done.stderr, [fault * count for count in range(least, self.COUNT + 1)], most)
            self.assertGreater(least, 0)
            kill_seats.judged(entries, [], self.publications(), done.stdout)
