"""How much memory the program takes, and what it does where the system gives no more: a search that would take all of
it ends, and what comes after it is answered as ever."""
import fcntl
import json
import os
import re
import resource
import subprocess
import tempfile
import time
import unittest
from pathlib import Path

from tests.program.test_memory import commands_in, text_of
from tests.program.test_race import ACCEPTED, JOURNAL, REPEATED
from tests.support import plain_race
from tests.support.program import LIST, PROGRAM, SERVE, in_time, journal_line, publish, resolve, run
from tests.support.registry_folder import pigeons

HOLES, BIRDS = pigeons(13)  # that they don't all fit shows in a search that takes all memory
ALL = resolve(*(f"{bird} *" for bird in BIRDS))
# Kilobytes of all memory that a program may have, of what a race of two short files may be found to take, and of what
# each file may add: two tables of 64, of names and of requirements that were read before.
LIMIT, MOST_OF_A_RACE, MOST_OF_A_FILE = 16_000, 8_000, 128
PIPE = 4_096  # bytes
# More conflicts than that memory has room for, and fewer than twice as much has.
CONFLICTS = 16_000
# Decisions of a newest selection, and the kilobytes of all memory in which it is found.
LADDERS = (1_000, 32_000), (2_000, 64_000)


def ladder(rungs):
    """A registry in which each rung is a decision, from which the version of its step follows, with that of the step
    before. So what rules out a better version of a step depends on all decisions before. That `x` 2.0.0 can't be
    selected shows only in a search."""
    yield from (publish("x", "1.0.0"), publish("x", "2.0.0", ["d *"]), publish("y", "1.0.0", ["c =2.0.0"]),
                publish("c", "1.0.0"), publish("c", "2.0.0"))
    yield from (publish("d", "1.0.0", ["c =1.0.0"]), publish("d", "2.0.0", ["c =1.0.0", "e *"]), publish("e", "1.0.0"))
    for rung in range(rungs):
        last = rung + 1 == rungs
        more = [] if last else [f"rung-{rung + 1:04} *"]
        yield publish(f"rung-{rung:04}", "1.0.0", more)
        yield publish(f"rung-{rung:04}", "2.0.0", [*more, f"step-{rung:04} >=1.1.0"])
        yield publish(f"step-{rung:04}", "1.0.0")
        yield publish(f"step-{rung:04}", "1.1.0", [] if last else [f"step-{rung + 1:04} <1.2.0"])
        yield publish(f"step-{rung:04}", "1.2.0")


def within(kilobytes):
    """Lets a program have so much memory in all, as `ulimit -v` does."""
    return lambda: resource.setrlimit(resource.RLIMIT_AS, (kilobytes * 1024, kilobytes * 1024))


def served_within(kilobytes, lines, *words):
    """The replies of a session that ends well in so much memory."""
    done = run(["serve", *(words or SERVE[1:])], text_of(lines).encode(), preexec_fn=within(kilobytes))
    assert (done.returncode, done.stderr) == (0, b"")
    return done.stdout.decode().split("\n")[:-1]


class Searches(unittest.TestCase):
    def asked(self):
        """What is asked behind the publications, each with its reply."""
        revision = len(HOLES)
        short = f'{{"error":18,"name":"NoMemory","revision":{revision}}}'
        chosen = '"selected":[["hole-11","0.0.0"],["pigeon-0","11.0.0"]]'
        return [(ALL, short), (resolve("pigeon-0 *"), f'{{"revision":{revision},{chosen}}}'), (ALL, short),
                (resolve("pigeon-0 ^99"), f'{{"refused":true,"revision":{revision}}}'), (ALL, short),
                (publish("more", "1.0.0"), f'{{"ok":true,"revision":{revision + 1}}}'),
                (resolve("more *"), f'{{"revision":{revision + 1},"selected":[["more","1.0.0"]]}}')]

    def test_a_session_goes_on(self):
        asked = self.asked()
        lines = [*HOLES, *(line for line, _ in asked)]
        for workers in ("1", "4"):
            with tempfile.TemporaryDirectory() as folder:
                saved = os.path.join(folder, "saved")
                replies = served_within(LIMIT, lines, "--workers", workers, "--save", saved)
                accepted = [f'{{"ok":true,"revision":{number}}}' for number in range(1, len(HOLES) + 1)]
                self.assertEqual(replies, [*accepted, *(reply for _, reply in asked)])
                self.assertEqual(commands_in(Path(saved).read_bytes()),
                                 [journal_line(line) for line in [*HOLES, publish("more", "1.0.0")]])

    def test_a_seat_goes_on(self):
        asked = self.asked()
        lines = [*HOLES, *(line for line, _ in asked)]
        files = [[line.encode() for line in lines]]
        with tempfile.TemporaryDirectory() as folder:
            done = run(["race", *plain_race.written(folder, files)], preexec_fn=within(LIMIT))
        self.assertEqual((done.returncode, done.stderr), (0, b""))
        told = plain_race.told_in(files, done.stdout.decode().split("\n"))[len(HOLES):]
        # what was learnt on the way takes places
        self.assertEqual([it.reply for it in told],
                         [json.dumps(json.loads(reply), separators=(",", ":")) for _, reply in asked])
        self.assertTrue(all(it.place >= len(HOLES) for it in told))

    def test_a_reply_that_would_take_all_memory(self):
        # each version is ruled out by a line of its own, and named by its long text in eleven lines: some 5 MB, which
        # are put together in memory from the lines and their texts
        needs = [f"q >=2.0.0, <3.{number}.0" for number in range(1_500)]
        lines = [publish("q", "1.0.0"), publish("q", "2.0.0"),
                 *(publish("a", f"1.{number}.0+{'b' * 240}", [need]) for number, need in enumerate(needs))]
        asked = [resolve("a *", "q ^1", explain=True), resolve("a *", "q ^1"), LIST]
        replies = served_within(LIMIT, [*lines, *asked])[len(lines):]
        self.assertEqual(replies[:2],
                         ['{"error":18,"name":"NoMemory","revision":1502}', '{"refused":true,"revision":1502}'])
        self.assertTrue(replies[2].startswith('{"packages":[["a",') and replies[2].endswith('"revision":1502}'))
        self.assertEqual(len(replies), 3)

    def test_it_is_memory_that_the_search_wants(self):
        # with more of it the same search meets more conflicts, until it has met what it may
        asked = resolve(*(f"{bird} *" for bird in BIRDS), budget=CONFLICTS)
        for limit, name in ((LIMIT, "NoMemory"), (2 * LIMIT, "BudgetSpent")):
            self.assertIn(f'"name":"{name}"', served_within(limit, [*HOLES, asked])[-1])


class Ladders(unittest.TestCase):
    """The newest selection depends on many decisions: memory does not grow with the square of their number."""

    def test_a_request_of_many_decisions(self):
        asked = resolve("x *", "y *", "rung-0000 *", "step-0000 =1.1.0")
        for rungs, limit in LADDERS:
            with self.subTest(rungs=rungs):
                reply = served_within(limit, [*ladder(rungs), asked])[-1]
                made = [[f"{name}-{rung:04}", version] for name, version in (("rung", "2.0.0"), ("step", "1.1.0"))
                        for rung in range(rungs)]
                self.assertEqual(json.loads(reply)["selected"], [["c", "2.0.0"], *made, ["x", "1.0.0"], ["y", "1.0.0"]])


class Peaks(unittest.TestCase):
    """The most memory that a race has had, once all its lines are answered. It is held up where it writes."""

    def peak_of(self, *files):
        """Kilobytes, and what the race prints."""
        with tempfile.TemporaryDirectory() as folder:
            paths = plain_race.written(folder, [[line.encode() for line in lines] for lines in files])
            theirs, ours = os.pipe()
            fcntl.fcntl(ours, fcntl.F_SETPIPE_SZ, PIPE)
            # what fills the pipe is read before what the race writes
            os.write(ours, b" " * PIPE)
            with in_time(), subprocess.Popen([PROGRAM, "race", *paths], stdout=ours) as racing:
                os.close(ours)
                peak = self.held_up(racing)
                with os.fdopen(theirs, "rb") as printed:
                    text = printed.read()[PIPE:]
                self.assertEqual(racing.wait(), 0)
        return peak, text.decode()

    def held_up(self, racing):
        """The peak of a race that waits to write."""
        for _ in range(10_000):
            if "pipe" in Path(f"/proc/{racing.pid}/wchan").read_text(encoding="ascii"):
                break
            time.sleep(0.001)
        else:
            # not every system tells where: it had ten seconds
            self.assertIsNone(racing.poll())
        status = Path(f"/proc/{racing.pid}/status").read_text(encoding="ascii")
        return int(re.search(r"VmHWM:\s*(\d+) kB", status)[1])

    def test_a_race_of_two_files(self):
        peak, printed = self.peak_of([publish("a", "1.0.0")], [publish("a", "1.0.0")])
        lines = printed.split("\n")
        self.assertIn(lines[:2], ([ACCEPTED % 1, REPEATED % 2], [REPEATED % 1, ACCEPTED % 2]))
        self.assertEqual(lines[2:], [*JOURNAL, ""])
        self.assertLess(peak, MOST_OF_A_RACE)

    def test_a_race_of_63_files(self):
        files = [[publish("a", f"1.{number}.0"), LIST] for number in range(63)]
        peak, printed = self.peak_of(*files)
        self.assertEqual(plain_race.judge([[line.encode() for line in lines] for lines in files], printed), 63)
        self.assertLess(peak, MOST_OF_A_RACE + 63 * MOST_OF_A_FILE)
