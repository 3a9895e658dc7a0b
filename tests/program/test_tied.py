"""A program ends with the one that began it, however that one ends: killed in the middle of a search, too."""
import contextlib
import os
import signal
import socket
import subprocess
import sys
import tempfile
import threading
import time
import unittest
from unittest import mock

from registry_cli import tied
from tests.support import fronts, program
from tests.support.fake_etcd import Gate, SmallEtcd
from tests.support.processes import child_of, is_gone, is_idle
from tests.support.program import PROGRAM, TOP, heed_signals, resolve
from tests.support.registry_folder import pigeons
from tests.support.tunables import NAME, ROWS, TELL, environment

PYTHON = {**os.environ, "PYTHONPATH": TOP}
PLACES, BIRDS = pigeons(15)
LONG = resolve(*[f"{bird} *" for bird in BIRDS])  # a search that does not end in the time of a test
# begins a program by these words, which tells of its processes, says once it is tied, each in one piece, and waits
WAITS = "os.write(1, b'tied\\n'); time.sleep(600)"
BEGIN = ("import os, sys, time; from registry_cli import tied; "
         f"held = tied.Tied(sys.argv[2:], process_group=int(sys.argv[1]) if sys.argv[1] else None); {WAITS}")


def begun(code, *words, **more):
    return subprocess.Popen([sys.executable, "-c", code, *words], stdout=subprocess.PIPE, **more)


class Tied(unittest.TestCase):
    def setUp(self):
        self.enterContext(program.in_time())

    def killed(self, group, *words):
        """The processes that a program tells of, whose parent then is killed."""
        with begun(BEGIN, group, *words) as parent:
            lines = [parent.stdout.readline().split() for _ in range(2)]
            parent.kill()
        self.assertIn([b"tied"], lines)
        return [int(it) for line in lines if line != [b"tied"] for it in line]

    def test_a_program_whose_parent_is_killed(self):
        for group, script, count in (("", "echo $$; exec sleep 600", 1),
                                     # one that would heed no other signal, and what a program has begun in its group
                                     ("", "trap '' HUP INT TERM IO; echo $$; exec sleep 600", 1),
                                     ("0", "sleep 600 & echo $$ $!; wait", 2)):
            with self.subTest(script):
                self.assertEqual([is_gone(it) for it in self.killed(group, "sh", "-c", script)], [True] * count)

    def test_a_program_whose_parent_ends_by_itself(self):
        code = BEGIN.replace(WAITS, "print(held.pid)")
        with begun(code, "", "sleep", "600") as parent:
            child = int(parent.stdout.read())
        self.assertTrue(is_gone(child))

    def test_a_program_that_is_begun_by_a_thread_outlives_the_thread(self):
        made = []
        thread = threading.Thread(target=lambda: made.append(tied.Tied(["cat"], stdin=subprocess.PIPE,
                                                                       stdout=subprocess.PIPE)))
        thread.start()
        thread.join()
        time.sleep(0.2)
        self.assertEqual((made[0].communicate(b"a")[0], made[0].wait()), (b"a", 0))
        made[0].let_go()

    def test_one_that_ends_leaves_no_open_file(self):
        before = open_files()
        for _ in range(3):
            done = tied.run(["cat"], input=b"given", stdout=subprocess.PIPE)
            self.assertEqual((done.returncode, done.stdout), (0, b"given"))
            with self.assertRaises(FileNotFoundError):
                tied.Tied([os.path.join(TOP, "no-such-program")])
            with self.assertRaises(subprocess.TimeoutExpired):
                tied.run(["sleep", "600"], timeout=0.1)
            with tied.Tied(["true"]) as running:
                self.assertEqual(running.wait(), 0)
        # of those before, what other tests have left may be closed meanwhile
        self.assertEqual(open_files() - before, set())

    def test_glibc_is_asked_for_huge_pages(self):
        for given, wanted in ROWS:
            with mock.patch.dict(os.environ, environment(given), clear=True):
                self.assertEqual(tied.run(["sh", "-c", TELL], stdout=subprocess.PIPE, text=True).stdout, f"{wanted}\n")
                self.assertEqual(os.environ.get(NAME), given)
        # an environment that is given is taken as it is
        self.assertEqual(tied.run(["sh", "-c", TELL], stdout=subprocess.PIPE, text=True, env=environment(None)).stdout,
                         "none\n")

    def test_whether_somebody_reads(self):
        for reader, writer in (os.pipe(), [it.detach() for it in socket.socketpair()]):
            unread = threading.Event()
            with open(writer, "wb") as file:
                tied.when_unread(file, unread.set)
                self.assertFalse(unread.wait(0.2))
                os.close(reader)
                self.assertTrue(unread.wait(30))
        with tempfile.TemporaryFile() as file:
            tied.when_unread(file, unread.clear)
            time.sleep(0.2)
            self.assertTrue(unread.is_set())


class Searches(unittest.TestCase):
    """Programs in the middle of a search."""

    def setUp(self):
        self.enterContext(program.in_time(2 * program.PATIENCE))
        self.path = os.path.join(self.enterContext(tempfile.TemporaryDirectory()), "journal")
        with open(self.path, "w", encoding="ascii") as file:
            file.write("\n".join(["registry-journal 1", *map(program.journal_line, PLACES), f"end {len(PLACES)}", ""]))

    def front(self):
        """A front over a registry of pigeons, and its replica, which searches."""
        gate = Gate(SmallEtcd())
        self.addCleanup(gate.close)
        founded = fronts.run("found", [gate.url], "--load", self.path)
        self.assertEqual((founded.returncode, founded.stderr), (0, b""))
        running = subprocess.Popen(fronts.words("serve", [gate.url]), stdin=subprocess.PIPE, stdout=subprocess.PIPE,
                                   stderr=subprocess.PIPE, preexec_fn=heed_signals)
        self.addCleanup(end, running)
        running.stdin.write(f"{resolve('hole-0 *')}\n{LONG}\n".encode())
        running.stdin.flush()
        self.assertIn(b'"selected"', running.stdout.readline())
        return running, child_of(running.pid)

    def test_a_front_that_is_killed(self):
        for number in (signal.SIGKILL, signal.SIGTERM, signal.SIGINT):
            front, replica = self.front()
            self.assertFalse(is_idle(replica))
            front.send_signal(number)
            self.assertEqual(front.communicate(), (b"", b""))
            self.assertTrue(is_gone(replica), number)

    def test_a_front_whose_client_is_gone(self):
        front, replica = self.front()
        front.stdin.close()
        time.sleep(0.3)
        self.assertIsNone(front.poll())  # whoever has no more lines may still read
        front.stdout.close()
        self.assertEqual(front.wait(), 1)
        self.assertTrue(is_gone(replica))

    def test_a_tool_that_runs_the_program(self):
        code = "from tests.support import program; " \
               f"program.run([*program.SERVE, '--load', {self.path!r}], {LONG.encode()!r})"
        with begun(code, env={**PYTHON, "REGISTRYD": PROGRAM, "PROBE": program.PROBE}) as tool:
            child = child_of(tool.pid)
            self.assertFalse(is_idle(child))
            tool.kill()
        self.assertTrue(is_gone(child))


def open_files():
    """What this process has open, by its numbers."""
    found = set()
    for number in os.listdir("/proc/self/fd"):
        with contextlib.suppress(FileNotFoundError):  # that by which they were listed
            found.add((number, os.readlink(f"/proc/self/fd/{number}")))
    return found


def end(running):
    """Ends what a test may have left running."""
    running.kill()
    running.wait()
    for pipe in (running.stdin, running.stdout, running.stderr):
        pipe.close()
