"""A session that keeps a journal is killed before and behind each of its calls, and amid its writes: whatever was told
as accepted is in the file, also where the machine crashes there, and the next session goes on with it."""
import functools
import json
import os
import signal
import unittest
from pathlib import Path

from tests.program.test_journals import CONFLICT, journal
from tests.support.durable_sessions import Watched, fault_of, journal_lines
from tests.support.plain_disk import Disk
from tests.support.plain_remnant import remnant
from tests.support.preloaded import NO_SYNC, WATCH_CALLS, built, in_memory
from tests.support.program import LIST, in_time, journal_line, publish, resolve, run, serve, unyank, yank
from tests.support.reference import Registry

STEPS = [CONFLICT, [resolve("foo >=1.0.0")], [LIST, "no line", publish("a", "1.0.0", ["b ^1"])],
         [yank("a", "1.0.0"), yank("a", "1.0.0")],
         [resolve("foo >=1.0.0"), publish("b", "1.0.0"), resolve("bar *"), LIST, unyank("a", "1.0.0")]]
LINES = sum(STEPS, [])
OLD = [publish("old", "1.0.0", ["a *"]), yank("old", "1.0.0")]
# What a file may have before: nothing, a whole journal of the first format, a beginning of one of the second.
STARTS = {"none": (None, []), "whole": (journal(OLD, 1), OLD), "cut": (journal(OLD)[:-9], OLD[:1])}
NAME = "kept.journal"


def went_out(text):
    """How many replies were begun."""
    return text.count(b"\n") + (not text.endswith(b"\n") and text != b"")


@functools.lru_cache(maxsize=None)
def fault_left(left, count, start):
    """What is wrong where a crash leaves this of a file, and so many replies went out; it is asked again and again for
    what other orders have in common."""
    return fault_of(left, LINES, count, journal_lines(STARTS[start][1]))


def crash_fault(calls, folder, start):
    """What a crash of the machine would have lost behind one of these calls, or made of the file; nothing where it
    loses nothing."""
    text, _ = STARTS[start]
    disk, judged = Disk(folder, {} if text is None else {NAME: text}), set()
    for number, call in enumerate(calls, 1):
        disk.follow(call)
        count = went_out(disk.went_out)
        for left in disk.may_be_left(NAME):
            if (left, count) in judged:
                continue
            judged.add((left, count))
            fault = fault_left(b"" if left is None else left, count, start)
            if fault:
                return f"behind call {number}, {call.name}: {fault}"
    return None


class Kills(unittest.TestCase):
    @classmethod
    def setUpClass(cls):
        cls.library = built(cls, WATCH_CALLS)

    def setUp(self):
        self.folder = os.path.realpath(self.enterContext(in_memory()))
        self.path = os.path.join(self.folder, NAME)

    def is_folder(self, given, folder="."):
        """Whether a name that a session gave the system, which counts from its own folder, is that of this one."""
        wanted = os.path.join(self.folder, folder).removesuffix("/.")
        return os.path.realpath(os.path.join(self.folder, os.fsdecode(given))) == wanted

    def begin(self, start):
        Path(self.path).unlink(missing_ok=True)
        if STARTS[start][0] is not None:
            self.write(STARTS[start][0])

    def write(self, text):
        Path(self.path).write_bytes(text)

    def left(self):
        return Path(self.path).read_bytes() if os.path.exists(self.path) else b""

    def session(self, start, workers="1", **more):
        """A session from such a start: how it ended, its calls, and what was read of it."""
        self.begin(start)
        watched = Watched(self.library, ["serve", "--workers", workers, "--journal", NAME], folder=self.folder, **more)
        status, told, calls = watched.follow(STEPS)
        return status, told, calls, watched.client.read

    def whole_session(self, start, workers="1"):
        """The calls of a session that is not killed, with all of its replies."""
        status, told, calls, read = self.session(start, workers)
        self.assertEqual((status, told), (0, b""))
        self.assertEqual(read.decode().split("\n")[:-1], serve([*STARTS[start][1], *LINES])[len(STARTS[start][1]):])
        return calls, read

    def goes_on(self, before):
        """The next session has exactly the items that stand in the file, and puts its own behind them."""
        found = remnant(self.left())
        registry = Registry()
        for line in found.commands:
            registry.apply(json.loads(line))
        more = publish("new", "1.0.0")
        done = run(["serve", "--workers", "4", "--journal", self.path], (LIST + "\n" + more + "\n").encode())
        self.assertEqual((done.returncode, done.stderr), (0, b""))
        self.assertEqual(done.stdout.decode().split("\n"),
                         [registry.answer({"op": "list"}, ()), f'{{"ok":true,"revision":{registry.revision + 1}}}', ""])
        self.assertEqual(self.left(), found.text + journal_line(more).encode() + b"\nend %d\n" % (len(found.lines) + 1))
        self.assertGreaterEqual(registry.revision, before)

    def test_killed_at_each_call(self):
        kills = 0
        for start, workers in (("none", "1"), ("whole", "4"), ("cut", "4")):
            calls, replies = self.whole_session(start, workers)
            before = journal_lines(STARTS[start][1])
            for number, call in enumerate(calls, 1):
                for side in ("before", "behind", *(["amid"] if call.name == "write" else [])):
                    status, _, _, read = self.session(start, workers, kill=number, side=side)
                    at = (start, number, call.name, side)
                    self.assertEqual(status, -9, at)
                    self.assertTrue(replies.startswith(read), at)
                    self.assertIsNone(fault_of(self.left(), LINES, went_out(read), before), at)
                    self.goes_on(len(before))
                    kills += 1
        self.assertGreater(kills, 200)

    def test_a_crash_at_each_moment(self):
        for start in STARTS:
            calls, _ = self.whole_session(start)
            self.assertIsNone(crash_fault(calls, self.folder, start), start)

    def test_what_a_crash_leaves_is_gone_on_with(self):
        for start, (text, before) in STARTS.items():
            calls, _ = self.whole_session(start)
            disk, texts = Disk(self.folder, {} if text is None else {NAME: text}), set()
            for call in calls:
                disk.follow(call)
                texts.update(it for it in disk.may_be_left(NAME) if it is not None)
            self.assertGreater(len(texts), 600)
            for left in sorted(texts)[::13]:
                self.write(left)
                self.goes_on(len(before))

    def test_a_program_that_syncs_nothing_is_found(self):
        library = built(type(self), NO_SYNC)
        for start in STARTS:
            status, _, calls, _ = self.session(start, before=[library])
            self.assertEqual(status, 0)
            self.assertRegex(crash_fault(calls, self.folder, start),
                             "behind call .* write: what was told is not in the file")

    def test_a_name_that_may_be_gone_is_found(self):
        calls, _ = self.whole_session("none")
        folder = next(call.answer for call in calls if call.name == "open" and self.is_folder(call.given))
        wrong = [call for call in calls if call.name != "fsync" or call.number != folder]
        self.assertEqual(len(wrong), len(calls) - 1)
        self.assertRegex(crash_fault(wrong, self.folder, "none"), "what was told is not in the file")

    def test_the_folder_of_what_a_link_leads_to_is_synced(self):
        """The link leads nowhere so far, and so the file that is made has to last, by its own name."""
        for name in ("here", "there"):
            os.mkdir(os.path.join(self.folder, name))
        os.symlink("../there/real", os.path.join(self.folder, "here", "link"))
        watched = Watched(self.library, ["serve", "--workers", "1", "--journal", "here/link"], folder=self.folder)
        _, _, calls = watched.follow([[LIST]])
        made = next(place for place, call in enumerate(calls) if call.name == "open" and call.answer >= 0
                    and call.number & os.O_CREAT)
        opened = [call.answer for call in calls[made:] if call.name == "open" and self.is_folder(call.given, "there")]
        self.assertTrue({call.number for call in calls[made:] if call.name == "fsync"} & set(opened))

    def test_a_file_that_is_moved_before_it_is_locked(self):
        """A session that is stopped between opening and locking takes no file that its name does not lead to, and
        changes none."""
        calls, _ = self.whole_session("whole")
        lock = next(number for number, call in enumerate(calls, 1) if call.name == "flock")
        for is_replaced, words in ((True, "in use by another session"),
                                   (False, "can't be opened: No such file or directory (os error 2)")):
            self.begin("whole")
            watched = Watched(self.library, ["serve", "--workers", "1", "--journal", NAME], lock, "before", self.folder,
                              number=signal.SIGSTOP)
            running, there = watched.client.running, os.path.join(self.folder, "there")
            with in_time():
                self.assertEqual(os.waitid(os.P_PID, running.pid, os.WSTOPPED | os.WEXITED | os.WNOWAIT).si_status,
                                 signal.SIGSTOP)
            os.rename(self.path, there)
            if is_replaced:
                self.write(b"")
            running.send_signal(signal.SIGCONT)
            status, told, _ = watched.follow([[LIST]])
            self.assertEqual((status, told.decode(), watched.client.read),
                             (1, f"registryd: journal {NAME}: {words}\n", b""))
            self.assertEqual(self.left(), b"")
            self.assertEqual(Path(there).read_bytes(), STARTS["whole"][0])
