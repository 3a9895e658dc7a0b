"""A disk that fills up under a session's journal: no reply that rests on what is not there goes out, it is told which
file could not be written, and the next session goes on with all that was told."""
import contextlib
import ctypes
import functools
import os
import tempfile

import pytest

from tests.program.test_journals import CONFLICT, Sessions, journal
from tests.support.durable_sessions import Client, fault_of, journal_lines
from tests.support.plain_remnant import remnant
from tests.support.preloaded import BREAK_CALLS, Break, built
from tests.support.program import LIST, SERVE, files_of_at_most, publish, resolve, run, serve, yank

pytestmark = pytest.mark.not_quick("full disks")
STEPS = [CONFLICT[:1], CONFLICT[1:], [resolve("foo >=1.0.0")], [LIST], [yank("foo", "2.0.0"), publish("z", "1.0.0")]]
LINES = sum(STEPS, [])
TOO_LARGE, NO_SPACE = "File too large (os error 27)", "No space left on device (os error 28)"
TMPFS = 65_536  # bytes of a small file system
CDLL = ctypes.CDLL(None, use_errno=True)


@contextlib.contextmanager
def small_disk(size=TMPFS):
    """The folder of a small file system, or none where none may be mounted."""
    with tempfile.TemporaryDirectory() as folder:
        if CDLL.mount(b"none", folder.encode(), b"tmpfs", 0, f"size={size}".encode()):
            yield None
            return
        try:
            yield folder
        finally:
            CDLL.umount2(folder.encode(), 2)  # also where something is still open there


class Full(Sessions):
    LONGEST = 300  # a program is run for each byte that still finds room

    def setUp(self):
        super().setUp()
        # many sessions are asked the same
        self.replies = functools.cache(lambda *lines: serve(lines))

    def session(self, path, steps, most=None):
        """A client that sends these steps, each once those before it are answered, until the program is gone; answers
        its replies and how it ended."""
        with files_of_at_most(most):
            # a signal that this process passes over is passed over by what it starts
            client = Client(["serve", "--workers", "1", "--journal", path], restore_signals=most is None)
        count = 0
        for lines in steps:
            client.send(lines)
            count += len(lines)
            if not client.read_until(count):
                break
        return client, client.leave()

    def all_told_is_there(self, path, client, told, words, lines, before=()):
        """What a session left that could not write: some of its replies, all of which rest on what is there."""
        self.assertTrue(client.read.endswith(b"\n") or not client.read)
        replies = client.replies()
        self.assertEqual(replies, self.replies(*before, *lines)[len(before):len(before) + len(replies)])
        self.assertEqual(told, (1, f"registryd: journal {path}: can't be written: {words}\n".encode()))
        self.assertIsNone(fault_of(self.read(path), lines, len(replies), journal_lines(before)))

    def goes_on(self, path, lines, before=()):
        """Once there is room, the next session goes on with what is there, and then has what one session has."""
        found = remnant(self.read(path))
        done = run([*SERVE, "--journal", path], "".join(line + "\n" for line in [*lines, LIST]).encode())
        self.assertEqual((done.returncode, done.stderr), (0, b""))
        self.assertEqual(done.stdout.splitlines()[-1].decode(), self.replies(*before, *lines, LIST)[-1])
        text = self.read(path)
        self.assertTrue(text.startswith(found.text))
        self.assertEqual(text.splitlines()[-1], b"end %d" % (text.count(b"\n") - 2))

    def test_full_behind_each_byte(self):
        whole, ended = self.session(self.kept, STEPS)
        self.assertEqual((ended, whole.replies()), ((0, b""), serve(LINES)))
        size, replies = os.path.getsize(self.kept), set()
        for most in range(size + 1):
            os.unlink(self.kept)
            client, told = self.session(self.kept, STEPS, most)
            self.assertLessEqual(os.path.getsize(self.kept), most)
            if most == size:
                self.assertEqual((told, client.read), (ended, whole.read))
                continue
            self.all_told_is_there(self.kept, client, told, TOO_LARGE, LINES)
            self.goes_on(self.kept, LINES)
            replies.add(len(client.replies()))
        # it has come to each place between two steps but the one before a request, whose reply rests on nothing more
        self.assertGreaterEqual(replies, {0, 1, 4, 5, 7})

    def test_full_behind_each_byte_of_what_is_gone_on_with(self):
        for form, lack in ((1, 0), (2, 3)):
            text, whole = journal(CONFLICT[:2], form), journal(CONFLICT)
            text = text[:len(text) - lack]
            for most in range(len(whole) + 1):
                self.write(self.kept, text)
                client, told = self.session(self.kept, [CONFLICT[2:]], most)
                if most < len(whole):
                    self.all_told_is_there(self.kept, client, told, TOO_LARGE, CONFLICT[2:], CONFLICT[:2])
                else:
                    self.assertEqual((told, self.read(self.kept)), ((0, b""), whole))
                self.goes_on(self.kept, CONFLICT[2:], CONFLICT[:2])

    def test_a_small_disk(self):
        with small_disk() as folder:
            if folder is None:
                self.skipTest("no file system may be mounted here: it takes root")
            path, page = os.path.join(folder, "kept"), os.sysconf("SC_PAGE_SIZE")
            lines = [publish("a", f"1.{number}.0+{'b' * 200}") for number in range(1, 60)]
            for length in range(1, 240, 4):
                # so that the last page ends at many bytes of a line
                self.write(path, b"")
                self.write(os.path.join(folder, "other"), b"x" * (TMPFS - 2 * page))
                steps = [[publish("a", f"1.0.0+{'b' * length}"), *lines[:24]], *([line] for line in lines[24:])]
                client, told = self.session(path, steps)
                self.all_told_is_there(path, client, told, NO_SPACE, sum(steps, []))
                self.assertEqual(os.path.getsize(path), 2 * page)
                os.unlink(os.path.join(folder, "other"))
                if length % 20 == 0:
                    self.goes_on(path, sum(steps, []))


class Failing(Sessions):
    """Each call at the file fails in turn, as the system may have it."""
    LOOKS = ("statx",)  # by which it is asked what stands there

    @classmethod
    def setUpClass(cls):
        cls.library = built(cls, BREAK_CALLS)

    def test_each_call_that_fails(self):
        kept, words, failed = self.kept, ["serve", "--workers", "4", "--journal", self.kept], set()
        wanted = serve([*CONFLICT[:2], *LINES[2:]])[2:]
        given = "".join(line + "\n" for line in LINES[2:]).encode()
        for call, error in (("open", "EMFILE"), ("flock", "ENOLCK"), *((look, "EIO") for look in self.LOOKS),
                            ("read", "EIO"), ("ftruncate", "EIO"), ("lseek", "EIO"), ("write", "ENOSPC"),
                            ("fsync", "EIO"), ("fdatasync", "EIO"), ("fdatasync", "ENOSPC"), ("close", "EIO")):
            for number in range(1, 60):
                self.write(kept, journal(CONFLICT[:2], 1)[:-2])
                done, came = Break(call, number, error).run(self.library, words, given)
                if not came:
                    break
                at, replies = (call, error, number), done.stdout.decode().split("\n")
                self.assertEqual(replies.pop(), "", at)
                self.assertEqual(replies, wanted[:len(replies)], at)
                fault = fault_of(self.read(kept), LINES[2:], len(replies), journal_lines(CONFLICT[:2]))
                self.assertIsNone(fault, at)
                if done.returncode:
                    self.assertEqual(done.stderr.count(b"\n"), 1, at)
                    of_file = rf"journal {kept}: can't be \w+: .* \(os error \d+\)"
                    self.assertRegex(done.stderr.decode(), rf"^registryd: ((in|out)put failed|{of_file})\n$", at)
                    failed.add(call)
                else:
                    self.assertEqual((done.stderr, replies), (b"", wanted), at)
            self.assertGreater(number, 1, call)
        self.assertEqual(failed, {"open", "flock", *self.LOOKS, "read", "ftruncate", "lseek", "write", "fsync",
                                  "fdatasync"})
