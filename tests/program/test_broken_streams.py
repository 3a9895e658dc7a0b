"""Reads that give little or fail, and writes that fail, at each byte and at each call: what is answered until then, and
how it ends."""
import fcntl
import os
import struct
import tempfile
import termios
import unittest
from pathlib import Path

from tests.program.test_journals import journal
from tests.support.preloaded import BREAK_CALLS, Break, built
from tests.support.program import LIST, SERVE, end, publish, resolve, run, talking
from tests.support.tables import tables_under

LINES = b'{"op":"publish","name":"b","version":"1.0.0","needs":[["a","^1"]]}\n{"op":"list"}\n\n{"op":"list"}'
LISTING = b'{"packages":[["b",[["1.0.0",false]]]],"revision":1}\n'
WHOLE_REPLIES = b'{"ok":true,"revision":1}\n' + LISTING + b'{"error":19,"name":"BadLine","revision":1}\n'

# The tables of races whose output fails at each of its bytes.
OF_EACH_KIND = ("A line of each kind.", "A journal's line for a command of each kind:")


def waiting(pipe):
    """How many bytes of a pipe are not read yet."""
    return struct.unpack("i", fcntl.ioctl(pipe, termios.FIONREAD, b"\0" * 4))[0]


class Reads(unittest.TestCase):
    def test_byte_by_byte(self):
        with talking() as client:
            for byte in LINES:
                client.stdin.write(bytes([byte]))
                while waiting(client.stdin) and client.poll() is None:
                    pass
            self.assertEqual(end(client), (WHOLE_REPLIES + LISTING, 0))


class Writes(unittest.TestCase):
    def setUp(self):
        self.folder = self.enterContext(tempfile.TemporaryDirectory())

    def leave_each_beginning(self, words, given, whole):
        """Lets the output fail behind each number of bytes of the whole, of which exactly these are written."""
        path = os.path.join(self.folder, "printed")
        for most in range(len(whole) + 1):
            with open(path, "wb") as out:
                done = run(words, given, stdout=out, most=most)
            fails = most < len(whole)
            self.assertEqual((done.returncode, done.stderr), (1, b"registryd: output failed\n") if fails
                             else (0, b""), most)
            self.assertEqual(Path(path).read_bytes(), whole[:most])

    def test_nobody_reads(self):
        # the signal that comes of it does not end the program
        path = os.path.join(self.folder, "lines")
        Path(path).write_bytes(LINES)
        for words in (SERVE, ["race", path]):
            reading, writing = os.pipe()
            os.close(reading)
            done = run(words, LINES, stdout=writing)
            os.close(writing)
            self.assertEqual((done.returncode, done.stderr), (1, b"registryd: output failed\n"), words)

    def test_each_beginning_of_a_session(self):
        self.leave_each_beginning(SERVE, LINES, WHOLE_REPLIES + LISTING)

    def test_each_beginning_of_a_race(self):
        # the replies of a race's lines, and then its journal
        tables = [table for table in tables_under("races") if table.title.startswith(OF_EACH_KIND)]
        self.assertEqual(len(tables), len(OF_EACH_KIND))
        for table in tables:
            path = os.path.join(self.folder, "lines")
            Path(path).write_bytes(table.requests())
            whole = "".join(line + "\n" for line in [*table.replies(), *table.journal])
            self.leave_each_beginning(["race", path], b"", whole.encode())


class Calls(unittest.TestCase):
    """Each read and each write in turn fails, is of one byte, or is broken off by a signal. The session begins with a
    journal and leaves one, and it and the race take several reads and writes for each file."""

    @classmethod
    def setUpClass(cls):
        cls.library = built(cls, BREAK_CALLS)
        cls.folder = cls.enterClassContext(tempfile.TemporaryDirectory())
        cls.loaded, cls.saved = os.path.join(cls.folder, "loaded"), os.path.join(cls.folder, "saved")

    def write(self, path, text):
        Path(path).write_bytes(text)

    def version(self, number):
        """A version of some 200 bytes."""
        return f"1.{number}.0+{'b' * 190}"

    def long_lines(self, name, count):
        return [publish(name, self.version(number)) for number in range(count)]

    def each(self, words, given, call, how):
        """What each run left in which one call more of a function was not broken, until none is."""
        for number in range(1, 200):
            done, came = Break(call, number, how).run(self.library, words, given)
            if not came:
                return
            yield number, done
        self.fail(f"there is no end of {call}")

    def session(self):
        before, asked = self.long_lines("a", 400), [*self.long_lines("b", 400), resolve("a *", "b *"), LIST,
                                                    resolve("none *")]
        self.write(self.loaded, journal(before))
        words = ["serve", "--workers", "4", "--load", self.loaded, "--save", self.saved]
        given = "".join(line + "\n" for line in asked).encode()
        names = ",".join(f'["{self.version(number)}",false]' for number in range(400))
        last = self.version(399)
        told = [*(f'{{"ok":true,"revision":{number}}}' for number in range(401, 801)),
                f'{{"revision":800,"selected":[["a","{last}"],["b","{last}"]]}}',
                f'{{"packages":[["a",[{names}]],["b",[{names}]]],"revision":800}}', '{"refused":true,"revision":800}']
        return words, given, "".join(line + "\n" for line in told).encode(), journal([*before, *asked[:400]])

    def is_kept(self, saved):
        """Whether the session's journal was saved; else what stood there stands as it was."""
        text = Path(self.saved).read_bytes()
        self.assertIn(text, (saved, b"as it was"))
        return text == saved

    def test_each_call_of_a_session_that_fails(self):
        words, given, told, saved = self.session()
        for call, ending, least in (("read", b"registryd: input failed\n", 5),
                                    ("write", b"registryd: output failed\n", 5)):
            count = 0
            self.write(self.saved, b"as it was")
            for number, done in self.each(words, given, call, "EIO"):
                self.assertEqual((done.returncode, done.stderr), (1, ending), (call, number))
                self.assertTrue(told.startswith(done.stdout), (call, number))
                self.assertFalse(self.is_kept(saved), (call, number))
                if call == "read":
                    # a line whose last byte was not read is not answered, and each other is
                    self.assertTrue(done.stdout.endswith(b"\n") or not done.stdout, number)
                count += 1
            self.assertGreater(count, least)
            self.assertTrue(self.is_kept(saved))

    def test_each_call_of_a_session_that_is_short_or_broken_off(self):
        words, given, told, saved = self.session()
        for call in ("read", "write"):
            for how in ("short", "EINTR"):
                for number, done in self.each(words, given, call, how):
                    self.assertEqual((done.returncode, done.stderr, done.stdout), (0, b"", told), (call, how, number))
                    self.assertTrue(self.is_kept(saved), (call, how, number))
                    self.write(self.saved, b"as it was")

    def race(self):
        """A race of one file that asks, and one that has nothing to do with it."""
        asked = [*self.long_lines("a", 700), resolve("a *")]
        paths = [os.path.join(self.folder, name) for name in ("first", "second")]
        self.write(paths[0], "".join(line + "\n" for line in asked).encode())
        self.write(paths[1], b"no line\n" * 10_000)
        told = [*(f'{{"ok":true,"place":{number},"revision":{number},"seat":1}}' for number in range(1, 701)),
                f'{{"place":700,"revision":700,"seat":1,"selected":[["a","{self.version(699)}"]]}}',
                *['{"error":19,"name":"BadLine","place":0,"revision":0,"seat":2}'] * 10_000]
        return ["race", *paths], "".join(line + "\n" for line in told).encode() + journal(asked[:700])

    def test_each_call_of_a_race(self):
        words, told = self.race()
        for call, ending in (("read", b"registryd: input failed\n"), ("write", b"registryd: output failed\n")):
            count = 0
            for number, done in self.each(words, b"", call, "EIO"):
                self.assertEqual((done.returncode, done.stderr), (1, ending), (call, number))
                self.assertTrue(told.startswith(done.stdout), (call, number))
                # the files are read before anything is answered
                self.assertTrue(done.stdout == b"" or call == "write", number)
                count += 1
            self.assertGreater(count, 3)
            for how in ("short", "EINTR"):
                for number, done in self.each(words, b"", call, how):
                    self.assertEqual((done.returncode, done.stderr, done.stdout), (0, b"", told), (call, how, number))
