"""Parts of the command registry by examples worked by hand: needs, files, a new journal, what is visible, a bar."""
import io
import os
import signal
import sys
import tempfile
import unittest
from pathlib import Path
from types import SimpleNamespace
from unittest import mock

import pytest

from registry_cli import bar, files, journal_file, needs, output
from registry_cli.failures import DONE, INTERRUPTED, NO_READER, Failed, Failure, Refused, Usage, one_line


class Needs(unittest.TestCase):
    def setUp(self):
        self.folder = self.enterContext(tempfile.TemporaryDirectory())

    def test_needs(self):
        for text, wanted in (("app@^1", ["app", "^1"]), ("app ^1", ["app", "^1"]), ("app", ["app", "*"]),
                             ("app@", ["app", ""]), ("app@ >=1, <2 ", ["app", ">=1, <2"]), ("a b@c", ["a", "b@c"]),
                             ("@", ["", ""]), ("app\t^1", ["app", "^1"]), (" app  @ ^1 ", ["app", "^1"]),
                             ("app ", ["app", "*"]), ("app@^1, <2", ["app", "^1, <2"]), ("", ["", "*"]),
                             ("a b" + " " * 10 ** 5 + "c", ["a", "b" + " " * 10 ** 5 + "c"])):
            assert needs.need_of(text) == wanted, text
        assert [needs.needs_path(it) for it in ("a.lock", "a", "a.lock.b")] == ["a.needs", "a.needs", "a.lock.b.needs"]

    def test_a_needs_file(self):
        path = os.path.join(self.folder, "a.needs")
        Path(path).write_bytes("# what is needed\n\n  app ^1\nlog\n".encode())
        assert needs.read_needs(path) == [["app", "^1"], ["log", "*"]]
        # where it says the same it stays, with its comments
        assert not needs.write_needs(path, [["app", "^1"], ["log", "*"]])
        assert needs.write_needs(path, [["app", "^2"]]) is not False
        assert Path(path).read_bytes() == b"app ^2\n"
        Path(path).write_bytes(b"app ^2 # yet\nlog ^1 ^2\n")
        with pytest.raises(Failed, match=rf"\A{path}:2:8: error 3 BadRequirement: a comma is missing "):
            needs.read_needs(path)
        assert needs.write_needs(path, [["app", "^2"]])  # what can't be read is written over
        assert needs.read_needs(path) == [["app", "^2"]]
        Path(path).write_bytes(b"\xff")
        with pytest.raises(Failed, match=rf"\A{path} is not UTF-8\Z"):
            needs.read_needs(path)
        for given in ({"lock": os.path.join(self.folder, "b.lock")}, {"write": os.path.join(self.folder, "b.lock")}):
            with pytest.raises(Usage, match=f"or write it into {self.folder}/b.needs"):
                needs.needs_given(SimpleNamespace(need=[], **given))
        with pytest.raises(Usage, match="or write it into registry.needs"):
            needs.needs_given(SimpleNamespace(need=[], lock=os.path.join("")))
        assert needs.needs_given(SimpleNamespace(need=["a@^1"])) == [["a", "^1"]]

    def test_files(self):
        path, link = os.path.join(self.folder, "a"), os.path.join(self.folder, "link")
        before = os.umask(0o026)
        self.addCleanup(os.umask, before)
        files.write_file(path, "one")
        assert (os.stat(path).st_mode & 0o777, files.umask()) == (0o640, 0o026)
        os.chmod(path, 0o604)
        os.symlink(path, link)
        files.write_file(link, "two")
        assert (files.read_file(path), os.stat(path).st_mode & 0o777, os.path.islink(link)) == (b"two", 0o604, True)
        files.write_file("/dev/null", "x")
        for place, call in ((os, "fsync"), (tempfile, "mkstemp"), (os, "replace")):
            with mock.patch.object(place, call, side_effect=OSError(28, "No space left on device")):
                with pytest.raises(Failed, match=rf"\A{path} is not written: No space left on device\Z"):
                    files.write_file(path, "three")
        assert (sorted(os.listdir(self.folder)), files.read_file(path)) == (["a", "link"], b"two")
        with pytest.raises(Failed, match=rf"\A{path}/b: Not a directory\Z"):
            files.read_file(path + "/b")
        assert [one_line(OSError("x")), one_line(OSError(2, "No such file", "p")),
                one_line(OSError(2, "No such file"))] == ["x", "p: No such file", "No such file"]

    def test_what_is_written_is_on_the_disk(self):
        path, pipe = os.path.join(self.folder, "a"), os.path.join(self.folder, "pipe")
        synced, before = [], os.listdir("/proc/self/fd")

        def fsync(number):
            name = os.readlink(f"/proc/self/fd/{number}")
            synced.append(name if os.path.isdir(name) else (os.path.dirname(name), os.path.exists(path),
                                                            os.fstat(number).st_size))
        with mock.patch.object(os, "fsync", fsync):
            files.write_file(path, "one")
        assert (synced, os.listdir("/proc/self/fd")) == ([(self.folder, False, 3), self.folder], before)
        os.mkfifo(pipe)
        reader = os.open(pipe, os.O_RDONLY | os.O_NONBLOCK)
        self.addCleanup(os.close, reader)
        files.write_file(pipe, "two")
        assert os.read(reader, 10) == b"two"

    def test_statuses(self):
        # those of docs/REGISTRY_COMMAND.md; a shell tells of a signal by 128 and its number
        assert [kind("").status for kind in (Refused, Usage, Failed, Failure)] == [1, 2, 3, 3]
        assert (DONE, INTERRUPTED, NO_READER) == (0, 128 + signal.SIGINT, 128 + signal.SIGPIPE)

    def test_what_is_visible(self):
        # ECMA-48: ESC begins a control function, and U+009B is the same as ESC [; U+202E turns the direction, and
        # U+E0041 is a tag
        for text, wanted in (("a é 日本", "a é 日本"), ("", ""), ("\x1b]0;x\x07", r"\x1b]0;x\x07"),
                             ("\x9b31m", r"\x9b31m"), ("a\nb\x7f\xa0", r"a\x0ab\x7f\xa0"),
                             ("\u202ea\u2066", r"\u202ea\u2066"), ("\U000e0041", r"\U000e0041"), ("\udc80", r"\udc80")):
            assert output.visible(text) == wanted


class Progress(unittest.TestCase):
    def shown(self, do, is_terminal=True):
        with mock.patch.object(sys, "stderr", io.StringIO()) as said:
            self.seen = []
            said.isatty, said.flush = lambda: is_terminal, lambda: self.seen.append(said.getvalue())
            do()
            assert self.seen[-1:] == [said.getvalue()] * bool(is_terminal and said.getvalue())  # it is seen at once
            return said.getvalue()

    def test_a_bar(self):
        # \r goes back to the beginning of the line, and ESC [ K of ECMA-48 erases it
        def steps(whole, count):
            made = bar.Bar("reading", whole)
            for _ in range(count):
                made.step()
            made.end()
        assert (self.shown(lambda: steps(3, 3)) == "\rreading [" + "#" * 10 + "." * 20 + "] 33%, 1 of 3\rreading ["
                + "#" * 20 + "." * 10 + "] 66%, 2 of 3\rreading [" + "#" * 30 + "] 100%, 3 of 3\r\x1b[K")
        # a line for each percent
        shown = self.shown(lambda: steps(1000, 25)).split("\r")[1:-1]
        assert [it.split(", ")[-1] for it in shown] == ["1 of 1000", "10 of 1000", "20 of 1000"]
        assert (self.shown(lambda: steps(0, 0)), self.shown(lambda: steps(3, 3), False)) == ("", "")
        assert self.shown(lambda: steps(1, 1)) == "\rreading [" + "#" * 30 + "] 100%, 1 of 1\r\x1b[K"


class TestFaults:
    def test_a_new_journal_is_written_whole_or_not_at_all(self):
        with tempfile.TemporaryDirectory() as folder:
            path, like = os.path.join(folder, "new"), os.path.join(folder, "like")
            with open(like, "w", encoding="ascii"):
                os.chmod(like, 0o604)
            journal_file.write_new(path, b"text", like)
            assert files.read_file(path) == b"text" and sorted(os.listdir(folder)) == ["like", "new"]
            assert os.stat(path).st_mode & 0o777 == 0o604
            there = "is there already, and nothing is written over it: name another file"
            with pytest.raises(Failed, match=rf"\A{path} {there}\Z"):
                journal_file.write_new(path, b"x", like)
            with mock.patch.object(journal_file, "refuse_existing", side_effect=[None, Failed("taken")]):
                with pytest.raises(Failed, match="taken"):
                    journal_file.write_new(path, b"x", like)
            with mock.patch.object(os, "fsync", side_effect=OSError(28, "No space left on device")):
                with pytest.raises(Failed, match=r"other is not written: No space left on device\Z"):
                    journal_file.write_new(os.path.join(folder, "other"), b"x", like)
            assert (files.read_file(path), sorted(os.listdir(folder))) == (b"text", ["like", "new"])
