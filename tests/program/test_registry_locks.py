"""Lock files: which lists are read and refused is what the table of the program's own reader wants; what a file says
that it was made of; and how `registry resolve` keeps a selection, and `registry diff` tells what changed between
two."""
import json
import os
import re
import unittest
from pathlib import Path
from unittest import mock

from registry_cli.limits import MOST_LOCK_LINES
from registry_cli.locks import Lock, Unread, changes, coloured, counted, lock_text, read_lock, renewed
from tests.support.program import TOP

TABLE = os.path.join(TOP, "rows", "calls", "further.rows")
DATA = Path(TOP, "tests", "support", "data")
# What is no lock list, nor an object that says what a lock was made of: where, and the lowest refusal, of the form, of
# names, of versions, of a name that comes twice.
UNREAD = json.loads(DATA.joinpath("locks_unread.json").read_text(encoding="utf-8"))
MANY_NEEDS = json.dumps({"needs": [[f"a{it}", "*"] for it in range(65)], "revision": 1, "selected": []})
UNREAD += [("[]" + " " * 1_048_575, "1:1: error 19 BadLine: the file has more than 1,048,576 bytes"),
           (MANY_NEEDS, "1:899: error 6 TooManyDependencies: 65 needs; the limit is 64")]
# two locks, and what changed
CHANGED = json.loads(DATA.joinpath("locks_changed.json").read_text(encoding="ascii"))


def rows(call):
    """The rows of the program's table for one call."""
    with open(TABLE, encoding="utf-8") as lines:
        found = [json.loads(line) for line in lines if line.startswith("{")]
    return [row for row in found if row["call"] == call]


def versions(lines):
    return dict(line.split(" ") for line in lines)


class Lists(unittest.TestCase):
    def test_what_is_read(self):
        table = rows("read_lock")
        self.assertGreater(len(table), 10)
        for row in table:
            text = row["text"]
            if not isinstance(text, str):
                text = "".join(piece * count for piece, count in text)
            if isinstance(row["gives"], list):
                self.assertEqual(read_lock(text.encode(), "x.lock"), Lock(dict(row["gives"])))
            else:
                self.refused(text.encode(), f"[0-9]+:[0-9]+: error {row['gives']['refused']} ")

    def refused(self, text, said):
        with self.assertRaises(Unread) as told:
            read_lock(text, "x.lock")
        self.assertRegex(str(told.exception), rf"\Ax.lock:{said}", text[:100])

    def test_what_is_refused(self):
        for text, said in UNREAD:
            self.refused(text.encode(), re.escape(said) + r"\Z")

    def test_what_else_is_refused(self):
        for text in (b"\xff", b'[["a","\\ud800"]]', b'[["\\udfff","1.0.0"]]', b"[" * 100_000, b"[[1e999,1]]", b"null",
                     b'[["a"]]', b'[{"a":"1.0.0"}]', b"[] x"):
            self.refused(text, "1:[0-9]+: error 19 BadLine: ")
        many = [[f"a{number}", "1.0.0"] for number in range(MOST_LOCK_LINES + 1)]
        text = json.dumps(many, separators=(",", ":")).encode()
        # so many lines are longer than a lock may be: they are refused for that
        self.assertGreater(len(text), 1_048_576)
        self.refused(text, "1:1: error 19 BadLine: ")

    def test_what_is_written(self):
        # in byte order of the names, a pair a line
        for lock, text in (({}, "[]\n"), ({"b": "1.0.0+x", "a_b": "0.2.0-rc.1", "a": "3.0.0", "a0": "1.0.0"},
                                          '[\n  ["a", "3.0.0"],\n  ["a0", "1.0.0"],\n  ["a_b", "0.2.0-rc.1"],\n  ["b", '
                                          '"1.0.0+x"]\n]\n')):
            self.assertEqual(lock_text(Lock(lock)), text)
        # needs stand as they were asked
        self.assertEqual(lock_text(Lock({"b": "1.0.0", "a": "2.0.0"}, [["b", "^1, <2"], ["a", "*"]], 7)),
                         '{\n  "needs": [\n    ["b", "^1, <2"],\n    ["a", "*"]\n  ],\n  "revision": 7,\n'
                         '  "selected": [\n    ["a", "2.0.0"],\n    ["b", "1.0.0"]\n  ]\n}\n')
        self.assertEqual(lock_text(Lock({}, [], 0)), '{\n  "needs": [],\n  "revision": 0,\n  "selected": []\n}\n')

    def test_what_is_written_is_read(self):
        for old, new, _ in CHANGED:
            for lines in (old, new):
                for lock in (Lock(versions(lines)), Lock(versions(lines), [["b", ">=1, <3"]], 3)):
                    self.assertEqual(read_lock(lock_text(lock).encode(), "x.lock"), lock)

    def test_what_says_what_it_was_made_of(self):
        made = {"needs": [["a", "*"]], "revision": 1, "selected": [["a", "1.0.0"]]}
        self.assertEqual(read_lock(json.dumps(made).encode(), "x.lock"), Lock({"a": "1.0.0"}, [["a", "*"]], 1))
        self.refused(json.dumps({**made, "more": 1}).encode(), "1:[0-9]+: error 19 ")
        self.refused(json.dumps({**made, "needs": [["a", "\ud800"]]}).encode(), "1:[0-9]+: error 19 ")

    def test_what_takes_the_place_of_a_file(self):
        old, request = Lock({"a": "1.0.0"}, [["a", "*"]], 4), {"needs": [["a", "*"]]}
        reply = {"selected": [["a", "1.0.0"]], "revision": 9}
        for before, asked, answered, wanted in (
                (None, request, reply, Lock({"a": "1.0.0"}, [["a", "*"]], 9)),
                (old, request, reply, old),  # the same again: so the file is, byte for byte
                (old, {"needs": [["a", "^1"]]}, reply, Lock({"a": "1.0.0"}, [["a", "^1"]], 9)),
                (old, request, {"selected": [["a", "1.1.0"]], "revision": 9}, Lock({"a": "1.1.0"}, [["a", "*"]], 9)),
                (Lock({"a": "0.9.0"}), request, reply, Lock({"a": "1.0.0"}))):  # a plain list stays one
            self.assertEqual(renewed(before, asked, answered), wanted)

    def test_what_changed(self):
        for old, new, told in CHANGED:
            self.assertEqual(changes(versions(old), versions(new)), told)

    def test_how_it_is_told(self):
        lines = CHANGED[-1][2]
        self.assertEqual([counted(it) for it in (lines, lines[-2:], [])],
                         ["1 added, 1 removed, 8 changed", "1 added, 1 removed, 0 changed",
                          "0 added, 0 removed, 0 changed"])
        styled = mock.Mock(style=lambda text, name: f"{name} {text[0]}")
        self.assertEqual(coloured(lines[-3:], styled), ["yellow ~", "red -", "green +"])
