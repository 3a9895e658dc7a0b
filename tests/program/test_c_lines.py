"""The calls of the library for C that quote a text, read a reply, and tell an answer in words. What is wanted is worked
by hand from docs/FORMATS.md and the header."""
import json
import os
import subprocess
import tempfile
import unittest

import pytest

from tests.support.client_rows import CULPRITS, EXPLAINED, PUBLISHED, line_of
from tests.support.library import TESTS, linked_with_sources, needs_library
from tests.support.program import PATIENCE, PROGRAM, TOP, read, skip_without
from tests.support.tables import tables_in

pytestmark = pytest.mark.not_quick("the static library")
MISUSE = 1
# What is typed, and what the caller prints: that of the table, and of texts that no table has.
TABLES = tables_in(os.path.join(TOP, "rows", "c_lines.rows"))
ROWS = [(line.decode(), reply) for table in TABLES for line, reply, _ in table.rows]
ROWS += [("quote \x01\t\x1f\x7f", '0 21 "\\u0001\\u0009\\u001f\x7f"'), ("quote é", '0 4 "é"')]
ROWS += [(f"explain {line_of(explanation)}", " | ".join(sentences)) for explanation, sentences in EXPLAINED]
WORDS = ["all is well", "an argument is none that the call takes", "there is no memory or no room",
         "the program can't be started", "the session has ended",
         "something is the matter with a journal's file", "no answer of this library"]
# Lines in another order and with space, with an escaped text, of no text that is at fault, and that are no requests.
MORE = json.loads(read("tests", "support", "data", "c_culprits.json"))
STRICT = ("-g", "-fsanitize=address,undefined", "-fno-sanitize-recover")


@needs_library
@skip_without("cc", "gcc")
class Lines(unittest.TestCase):
    @classmethod
    def setUpClass(cls):
        caller = linked_with_sources(os.path.join(cls.enterClassContext(tempfile.TemporaryDirectory()), "caller"),
                                     os.path.join(TESTS, "c_client_lines.c"), *STRICT)
        given = "".join(f"{it}\n" for it, _ in ROWS)
        done = subprocess.run([caller], input=given, capture_output=True, text=True, timeout=PATIENCE)
        assert (done.returncode, done.stderr) == (0, ""), done.stderr
        cls.printed = done.stdout.split("\n")

    def test_what_is_printed(self):
        self.assertGreater(len(EXPLAINED), 10)
        for (typed, wanted), printed in zip(ROWS, self.printed):
            with self.subTest(typed=typed):
                self.assertEqual(printed.rstrip(), wanted)
                if typed.startswith("quote ") and printed.startswith("0"):
                    # what is quoted is read as the same text
                    _, length, quoted = printed.split(" ", 2)
                    self.assertEqual((json.loads(quoted), len(quoted.encode())), (typed.partition(" ")[2], int(length)))

    def test_words_version_and_misuse(self):
        *words, versions, misused, misused_steps, _ = self.printed[len(ROWS):]
        for found, wanted in zip(words, WORDS, strict=True):
            self.assertTrue(found.startswith(wanted), found)
        self.assertEqual((versions, misused), ("0", str(MISUSE) * 7))
        self.assertEqual(misused_steps, "1110 1111114 11114 11111 1 2 1111")

    def test_the_version_is_that_of_the_repository(self):
        wanted = f'\n#define REGISTRYD_VERSION "{read("VERSION").strip()}"\n'
        self.assertIn(wanted, read("clients", "c", "registryd.h"))


@needs_library
@skip_without("cc", "gcc")
class Culprits(unittest.TestCase):
    def test_each_request_tells_which_text_is_refused(self):
        asked = [*PUBLISHED, *(json.dumps(it[0]) for it in CULPRITS)]
        with tempfile.TemporaryDirectory() as folder:
            caller = linked_with_sources(os.path.join(folder, "caller"),
                                         os.path.join(TESTS, "c_client_culprits.c"), *STRICT)
            done = subprocess.run([caller, PROGRAM], input="".join(f"{it}\n" for it in [*asked, *MORE]),
                                  capture_output=True, text=True, timeout=PATIENCE)
        self.assertEqual((done.returncode, done.stderr), (0, ""))
        culprits = ["\t".join(part or "" for part in it[1:]) for it in CULPRITS]
        self.assertEqual(done.stdout.split("\n"), ["\t\t\t\t"] * len(PUBLISHED) + [*culprits, *MORE.values(), ""])
        self.assertGreater(len(CULPRITS), 30)
