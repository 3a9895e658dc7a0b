"""What may stand at the end of a command line of `registry`, and at the end of a line of its shell, in one process:
with packages that are made up, and no program."""
import contextlib
import os
import shlex
import tempfile
import unittest
from types import SimpleNamespace
from unittest import mock

from registry_cli import completion, line_completion, refusals, session
from registry_cli.failures import Failed
from tests.support.program import data_rows

PACKAGES = {"log": ["1.0.0", "1.1.0"], "lock": ["2.0.0"], "app": ["1.0.0"]}
OFFERED = data_rows("words_offered.txt")


def published(_, name):
    return [*PACKAGES] if name is None else PACKAGES.get(name, [])


class TestWords:
    def test_words_of_all_kinds(self):
        with mock.patch.object(completion, "published", published):
            for words, _, wanted in (it.partition("=>") for it in OFFERED):
                kind, *found = completion.complete(shlex.split(words))
                assert (found if kind == "words" else ["a", kind]) == shlex.split(wanted), words

    def test_names_and_versions_are_those_of_the_journal_or_the_service_that_is_named(self):
        asked = []

        def reading(given):
            asked.append((given.journal, given.connect))
            if given.journal == "none":
                raise Failed("there is no such journal")
            return contextlib.nullcontext()
        packages = {"log": [("1.0.0", False), ("1.1.0", True)], "app": [("2.0.0", False)]}
        with mock.patch.object(session, "reading", reading), mock.patch.object(refusals, "listed", lambda _: packages):
            for words, wanted in ((["show", ""], ["app", "log"]),
                                  (["--journal", "j", "yank", "log", ""], ["1.0.0", "1.1.0"]),
                                  (["yank", "--connect", "c", "app", ""], ["2.0.0"]),
                                  (["yank", "zebra", ""], []), (["--journal", "none", "show", ""], []),
                                  (["list", ""], [])):
                assert completion.complete(words) == ["words", *wanted], words
        assert asked == [(None, None), ("j", None), (None, "c"), (None, None), ("none", None)]


class Lines(unittest.TestCase):
    def setUp(self):
        self.enterContext(mock.patch.object(completion, "published", published))

    def test_words(self):
        for before, current, wanted in (("", "pub", ["publish "]), ("", "ex", ["exit "]), ("", "h", ["help "]),
                                        ("registry ", "sho", ["show "]), ("registry ", "ex", ["exit "]),
                                        ("show ", "ex", []), ("show registry ", "", []), ("", "e", ["exit "]),
                                        ("registry show ", "lo", ["lock ", "log "]), ("show 'a", "x", []),
                                        ("show ", "lo", ["lock ", "log "]), ("yank 'log' ", "1.1", ["1.1.0 "]),
                                        ("resolve ", "log@", ["log@1.0.0 ", "log@1.1.0 "]), ("resolve ", "log@2", []),
                                        ("resolve ", "log@=1.1", ["log@=1.1.0 "]), ("resolve ", "zebra@", []),
                                        ("resolve ", "log@^", ["log@^1.0.0 ", "log@^1.1.0 "]),
                                        ("resolve app ", "log@>=1.1", ["log@>=1.1.0 "])):
            assert line_completion.offered(before, current) == wanted, (before, current)

    def test_files(self):
        folder = self.enterContext(tempfile.TemporaryDirectory())
        self.enterContext(contextlib.chdir(folder))
        for name in ("first", "found", "[x]"):
            with open(name, "w", encoding="ascii"):
                pass
        for name in ("folder", "fine"):
            os.mkdir(name)
        for before, current, wanted in (("check ", "f", ["fine/", "first ", "folder/", "found "]),
                                        ("import cargo ", "fo", ["folder/"]), ("check ", "[", ["[x] "]),
                                        ("check ", "none", []), ("import cargo ", "fi", ["fine/"])):
            assert line_completion.offered(before, current) == wanted, (before, current)

    def test_candidates_are_given_one_by_one(self):
        line = "show lo"
        with mock.patch.object(line_completion, "readline",
                               SimpleNamespace(get_line_buffer=lambda: line, get_begidx=lambda: 5)):
            assert [line_completion.complete("lo", state) for state in range(4)] == ["lock ", "log ", None, None]
            line = "show a"
            assert [line_completion.complete("a", state) for state in range(2)] == ["app ", None]
