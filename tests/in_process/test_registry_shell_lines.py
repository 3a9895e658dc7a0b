"""Parts of `registry shell` in one process: how lines are split, and what is obeyed and kept of what is typed."""
import io
import os
import signal
import stat
import sys
import tempfile
import unittest
from unittest import mock

from registry_cli import shell


class Lines(unittest.TestCase):
    def setUp(self):
        self.obeyed, self.ends = [], {}
        self.enterContext(mock.patch.object(shell, "guarded", self.guarded))
        self.shown, self.said = (self.enterContext(mock.patch.object(sys, name, io.StringIO()))
                                 for name in ("stdout", "stderr"))

    def guarded(self, words):
        """The status of a command, or what it ends by."""
        self.obeyed.append(words)
        end = self.ends.get(words[0], 0)
        if isinstance(end, BaseException):
            raise end
        return end

    def test_words(self):
        for line, words in (("", []), ("  \n", []), ("# all of it", []), ("show a # b", ["show", "a"]),
                            ("publish 'a b' \"c\\\"d\" e\\ f", ["publish", "a b", 'c"d', "e f"]),
                            ("registry show a", ["show", "a"]), ("registry", []),
                            ("show registry", ["show", "registry"]), ("help", ["help"]),
                            ("registry help show", ["help", "show"]), ("show help", ["show", "help"])):
            assert shell.words_of(line) == words, line
        assert self.said.getvalue() == ""
        for line in ("show 'a", 'show "a', "show a\\"):
            assert shell.words_of(line) is None
        assert self.said.getvalue() == "registry: a quote is not closed, or nothing follows a backslash\n" * 3

    def typed(self, *lines):
        """What is obeyed of what is typed, and what is remembered of it; the last one is Ctrl-D where it has to be."""
        self.obeyed, remembered, typed = [], [], [*lines]

        def typing(prompt):
            assert (prompt, signal.getitimer(signal.ITIMER_REAL)[1]) == ("registry> ", 0.5)
            line = typed.pop(0) if typed else EOFError()
            if isinstance(line, BaseException):
                raise line
            remembered.append(None)
            return line
        told = []
        with mock.patch.object(shell, "history", lambda: lambda: told.append(len(remembered))), \
                mock.patch("builtins.input", typing):
            assert shell.typed() == 0
        assert signal.getitimer(signal.ITIMER_REAL) == (0, 0)
        return self.obeyed, told, typed

    def test_lines_that_are_typed(self):
        self.ends = {"bad": 1}
        for lines, obeyed, told, left in ((["list", "bad"], [["list"], ["bad"]], [1, 2], []),
                                          (["", "  ", "list"], [["list"]], [3], []),
                                          (["show 'a", "list"], [["list"]], [2], []),
                                          (["exit", "list"], [], [1], ["list"]),
                                          (["list", "quit", "bad"], [["list"]], [1, 2], ["bad"]),
                                          ([KeyboardInterrupt(), "list"], [["list"]], [1], [])):
            assert self.typed(*lines) == (obeyed, told, left), lines
        assert self.shown.getvalue() == "\n" * 5  # for each of four ends, and for the key


class History(unittest.TestCase):
    def setUp(self):
        self.folder = self.enterContext(tempfile.TemporaryDirectory())
        self.readline = mock.Mock(__doc__="GNU readline")
        self.enterContext(mock.patch.dict(sys.modules, readline=self.readline))
        self.enterContext(mock.patch.dict(os.environ, XDG_STATE_HOME=self.folder, HOME="/home/of/nobody"))

    def test_where_it_is(self):
        assert shell.history_path() == os.path.join(self.folder, "registry", "history")
        for state in ("", "relative/folder"):
            with mock.patch.dict(os.environ, XDG_STATE_HOME=state):
                assert shell.history_path() == "/home/of/nobody/.local/state/registry/history"
        del os.environ["XDG_STATE_HOME"]
        assert shell.history_path() == "/home/of/nobody/.local/state/registry/history"

    def test_it_is_kept(self):
        from registry_cli.line_completion import complete
        before = os.umask(0)
        self.addCleanup(os.umask, before)
        path, asked = shell.history_path(), self.readline
        for _ in range(2):  # with what is there already, too
            remember = shell.history()
            assert (stat.S_IMODE(os.stat(path).st_mode),
                    stat.S_IMODE(os.stat(os.path.dirname(path)).st_mode)) == (0o600, 0o700)
        calls = [mock.call.set_completer(complete), mock.call.set_completer_delims(" \t\n"),
                 mock.call.parse_and_bind("tab: complete"), mock.call.set_auto_history(True),
                 mock.call.read_history_file(path), mock.call.set_history_length(1000)]
        assert asked.mock_calls == calls * 2
        remember()
        asked.append_history_file.assert_called_once_with(1, path)
        asked.append_history_file.side_effect = OSError
        remember()
