"""How a command line of `registry` ends, in one process: with subcommands that are made up."""
import io
import os
import signal
import sys
import unittest
from types import SimpleNamespace
from unittest import mock

import pytest

from registry_cli import main
from registry_cli.failures import Failed, Refused, Usage

FAILED = 3


class Printed(unittest.TestCase):
    """Standard output and standard error go into one buffer, in the order in which they are written out."""

    def setUp(self):
        self.buffer = io.BytesIO()
        self.shown = [io.TextIOWrapper(self.buffer, encoding="utf-8", write_through=is_error,
                                       line_buffering=is_error) for is_error in (False, True)]
        self.enterContext(mock.patch.multiple(sys, stdout=self.shown[0], stderr=self.shown[1]))

    def said(self):
        for stream in self.shown:
            stream.flush()
        text = self.buffer.getvalue().decode()
        self.buffer.seek(0)
        self.buffer.truncate()
        return text


class Ends(Printed):
    def obeyed(self, run, *words):
        """The status where a subcommand does this."""
        with mock.patch.object(main.importlib, "import_module", return_value=SimpleNamespace(run=run)) as loaded:
            status = main.main([*words] or ["show", "a"])
        assert loaded.call_args.args == (".commands.show", "registry_cli")
        return status

    def test_what_is_given_to_a_subcommand(self):
        given = []

        def run(it, out):
            given.append((it.subcommand, it.name, it.journal, it.json, out.is_json))
            return given[0][1] == "b" and 1
        for words, status in ((["--json", "show", "b"], 1), (["show", "a", "--journal", "j"], 1)):
            assert self.obeyed(run, *words) == status
        assert given == [("show", "b", None, True, True), ("show", "a", "j", False, False)]
        assert self.obeyed(lambda *_: None) == 0

    def test_statuses(self):
        for fault, status, told in ((None, 0, ""), (Refused("no"), 1, "registry: no\n"),
                                    (Usage("no"), 2, "registry: no\n"), (Failed("no"), 3, "registry: no\n"),
                                    (MemoryError(), 3, "registry: there is not enough memory\n"),
                                    (KeyboardInterrupt(), 130, ""), (SystemExit(), 0, ""), (SystemExit(2), 2, ""),
                                    (main.EndedBySignal(143), 143, "")):
            def run(*_):
                print("some")
                if fault:
                    raise fault
            assert self.obeyed(run) == status, fault
            assert self.said() == "some\n" + told
        assert self.obeyed(lambda *_: os.open("/none/of/this", os.O_RDONLY)) == FAILED
        assert self.said() == "registry: /none/of/this: No such file or directory\n"
        pytest.raises(ZeroDivisionError, self.obeyed, lambda *_: 1 // 0)
        with pytest.raises(main.EndedBySignal) as ended:
            main.end_by_signal(signal.SIGTERM, None)
        assert ended.value.code == 143

    def test_errors_as_json(self):
        for fault, told in ((Refused("no"), '{"error":"refused","message":"no"}'),
                            (Usage("no"), '{"error":"usage","message":"no"}'),
                            (Failed("no"), '{"error":"failed","message":"no"}'),
                            (Refused("no", {"error": 7, "name": "Is"}), '{"error":7,"message":"no","name":"Is"}'),
                            (MemoryError(), '{"error":"failed","message":"there is not enough memory"}'),
                            (OSError(28, "Full", "x"), '{"error":"failed","message":"x: Full"}')):
            def run(given, out):
                if given.name == "b":
                    out.give([1], [])
                raise fault
            self.obeyed(run, "show", "a", "--json")
            assert self.said().splitlines()[1:] == [told]
            # what was answered before stays the one line, and without --json there is none
            self.obeyed(run, "show", "b", "--json")
            assert [it for it in self.said().splitlines() if not it.startswith("registry: ")] == ["[1]"]
            self.obeyed(run, "show", "a")
            assert self.said().count("\n") == 1

    def test_streams_that_were_closed(self):
        opened = []

        def fstat(number):
            if number in (0, 2):
                raise OSError(9, "Bad file descriptor")
        with (mock.patch.object(main.os, "fstat", fstat), mock.patch.object(sys, "stderr", None),
              mock.patch.object(main.os, "open", lambda *given: opened.append(given))):
            main.open_streams()
            assert sys.stderr.name == os.devnull
            sys.stderr.write("x")
            sys.stderr.close()
        assert opened == [(os.devnull, os.O_RDWR)] * 2
        print("\udc80", end="")
        assert self.said() == "?"
        with mock.patch.object(sys, "stdout", None):
            main.open_streams()
            assert (sys.stdout.name, sys.stdout.errors) == (os.devnull, "replace")
            sys.stdout.close()
