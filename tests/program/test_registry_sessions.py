"""The sessions of the command registry in one process: which one a subcommand gets, over a journal that is written
meanwhile, and with programs that end, and what is told of why. The programs are scripts, or made up."""
import contextlib
import io
import json
import os
import sys
import tempfile
import threading
import time
import unittest
from pathlib import Path
from types import SimpleNamespace
from unittest import mock

from registry_cli import connected, journal_file, session
from registry_cli.commands import journal_renew, journal_repair
from registry_cli.failures import Failed, Refused, Usage
from tests.program.test_journals import CHAIN, journal, learn
from tests.support.program import LIST, TOP, in_time, publish

A1 = publish("a", "1.0.0")
# it answers its words, how many bytes the journal has that it is to load, and then nothing
TELLING = """exec 2> /dev/null; for last; do :; done; echo '{"words":"'"$*"'"}'
echo '{"bytes":'"$(wc -c < "${last#--load=}")}"; cat > /dev/null"""
# what the program says as it ends, by docs/FORMATS.md, and what is told of that of a journal `j`
SAID = json.loads(Path(TOP, "tests", "support", "data", "reasons.json").read_text(encoding="ascii"))


def given(**more):
    return SimpleNamespace(**{"journal": None, "connect": None, **more})


class Journals(unittest.TestCase):
    def setUp(self):
        self.path = os.path.join(self.enterContext(tempfile.TemporaryDirectory()), "journal")

    def snapshot(self, text):
        Path(self.path).write_bytes(text)
        return session.snapshot(self.path)

    def test_a_journal_as_it_stands(self):
        whole = journal(CHAIN)
        for cut in range(len(whole)):
            lines = whole[:cut].count(b"\n") - 1
            self.assertEqual(self.snapshot(whole[:cut]), journal(CHAIN[:max(lines, 0)]), cut)
        for text in (whole, whole[:-6] + b'{"name":"half'):
            self.assertEqual(self.snapshot(text), whole)
        os.unlink(self.path)
        self.assertRaisesRegex(Failed, "there is no such journal: `registry publish` or `registry import` begins one",
                               session.snapshot, self.path)
        self.assertRaisesRegex(Failed, ": Is a directory", session.snapshot, os.path.dirname(self.path))

    def test_an_end_that_is_written_over(self):
        # between two reads the end goes and another line comes: for who asks the program, and for who verifies, repairs
        # or renews
        for reader in (session.snapshot, lambda path: journal_file.read_journal(path).text):
            texts, pauses = [journal(CHAIN[:1]) + b'{"na', journal(CHAIN[:2])], []

            def read(path, mode):
                return io.BytesIO(texts.pop(0))
            with (mock.patch("builtins.open", read), mock.patch.object(session.time, "sleep", pauses.append),
                  mock.patch.object(journal_file, "fault_line", return_value=0)):
                self.assertEqual(reader(self.path), journal(CHAIN[:2]))
            self.assertEqual(len(pauses), 1)

    def test_which_journal_or_service(self):
        with mock.patch.dict(os.environ, {session.SERVICE: "s", session.VARIABLE: "v"}):
            self.assertEqual([session.service_of(it) for it in (given(), given(connect="c"), given(journal="j"))],
                             ["s", "c", None])
            self.assertEqual([session.journal_of(it) for it in (given(), given(journal="j"))], ["v", "j"])
            self.assertRaisesRegex(Usage, "--connect can't be used with --journal", session.service_of,
                                   given(connect="c", journal="j"))
            with mock.patch.object(session, "standing", SimpleNamespace(path="p", service=None)):
                self.assertEqual((session.service_of(given()), session.journal_of(given())), (None, "p"))
            del os.environ[session.SERVICE], os.environ[session.VARIABLE]
            self.assertEqual((session.service_of(given()), session.journal_of(given())), (None, session.DEFAULT))

    def test_a_file_without_a_name(self):
        for has_it in (True, False):
            with contextlib.ExitStack() as patched:
                if not has_it:
                    patched.enter_context(mock.patch.object(session.os, "memfd_create", create=True))
                    del session.os.memfd_create
                with session.shared(b"text") as file, open(f"/proc/self/fd/{file.fileno()}", "rb") as again:
                    self.assertEqual((again.read(), file.tell()), (b"text", 0))


class Programs(unittest.TestCase):
    def setUp(self):
        self.folder = self.enterContext(tempfile.TemporaryDirectory())
        self.enterContext(in_time())

    def session(self, script):
        with mock.patch.object(session, "program", lambda: ["sh", "-c", script]):
            return session.Session("path", [])

    def test_why_a_program_ends(self):
        for script, told in (("exit 3", "ended with status 3 before it had answered"), ("echo x; exit 0", None),
                             ("echo 'registryd: journal line 7' >&2; exit 1", "line 7"),
                             ("echo 'registryd: no memory' >&2; exit 1", r"\Athere is not enough memory for path\Z"),
                             ("printf half; exit 4", "ended with status 4 before")):
            made = self.session(script)
            with mock.patch.object(session, "program", lambda: ["sh"]):
                if told:
                    with self.assertRaisesRegex(Failed, told):
                        made.ask(json.loads(LIST))
                else:
                    self.assertRaises(ValueError, made.ask, json.loads(LIST))
            made.leave()

    def test_one_that_closes_its_output_and_goes_on(self):
        made = self.session("exec >&-; exec sleep 100")
        told = "the program sh ended with status -9 before it had answered"
        with mock.patch.object(session, "program", lambda: ["sh"]), self.assertRaisesRegex(Failed, told):
            made.ask(json.loads(LIST))
        made.leave()

    def test_what_it_says_besides_is_passed_on(self):
        with mock.patch.object(sys, "stderr", io.StringIO()) as said:
            made = self.session("""read x; echo building >&2; echo '{"packages":[],"revision":0}'; cat > /dev/null""")
            self.assertEqual(made.ask(json.loads(LIST)), [{"packages": [], "revision": 0}])
            made.close()
            made.leave()
        self.assertEqual(said.getvalue(), "building\n")

    def test_how_it_is_closed(self):
        for script, is_well in (("cat > /dev/null", True), ("cat > /dev/null; exit 1", False),
                                ("cat > /dev/null; echo more", False)):
            made = self.session(script)
            if is_well:
                made.close()
            else:
                with mock.patch.object(session, "program", lambda: ["sh"]):
                    self.assertRaises(Failed, made.close)
            made.leave()
        with self.assertRaises(ZeroDivisionError), self.session("exec sleep 100") as made:
            raise ZeroDivisionError
        self.assertIsNotNone(made.process.poll())
        with mock.patch.object(session, "program", lambda: ["/none/of/this"]):
            told = r"\Athe program can't be started: /none/of/this: No such file or directory\Z"
            self.assertRaisesRegex(Failed, told, session.Session, "path", [])


class Written(unittest.TestCase):
    def test_a_journal_that_would_not_do_is_not_written(self):
        with mock.patch.object(journal_renew, "fault_line", return_value=3):
            self.assertRaisesRegex(Failed, r"\Athe program refuses the new journal, so it is not written\Z",
                                   journal_renew.checked, "new", b"", [])
        lock = SimpleNamespace(path="app.lock", replies=[{"selected": []}], ask=lambda _: [{"refused": True}])
        over = mock.MagicMock()
        with (mock.patch.object(journal_renew, "fault_line", return_value=0),
              mock.patch.object(journal_renew, "Over", over)):
            self.assertRaisesRegex(Failed, r"\Aapp.lock would not be selected as before, so new is not written\Z",
                                   journal_renew.checked, "new", b"", [lock])
            lock.ask = lambda _: [{"selected": []}]
            self.assertIsNone(journal_renew.checked("new", b"", [lock]))
        with tempfile.TemporaryDirectory() as folder:
            path = os.path.join(folder, "journal")
            cut = journal_repair.read_journal.__globals__["Journal"](b"registry-journal 2\nx\n",
                                                                     [b"registry-journal 2", b"x", b""], 2)
            given = SimpleNamespace(file=path, output=None)
            with (mock.patch.object(journal_repair, "read_journal", return_value=cut),
                  mock.patch.object(journal_repair, "fault_line", return_value=1)):
                self.assertRaisesRegex(Failed, rf"\A{path}: the program refuses what is lawful of it, so nothing is "
                                               r"written\Z", journal_repair.run, given, mock.Mock())
            self.assertEqual(os.listdir(folder), [])

    def test_what_is_told_of_versions(self):
        for left, count, wanted in ((["1", "2"], 5, "1, 2"), (["1", "2", "3"], 3, "1, 2, 3: none is kept"),
                                    (["1", "2", "3", "4"], 9, "1 to 4, 4 of 9 versions"),
                                    (["1", "2", "3", "4"], 4, "1 to 4, 4 of 4 versions: none is kept")):
            self.assertEqual(journal_renew.in_short(left, count), wanted)
        for line, wanted in ((publish("a", "1.0.0").encode(), "publish a 1.0.0"),
                             (learn(0).encode(), "what was learnt"), (b"x\x01", '"x\\u0001"'), (b"[]", '"[]"'),
                             (b'{"op":"yank"}', '"{\\"op\\":\\"yank\\"}"')):
            self.assertEqual(journal_repair.described(line), wanted)


class Which(unittest.TestCase):
    def setUp(self):
        self.enterContext(mock.patch.dict(os.environ))
        for name in (session.VARIABLE, session.SERVICE):
            os.environ.pop(name, None)
        self.made = self.enterContext(mock.patch.multiple(session, Reading=mock.DEFAULT, Writing=mock.DEFAULT,
                                                          connected=mock.DEFAULT))

    def test_one_of_a_file(self):
        self.assertIs(session.reading(given(journal="j")), self.made["Reading"].return_value)
        self.assertIs(session.writing(given()), self.made["Writing"].return_value)
        session.reading(given())
        self.assertEqual((self.made["Reading"].mock_calls, self.made["Writing"].mock_calls),
                         ([mock.call("j"), mock.call("registry.journal")], [mock.call("registry.journal", 10)]))

    def test_one_with_a_service(self):
        for ask in (session.reading, session.writing):
            self.assertIs(ask(given(connect="there")), self.made["connected"].return_value)
        self.assertEqual(self.made["connected"].mock_calls, [mock.call("there")] * 2)

    def test_one_that_stays_open(self):
        kept, lent = object(), []

        def lend(path, is_writing=False, patience=10):
            lent.append((path, is_writing, patience))
            return kept if path == "j" else None
        with mock.patch.object(session, "standing", SimpleNamespace(path="j", service=None, patience=7, lent=lend)):
            self.assertIs(session.reading(given()), kept)
            self.assertIs(session.writing(given()), kept)
            self.assertIs(session.reading(given(journal="k", wait=None)), self.made["Reading"].return_value)
            self.assertIs(session.writing(given(journal="k", wait=0)), self.made["Writing"].return_value)
            self.assertEqual(lent, [("j", False, 7), ("j", True, 7), ("k", False, 7), ("k", True, 0)])
            self.assertEqual(self.made["Reading"].call_args, mock.call("k"))


class Begun(unittest.TestCase):
    def setUp(self):
        self.enterContext(in_time())
        self.path = os.path.join(self.enterContext(tempfile.TemporaryDirectory()), "j")
        self.enterContext(mock.patch.object(session, "program", lambda: ["sh", "-c", TELLING, "sh"]))

    def test_one_that_reads(self):
        text = journal([A1, learn(0)])
        Path(self.path).write_bytes(text[:-6])
        for made in (session.Reading(self.path), session.Reading("k", text)):
            made.warnings = ["it is near a limit"]
            with mock.patch.object(session.near_limits, "tell") as tell, made:
                first, second = made.ask({}, {})
                self.assertRegex(first["words"], r"\Aserve --workers 1 --load=/dev/fd/[0-9]+\Z")
                self.assertEqual((second, made.text, made.commands()), ({"bytes": len(text)}, text, [json.loads(A1)]))
            tell.assert_called_once_with(["it is near a limit"])
            self.assertIsNotNone(made.process.poll())

    def test_one_that_writes(self):
        Path(self.path).write_bytes(b"x" * 5)
        for fault, is_told in ((None, True), (Refused("no"), True), (ZeroDivisionError(), False)):
            # it has the journal, so it answers
            with mock.patch.object(session.near_limits, "warn") as warn, \
                    mock.patch.object(session, "program", lambda: ["sh", "-c", f"echo '{{}}'; {TELLING}", "sh"]):
                try:
                    with session.Writing(self.path) as made:
                        self.assertEqual(made.ask({})[0]["words"], f"serve --workers 1 --journal={self.path}")
                        made.process.stdout.readline()
                        if fault:
                            raise fault
                except (Refused, ZeroDivisionError) as raised:
                    self.assertIs(raised, fault)
            self.assertEqual(warn.mock_calls, [mock.call(self.path)] * is_told)

    def test_with_a_service(self):
        with mock.patch.object(connected, "Connected") as made:
            self.assertIs(session.connected("there"), made.return_value)
        made.assert_called_once_with("there")


class Told(unittest.TestCase):
    def test_why_a_program_ends(self):
        for said, told in SAID:
            self.assertEqual(session.reason(said, "j"), told, said)

    def test_what_a_program_says_last_is_waited_for(self):
        heard = threading.Event()

        def slowly(said, path, reason=session.reason):
            heard.set()
            time.sleep(0.2)
            return reason(said, path)
        with in_time(), mock.patch.object(session, "reason", slowly):
            with mock.patch.object(session, "program", lambda: ["sh", "-c", "echo 'registryd: no memory' >&2; exit 1"]):
                made = session.Session("j", [])
                self.assertRaisesRegex(Failed, r"\Athere is not enough memory for j\Z", made.ask, {})
                made.leave()
            heard.clear()
            with mock.patch.object(session, "program",
                                   lambda: ["sh", "-c", "echo 'registryd: no memory' >&2; exec cat"]):
                made = session.Session("j", [])
                heard.wait()
                made.leave()
                self.assertFalse(made.hearing.is_alive())

    def test_a_journal_that_changes_while_it_is_read(self):
        whole, pauses = journal([A1]), []
        with tempfile.NamedTemporaryFile() as file, mock.patch.object(session.time, "sleep", pauses.append):
            file.write(whole)
            file.flush()
            self.assertEqual((session.snapshot(file.name), pauses), (whole, []))
            file.write(b"more\n")
            file.flush()
            self.assertEqual((session.snapshot(file.name), pauses), (whole + b"more\n", [0.01] * 20))
