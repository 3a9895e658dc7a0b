"""The client in Python over the program and over the library in this process: the same calls with the same answers.
What is wanted is worked by hand from docs/FORMATS.md and docs/REGISTRY.md."""
import json
import re
from concurrent.futures import ThreadPoolExecutor
from pathlib import Path

import registryd
from registryd import (
    REFUSALS, Accepted, Check, Line, List, Listing, NoSelection, Publish, Refusal, Registry, Resolve, Selection,
    Unyank, Yank)
from tests.support import client_python
from tests.support.client_python import SECONDS, accepted, blocks, printed, read
from tests.support.client_rows import CULPRITS, PUBLISHED
from tests.support.library import LIBRARY, needs_library
from tests.support.program import PROGRAM, files_of_at_most

WHY_ZED = [{"causes": [{"fact": "need", "index": 0}, {"fact": "root"}], "conclusion": [], "pivot": ""}]
JOURNAL = """registry-journal 2
{"name":"a","needs":[["b","^1.0.0"]],"op":"publish","version":"1.0.0"}
{"name":"a","op":"yank","version":"1.0.0"}
end 2
"""
# Lines that are refused, after PUBLISHED.
REFUSED = [*((error, Line(json.dumps(asked).encode())) for asked, error, *_ in CULPRITS),
           *(("BadLine", request) for request in (
               Yank("\ud800", "1.0.0"), Line(b""), Line(b'{"op":"yank","name":"\xff","version":"1.0.0"}'),
               Check({}, [{"causes": []}]), Line(b" " * 1_048_577)))]


class Calls:
    """What each session does, whichever way `open` opens it. `fails` demands that a call tells of the session's end: of
    a file in these words, or in others, `file`, which the program has for a journal that is loaded or saved."""

    def raises(self, name, future):
        with self.assertRaises(Refusal) as caught:
            future.result(SECONDS)
        self.assertEqual(type(caught.exception).__name__, name)
        return caught.exception

    def test_each_call(self):
        with self.open() as registry:
            self.assertEqual(registry.publish("a", "1.0.0", {"b": "^1.0.0"}), 1)
            self.assertEqual(registry.publish("b", "1.0.0"), 2)
            self.assertEqual(registry.publish("b", "1.1.0+x", []), 3)
            self.assertEqual(registry.resolve({"a": "^1"}), Selection(3, {"a": "1.0.0", "b": "1.1.0+x"}))
            self.assertEqual(registry.resolve({"a": "^1"}, {"b": "1.0.0"}), Selection(3, {"a": "1.0.0", "b": "1.0.0"}))
            self.assertEqual(registry.yank("b", "1.1.0"), 4)
            self.assertEqual(registry.resolve([("a", "^1")], budget=0), Selection(4, {"a": "1.0.0", "b": "1.0.0"}))
            self.assertEqual(registry.list(),
                             Listing(4, {"a": (("1.0.0", False),), "b": (("1.0.0", False), ("1.1.0+x", True))}))
            self.assertEqual(registry.unyank("b", "1.1.0"), 5)
            self.assertEqual(registry.resolve({"zed": "*"}), NoSelection(5))
            why = ('1. never (), because the request needs zed "*" in {} and the request must be met',
                   "So no selection meets the request.")
            self.assertEqual(registry.resolve({"zed": "*"}, explain=True), NoSelection(5, WHY_ZED, why))
            self.assertIs(registry.check({"zed": "*"}, WHY_ZED), True)
            self.assertIs(registry.check({"a": "*"}, WHY_ZED, {"a": "1.0.0"}), False)
            # that nothing publishes it shows in a conflict
            self.assertRaises(registryd.BudgetSpent, registry.resolve, {"zed": "*"}, budget=0)
            self.assertEqual((registry.many([]), registry.list().revision), ([], 5))

    def test_what_the_program_refuses(self):
        with self.open() as registry:
            accepted(registry, [Line(line.encode()) for line in PUBLISHED])
            # all at once, and one by one
            futures = registry.many([request for _, request in REFUSED])
            for (name, request), future in zip(REFUSED, futures):
                self.assertEqual(self.raises(name, future).revision, 3)
                self.raises(name, registry.ask(request))
            with self.assertRaises(registryd.AlreadyPublished):
                registry.publish("a", "1.0.0")
            self.assertEqual(registry.list().revision, 3)

    def test_many_at_once(self):
        with self.open(**self.several) as registry:
            futures = registry.many(Publish("a", f"{number}.0.0") for number in range(2000))
            futures += registry.many(Resolve({"a": f"={number}"}) for number in range(2000))
            replies = [future.result(SECONDS) for future in futures]
        self.assertEqual(replies[:2000], [Accepted(number + 1) for number in range(2000)])
        self.assertEqual(replies[2000:], [Selection(2000, {"a": f"{number}.0.0"}) for number in range(2000)])

    def test_threads_that_share_a_session(self):
        def call(number):
            revisions = [registry.publish(f"a{number}", f"1.{minor}.0") for minor in range(50)]
            return revisions, registry.resolve({f"a{number}": "*"}).selected

        with self.open() as registry, ThreadPoolExecutor(8) as threads:
            told, selected = zip(*threads.map(call, range(8)))
        self.assertEqual(sorted(sum(told, [])), list(range(1, 401)))
        self.assertEqual(list(selected), [{f"a{number}": "1.49.0"} for number in range(8)])

    def test_a_long_reply(self):
        # a derivation of more bytes than are taken at once: each of 1,500 versions is ruled out for a reason of its own
        with self.open() as registry:
            accepted(registry, [Publish("a", f"{it}.0.0", {f"needed-by-version-{it}": "*"}) for it in range(1500)])
            why = registry.resolve({"a": "*"}, explain=True)
            self.assertGreater(len("".join(why.explanation)), 65_536)
            self.assertIs(registry.check({"a": "*"}, why.derivation), True)
            self.assertEqual(registry.resolve({"a": "*"}), NoSelection(1500))

    def test_a_journal_is_saved_and_loaded(self):
        path = self.path("journal")
        with self.open(save=path) as registry:
            futures = registry.many([Publish("a", "1.0.0", {"b": "^1.0.0"}), Yank("a", "1.0.0")])
        # a session that is closed has answered all lines
        self.assertEqual([future.result(0) for future in futures], [Accepted(1), Accepted(2)])
        self.assertEqual(read(path), JOURNAL)
        with self.open(load=path) as registry:
            self.assertEqual(registry.list(), Listing(2, {"a": (("1.0.0", True),)}))
        Path(path).write_text(JOURNAL.replace('"a"', '"A"', 1), encoding="ascii")
        self.fails(f"journal {path}: line 2 is not a journal's, and nothing was changed", lambda: self.open(load=path),
                   "journal line 2")

    def test_a_journal_that_is_gone_on_with(self):
        path = self.path("journal")
        registry = self.open(journal=path)
        self.assertEqual((registry.publish("a", "1.0.0", {"b": "^1.0.0"}), registry.yank("a", "1.0.0")), (1, 2))
        # it is there before it is told, and one session has it
        self.assertEqual(read(path), JOURNAL.replace("end 2\n", ""))
        in_use = f"journal {path}: in use by another session"
        self.fails(in_use, lambda: self.open(journal=path))
        self.ends(re.escape(in_use), lambda: Registry(PROGRAM, journal=path))
        registry.kill()
        with self.open(journal=path, **self.several) as registry:
            self.assertEqual(registry.list(), Listing(2, {"a": (("1.0.0", True),)}))
        self.assertEqual(read(path), JOURNAL)
        Path(path).write_text(JOURNAL.replace('"a"', '"A"', 1), encoding="ascii")
        self.fails(f"journal {path}: line 2 is not a journal's, and nothing was changed",
                   lambda: self.open(journal=path))

    def test_what_cannot_be_begun_or_saved(self):
        none, missing = self.path("none"), "No such file or directory (os error 2)"
        self.fails(f"journal {none}: can't be opened: {missing}", lambda: self.open(load=none), "input failed")
        # that no file can be made is told before the first line; that its disk is full is told at the end
        nowhere = self.path("none", "journal")
        self.fails(f"journal {nowhere}: can't be created: {missing}", lambda: self.open(save=nowhere), "output failed")
        registry = self.open(save="/dev/full")
        self.assertEqual(registry.publish("a", "1.0.0"), 1)
        full = "No space left on device (os error 28)"
        self.fails(f"journal /dev/full: can't be written: {full}", registry.close, "output failed")
        registry.close()

    def test_a_journal_that_finds_no_room(self):
        path, told = self.path("journal"), 0
        # the signal that comes with it would end a program; Python passes it over
        self.program = ["sh", "-c", "trap '' XFSZ; exec \"$0\" \"$@\"", PROGRAM]
        with files_of_at_most(1000):
            registry = self.open(journal=path)
            futures = registry.many(Publish("a", f"{number}.0.0") for number in range(10))
            self.assertEqual([future.result(SECONDS).revision for future in futures], list(range(1, 11)))
            futures = registry.many(Publish("b", f"{number}.0.0") for number in range(100))
            full = f"journal {path}: can't be written: File too large (os error 27)"
            told = sum(not future.exception(SECONDS) for future in futures)
            self.fails(full, futures[-1].result)
            self.fails(full, lambda: registry.publish("c", "1.0.0"))
            self.fails(full, registry.close)
            registry.close()
        # what was told is there, and the next session goes on
        with self.open(journal=path) as registry:
            self.assertGreaterEqual(registry.list().revision, 10 + told)

    def test_a_closed_session_answers_no_more(self):
        for end in (Registry.close, Registry.kill):
            registry = self.open()
            end(registry)
            for call in (registry.list, lambda: registry.ask(List())):
                self.ends("the session was closed", call)
            registry.close()


class WithProgram(Calls, client_python.Case):
    program = PROGRAM
    several = {"workers": 3}

    def open(self, **options):
        return Registry(self.program, **options)

    def fails(self, told, call, file=None):
        self.assertEqual(self.ends(f"^the program ended with status 1: registryd: {re.escape(file or told)}$", call), 1)


@needs_library
class InProcess(Calls, client_python.Case):
    several = {}

    def open(self, **options):
        return Registry(embedded=True, library=LIBRARY, **options)

    def fails(self, told, call, file=None):
        self.assertIsNone(self.ends(f"^{re.escape(told)}$", call))


class Values(client_python.Case):
    def test_each_refusal_has_an_exception(self):
        told = re.findall(r"^\| (\d+) \| ([A-Z]\w+) \|", read("docs/REGISTRY.md"), re.M)
        self.assertEqual([(str(number), kind.__name__) for number, kind in sorted(REFUSALS.items())], told)
        self.assertEqual(len(told), 22)
        for number, name in told:
            reply = registryd.replies.answer(f'{{"error":{number},"name":"{name}","revision":7}}'.encode())
            self.assertEqual((type(reply).__name__, reply.number, reply.revision), (name, int(number), 7))
            self.assertRegex(str(reply), f"^{name}: .*, at revision 7$")

    def test_lines_are_written(self):
        for request, line in [
            (Publish("a", "1.0.0", [("b", "^1.0.0"), ("c", "*")]),
             '{"op":"publish","name":"a","version":"1.0.0","needs":[["b","^1.0.0"],["c","*"]]}'),
            (Yank('a"', "1\n"), r'{"op":"yank","name":"a\"","version":"1\n"}'),
            (Unyank("é", "\ud800"), r'{"op":"unyank","name":"\u00e9","version":"\ud800"}'),
            (Resolve({"b": "*"}, [("a", "1.0.0")], 0, True),
             '{"op":"resolve","needs":[["b","*"]],"lock":[["a","1.0.0"]],"budget":0,"explain":true}'),
            (Resolve({}), '{"op":"resolve","needs":[]}'), (Line(b"x \xff"), "x \udcff"),
        ]:
            self.assertEqual(registryd.requests.written(request), line.encode(errors="surrogateescape") + b"\n")

    def check_example(self, at, **variables):
        """The example of a page does what is shown behind it."""
        typed, shown = blocks("clients/README.md")[at:at + 2]
        self.assertEqual(printed(typed.replace("./registryd", PROGRAM), self.folder, **variables), shown)
        return typed

    def check_again(self, at, journal, **variables):
        # the second time it goes on with its journal
        for _ in range(2):
            self.check_example(at, **variables)
            self.assertEqual(read(self.path(journal)).count('"name":"app"'), 1)

    def test_the_example(self):
        self.check_again(0, "python.journal")

    @needs_library
    def test_the_examples_in_process(self):
        self.check_again(2, "embedded.journal", REGISTRYD_LIBRARY=LIBRARY)
        typed = self.check_example(4, REGISTRYD_LIBRARY=LIBRARY)
        self.assertLessEqual(len(typed.splitlines()), 11)
