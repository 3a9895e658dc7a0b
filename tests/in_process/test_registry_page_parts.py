"""What `registry page` holds of a journal that changes, and searches that end or wait, over a made-up program."""
import json
import threading
import unittest
from types import SimpleNamespace
from unittest import mock

import pytest

from registry_cli import catalog
from registry_cli.failures import Failed
from registry_cli.page import journal
from registry_cli.page.journal import Journal, Unanswered, View
from tests.program.test_journals import journal as text_of
from tests.support.program import in_time, publish, yank

OLD = [publish("log", "1.0.0"), publish("log", "1.10.0"), publish("log", "1.9.0"), yank("log", "1.9.0"),
       publish("app", "1.0.0", ["log ^1", "zlib *"]), publish("app", "1.1.0", ["zlib *"])]
PACKAGES = {"app": [("1.0.0", False), ("1.1.0", False)], "log": [("1.0.0", False), ("1.10.0", False), ("1.9.0", True)]}
REQUEST = {"op": "resolve", "needs": []}


class Program:
    """A session in the place of the program's. What it is asked waits until it is let go, where that is wanted."""
    begun, warnings = [], []

    def __init__(self, path, text):
        self.path, self.text, self.is_left = path, text, False
        self.ended = threading.Event()
        self.process = SimpleNamespace(kill=self.ended.set)
        self.search = None  # a search that does not end by itself
        self.begun.append(self)

    def commands(self):
        return [json.loads(it) for it in self.text.splitlines()[1:-1]]

    def ask(self, request):
        if request["op"] == "list":
            return [{"packages": PACKAGES}]
        if self.search:
            self.search.set()
            self.ended.wait()
        if self.ended.is_set():
            raise Failed("the program ended")
        return [{"asked": request["needs"]}]

    def leave(self):
        self.is_left = True


class Shown(unittest.TestCase):
    def setUp(self):
        self.enterContext(in_time())
        self.enterContext(mock.patch.object(Program, "begun", []))
        self.enterContext(mock.patch.object(journal, "Reading", Program))
        self.mark, self.lines = 1, OLD
        self.source = SimpleNamespace(path="j", text=self.text, mark=lambda: self.mark)

    def text(self):
        if isinstance(self.lines, Failed):
            raise self.lines
        return text_of(self.lines)

    def journal(self, seconds=60):
        return Journal(self.source, seconds)


class Views(Shown):
    def begun(self, number=0):
        return Program.begun[number]

    def test_what_is_not_shown_is_not_read(self):
        """However many versions there are, none is read before it is shown, and the program does not list them."""
        text = text_of([publish(f"p{number:04}", f"1.{minor}.0", ["p0000 ^1"] if number else [])
                        for minor in range(4) for number in range(500)])
        self.source.text = lambda: text
        with mock.patch.object(catalog.json, "loads", side_effect=AssertionError), \
                mock.patch.object(Program, "ask", return_value=[{}]) as asked:
            made = View(self.source)
            assert (len(made.names), made.counts) == (500, {"packages": 500, "versions": 2000, "yanked": 0})
            assert [call.args for call in asked.call_args_list] == [({"op": "resolve", "needs": []},)]
            assert {other for other, *_ in made.needing("p0000")} == {f"p{number:04}" for number in range(1, 500)}
            found = made.newest("p0007")
        assert (found.text, found.is_yanked, found.needs) == ("1.3.0", False, [["p0000", "^1"]])

    def test_a_journal_that_can_t_be_shown(self):
        with mock.patch.object(Program, "ask", side_effect=Failed("no")):
            pytest.raises(Failed, View, self.source)
        assert self.begun().is_left


class Searches(Shown):
    def begin(self, made, page, needs=()):
        """Asks in a thread; answers the list that gets what comes of it."""
        found = []

        def ask():
            try:
                found.append(made.ask({**REQUEST, "needs": [*needs]}, page)[1])
            except (Unanswered, Failed) as fault:
                found.append(str(fault))
        thread = threading.Thread(target=ask, daemon=True)
        thread.start()
        return found, thread

    def long(self, made, page):
        """Begins a search that does not end by itself."""
        search = made.view.program().search = threading.Event()
        begun = self.begin(made, page)
        search.wait()
        return begun

    def test_others_wait_and_the_last_one_of_each_page_is_answered(self):
        made = self.journal()
        found, thread = self.long(made, "one")
        waiting = []
        for asking, number in (("two", 1), ("three", 2), ("two", 3)):
            count = made.count
            waiting.append(self.begin(made, asking, [number]))
            while made.count == count:
                pass
        assert ([it for it, _ in waiting], found, made.running.page) == ([[], [], []], [], "one")
        search = made.running
        search.end("enough")
        search.end("again")  # why it was ended first is kept
        for _, each in [*waiting, (found, thread)]:
            each.join()
        assert (found, [it for it, _ in waiting]) == (["enough"], [["another request came from the same page"],
                                                                   [{"asked": [2]}], [{"asked": [3]}]])

    def test_pages_that_are_known(self):
        made = self.journal()
        with mock.patch.object(journal, "MOST_PAGES", 2):
            for asking in ("a", "b", "a", "c"):
                made.ask(REQUEST, asking)
        assert made.last == {"b": 2, "c": 4}

    def test_what_was_shown_before_stays_until_its_search_has_ended(self):
        made = self.journal()
        found, thread = self.long(made, "one")
        self.mark, self.lines = 2, OLD[:1]
        old, view = made.view, made.refresh()
        assert (old.searches, old.session, Program.begun[0].is_left) == (1, Program.begun[0], False)
        made.running.end("enough")
        thread.join()
        assert (found, old.session, made.view, Program.begun[1].is_left) == (["enough"], None, view, False)
        # one that ends by a reply leaves it too
        program = made.view.program()

        def ask(request):
            self.mark += 1
            made.refresh()
            return [{"asked": 9}]
        with mock.patch.object(program, "ask", ask):
            assert made.ask(REQUEST) == (view, {"asked": 9})
        assert (program.is_left, view.session, made.view is view) == (True, None, False)
