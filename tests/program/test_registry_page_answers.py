"""What `registry page` answers, in one process: of a journal that is shown over a program that is made up."""
import json
import unittest
from types import SimpleNamespace
from unittest import mock

from registry_cli.failures import Refused
from registry_cli.page import answers, journal
from registry_cli.page.answers import AtFault, NotThere
from registry_cli.page.journal import Unanswered, View
from tests.in_process.test_registry_page_parts import Program
from tests.program.test_journals import journal as text_of
from tests.support.program import publish, yank

LINES = [publish("log", "1.0.0"), publish("log", "1.10.0+b"), publish("log", "1.9.0"), yank("log", "1.9.0"),
         publish("log", "2.0.0-rc.1"), publish("app", "1.0.0", ["log ^1", "zlib *"]),
         publish("logger", "0.1.0"), publish("my-log", "0.1.0"), publish("old", "1.0.0"), yank("old", "1.0.0")]
PACKAGES = {"app": [("1.0.0", False)], "log": [("1.0.0", False), ("1.10.0+b", False), ("1.9.0", True),
                                               ("2.0.0-rc.1", False)], "logger": [("0.1.0", False)],
            "my-log": [("0.1.0", False)], "old": [("1.0.0", True)]}


class Answers(unittest.TestCase):
    def setUp(self):
        self.enterContext(mock.patch.object(journal, "Reading", Program))
        self.enterContext(mock.patch.object(Program, "ask", lambda *_: [{"packages": PACKAGES}]))
        self.view = View(SimpleNamespace(path="j", words=(), text=lambda: text_of(LINES)))
        self.asked, self.reply = [], None
        self.journal = SimpleNamespace(view=None, path="j", fault="no", seconds=7, refresh=lambda: self.view,
                                       ask=self.ask)

    def ask(self, request, page):
        self.assertEqual((request["op"], request["lock"]), ("resolve", []))
        self.asked.append((request["needs"], request["explain"], page))
        return self.view, self.reply

    def test_status(self):
        self.view.warnings = ["it is near a limit"]
        self.assertEqual(answers.status(self.journal, {}), {"path": "j", "revision": 10, "packages": 5, "versions": 8,
                                                            "yanked": 2, "fault": "no",
                                                            "warnings": ["it is near a limit"], "seconds": 7})

    def search(self, *text):
        self.journal.view = self.view
        found = answers.search(self.journal, {"text": [*text]} if text else {})
        return found["text"], found["found"], found["near"], [it["name"] for it in found["packages"]]

    def test_search(self):
        names = ["app", "log", "logger", "my-log", "old", "zlib"]
        for text, wanted in (([], ("", 6, None, names)), (["", "x"], ("", 6, None, names)),
                             ([" LOG "], ("log", 3, None, ["log", "logger", "my-log"])),
                             (["logg"], ("logg", 1, None, ["logger"])), (["-"], ("-", 1, None, ["my-log"])),
                             (["zlbi"], ("zlbi", 0, "zlib", [])), (["nothing"], ("nothing", 0, None, []))):
            self.assertEqual(self.search(*text), wanted)
        with mock.patch.object(answers, "MOST_FOUND", 2):
            self.assertEqual(self.search("log"), ("log", 3, None, ["log", "logger"]))
            for before, begin, wanted in (("0", 0, ["log", "logger"]), ("1", 1, ["logger", "my-log"]),
                                          ("2", 2, ["my-log"]), ("3", 0, ["log", "logger"]),
                                          ("-1", 0, ["log", "logger"]),
                                          ("x", 0, ["log", "logger"]), ("9" * 5_000, 0, ["log", "logger"])):
                found = answers.search(self.journal, {"text": ["log"], "before": [before]})
                self.assertEqual((found["before"], found["most"], found["found"],
                                  [it["name"] for it in found["packages"]]), (begin, 2, 3, wanted), before[:9])
        self.assertEqual(answers.search(self.journal, {"text": ["l"]}),
                         {"revision": 10, "text": "l", "found": 5, "near": None, "before": 0, "most": 100, "packages": [
                             {"name": "log", "versions": 4, "newest": "1.10.0+b"},
                             {"name": "logger", "versions": 1, "newest": "0.1.0"},
                             {"name": "my-log", "versions": 1, "newest": "0.1.0"},
                             {"name": "old", "versions": 1, "newest": "1.0.0"},
                             {"name": "zlib", "versions": 0, "newest": None}]})

    def test_a_package(self):
        self.journal.view = self.view
        self.assertEqual(answers.package(self.journal, {"name": ["log"]}), {"name": "log", "versions": [
            {"version": "2.0.0-rc.1", "yanked": False, "pre_release": True, "needs": []},
            {"version": "1.10.0+b", "yanked": False, "pre_release": False, "needs": []},
            {"version": "1.9.0", "yanked": True, "pre_release": False, "needs": []},
            {"version": "1.0.0", "yanked": False, "pre_release": False, "needs": []}],
            "newest": "1.10.0+b", "revision": 10, "near": None,
            "needed_by": [{"name": "app", "version": "1.0.0", "requirement": "^1"}]})
        self.view.names.append("loger")
        found = [answers.package(self.journal, {"name": [name]}) for name in ("zlib", "loger")]
        self.assertEqual([(it["versions"], it["newest"], it["near"], len(it["needed_by"])) for it in found],
                         [([], None, None, 1), ([], None, "logger", 0)])
        self.assertRaisesRegex(NotThere, r"\Ano version of  is published\Z", answers.package, self.journal, {})
        self.assertRaisesRegex(NotThere, r"\Ano version of lgo is published; did you mean log\?\Z", answers.package,
                               self.journal, {"name": ["lgo"]})

    def test_a_selection(self):
        self.reply = {"revision": 9, "selected": [["app", "1.0.0"], ["log", "1.10.0+b"], ["logger", "0.1.0"]]}
        self.assertEqual(answers.resolve(self.journal, {"need": [" app@^1 ", " ", "log"], "page": ["p" * 70, "q"]}),
                         {"needs": [["app", "^1"], ["log", "*"]], "revision": 9, "selected": [
                             {"name": "app", "version": "1.0.0", "needs": [["log", "^1"], ["zlib", "*"]],
                              "newest": None},
                             {"name": "log", "version": "1.10.0+b", "needs": [], "newest": None},
                             {"name": "logger", "version": "0.1.0", "needs": [], "newest": None}]})
        answers.resolve(self.journal, {"need": ["app"]})
        self.assertEqual(self.asked, [([["app", "^1"], ["log", "*"]], True, "p" * 64), ([["app", "*"]], True, "")])
        # a selection may have what is above the newest release
        for version, newest in (("1.0.0", "1.10.0+b"), ("1.10.0", None), ("2.0.0-rc.1", None)):
            self.assertEqual(answers.newer(self.view, "log", version), newest)

    def test_what_has_no_selection(self):
        for query in ({}, {"need": ["", "  "]}):
            self.assertRaisesRegex(Refused, r"\Aname what is needed, as app@\^1\Z", answers.resolve, self.journal,
                                   query)
        self.reply = {"error": 22, "name": "BudgetSpent", "revision": 9}
        self.assertRaisesRegex(Refused, "no answer was found", answers.resolve, self.journal, {"need": ["app"]})
        self.reply = {"refused": True, "revision": 9, "derivation": [{}] * 3000}
        with mock.patch.object(answers, "MOST_LINES", 2999):
            self.assertRaisesRegex(Unanswered, "why takes 3,000 lines, which are more than this page tells: `registry "
                                               "why` tells them", answers.resolve, self.journal, {"need": ["app"]})

        def refusal(view, request, reply):
            return [view is self.view, request["needs"], len(reply["derivation"])]
        with mock.patch.object(answers, "MOST_LINES", 3000), mock.patch.object(answers, "refusal", refusal):
            self.assertEqual(answers.resolve(self.journal, {"need": ["app"]}),
                             {"needs": [["app", "*"]], "revision": 9, "refused": [True, [["app", "*"]], 3000]})

    def test_the_field_that_is_at_fault(self):
        for number, name, need, field in ((1, "BadName", "Log@^1", [1, "name"]),
                                          (3, "BadRequirement", "log@one", [1, "requirement"]),
                                          (4, "RepeatedName", "app@^2", [1, "name"]),
                                          (6, "TooManyNeeds", "log", None), (22, "BudgetSpent", "log", None)):
            self.reply = {"error": number, "name": name, "revision": 9}
            with self.assertRaises(AtFault, msg=need) as caught:
                answers.resolve(self.journal, {"need": ["app@^1", " ", need]})
            self.assertEqual((caught.exception.field, caught.exception.status), (field, 1), need)

    def test_what_it_is_asked_by(self):
        self.assertEqual(answers.ANSWERS, {"status": answers.status, "search": answers.search,
                                           "package": answers.package, "resolve": answers.resolve})
        self.assertEqual(json.loads(json.dumps(self.view.counts)), {"packages": 5, "versions": 8, "yanked": 2})
