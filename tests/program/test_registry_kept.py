"""What a smaller journal keeps of a registry, and what an import takes of an index, in one process, by examples worked
by hand."""
import json
import os
import tempfile
import unittest
from types import SimpleNamespace
from unittest import mock

from registry_cli import catalog, renewal, shelf
from registry_cli.check_derivation import read_version
from registry_cli.indexes.index import Crate, Index, Release, Unusable, by_precedence
from tests.support.program import journal_line, publish, unyank, yank


def commands(*lines):
    return [json.loads(line) for line in lines]


def keys(*texts):
    return {(name, read_version(version)) for name, version in (text.split(" ") for text in texts)}


class Renewing(unittest.TestCase):
    # a needs b, and b is newer than what it asks for; c and d need each other; e is yanked
    LINES = commands(publish("b", "1.0.0"), publish("b", "2.0.0"), publish("a", "1.0.0", ["b ^1"]),
                     publish("a", "1.1.0+x", ["b ^1"]), publish("c", "1.0.0", ["d *"]),
                     publish("d", "1.0.0", ["c *"]), publish("e", "1.0.0"), yank("e", "1.0.0"), publish("e", "0.9.0"),
                     yank("b", "1.0.0"), unyank("b", "1.0.0"))

    def setUp(self):
        self.releases = renewal.releases_of(self.LINES)

    def test_releases(self):
        self.assertEqual(list(self.releases), [(name, read_version(version)) for name, version in (
            ("b", "1.0.0"), ("b", "2.0.0"), ("a", "1.0.0"), ("a", "1.1.0+x"), ("c", "1.0.0"), ("d", "1.0.0"),
            ("e", "1.0.0"), ("e", "0.9.0"))])
        self.assertEqual([it.is_yanked for it in self.releases.values()], [False] * 6 + [True, False])
        self.assertEqual([it.need for it in self.releases.values()][2:4], [["a", "=1.0.0"], ["a", "=1.1.0"]])
        for length, is_one in ((249, True), (250, False)):
            self.assertEqual(renewal.Release("a", "1.0.0-" + "x" * length, [], False).need is not None, is_one)

    def test_the_newest(self):
        self.assertEqual(renewal.newest(self.releases, 1), keys("a 1.1.0", "b 2.0.0", "c 1.0.0", "d 1.0.0", "e 0.9.0"))
        self.assertEqual(renewal.newest(self.releases, 2), keys("a 1.1.0", "a 1.0.0", "b 2.0.0", "b 1.0.0", "c 1.0.0",
                                                                "d 1.0.0", "e 0.9.0"))
        self.assertEqual(renewal.newest(self.releases, 0), set())

    def test_roots(self):
        held = {it.name: it for it in self.releases.values()
                if it.key in keys("a 1.1.0", "b 1.0.0", "c 1.0.0", "d 1.0.0", "e 0.9.0")}
        self.assertEqual(renewal.roots(held), ["a", "e", "c"])
        self.assertEqual(renewal.roots({"c": held["c"], "d": held["d"]}), ["c"])
        self.assertEqual(renewal.roots({"x": renewal.Release("x", "1.0.0", [["x", "*"], ["gone", "*"]], False)}), ["x"])
        self.assertEqual(renewal.roots({}), [])

    def test_what_is_written(self):
        self.assertEqual(list(renewal.commands_of(self.releases, keys("e 1.0.0", "a 1.0.0", "b 1.0.0"))),
                         commands(publish("b", "1.0.0"), publish("a", "1.0.0", ["b ^1"]), publish("e", "1.0.0"),
                                  yank("e", "1.0.0")))
        self.assertEqual(catalog.line_of(json.loads(publish("b", "1.0.0"))).decode(),
                         journal_line(publish("b", "1.0.0")))

    def test_what_is_needed(self):
        asked, bar = [], mock.Mock()

        def ask(line):
            asked.append(line)
            name = line["needs"][0][0]
            return [{"selected": {"a": [["a", "1.1.0+x"], ["b", "1.0.0"]], "b": [["b", "2.0.0"]],
                                  "c": [["c", "1.0.0"], ["d", "1.0.0"]]}[name]} if name != "e" else {"refused": True}]
        kept = keys("a 1.1.0", "b 1.0.0", "c 1.0.0", "e 0.9.0")
        found = renewal.needed(SimpleNamespace(ask=ask), self.releases, kept, bar)
        self.assertEqual(found, keys("a 1.1.0", "b 1.0.0", "c 1.0.0", "d 1.0.0"))
        # the last first, and none that stands in a selection already
        self.assertEqual([(line["needs"], line["lock"], line["budget"]) for line in asked],
                         [([["e", "=0.9.0"]], [], 10_000), ([["c", "=1.0.0"]], [], 10_000),
                          ([["a", "=1.1.0"]], [], 10_000)])
        self.assertEqual(bar.step.call_count, 4)

    def test_a_lock_file(self):
        with tempfile.TemporaryDirectory() as folder:
            path = os.path.join(folder, "app.lock")
            lock = renewal.Lock(path, {"b": "1.0.0", "a": "1.1.0", "gone": "1.0.0", "e": "2.0.0"}, self.releases)
            self.assertEqual((lock.missing, lock.keys),
                             (["e", "gone"], keys("a 1.1.0", "b 1.0.0", "gone 1.0.0", "e 2.0.0")))
            rows = [["a", "1.1.0"], ["b", "1.0.0"], ["e", "2.0.0"], ["gone", "1.0.0"]]
            self.assertEqual(lock.requests,
                             [{"op": "resolve", "needs": [["a", "=1.1.0"]], "lock": rows, "budget": 10_000}])
            with open(os.path.join(folder, "app.needs"), "w", encoding="ascii") as file:
                file.write("a ^1\n")
            lock = renewal.Lock(path, {"b": "1.0.0", "a": "1.1.0"}, self.releases)
            self.assertEqual([it["needs"] for it in lock.requests], [[["a", "=1.1.0"]], [["a", "^1"]]])
            with mock.patch.object(renewal, "MOST_NEEDS", 1):
                self.assertEqual([it["needs"]
                                  for it in renewal.Lock(path + "x", {"c": "1.0.0", "e": "0.9.0", "d": "1.0.0"},
                                                         self.releases).requests],
                                 [[["e", "=0.9.0"]], [["c", "=1.0.0"]]])
            both, other = [["a", "1.1.0+x"], ["b", "1.0.0"]], [["a", "1.1.0+x"], ["b", "2.0.0"]]
            for replies, is_selected, kept in (([{"selected": both}] * 2, True, keys("a 1.1.0", "b 1.0.0")),
                                               ([{"selected": both}, {"selected": other}], False,
                                                keys("a 1.1.0", "b 1.0.0", "b 2.0.0")),
                                               ([{"selected": both}, {"refused": True}], False,
                                                keys("a 1.1.0", "b 1.0.0")),
                                               ([{"selected": both[:1]}] * 2, False, keys("a 1.1.0", "b 1.0.0"))):
                session = SimpleNamespace(ask=lambda *asked, replies=replies: [{**it, "revision": 7} for it in replies])
                self.assertEqual((lock.remember(session), lock.is_selected, lock.replies), (kept, is_selected, replies))


class Shelves(unittest.TestCase):
    def index(self, **crates):
        index = Index()
        for name in crates:
            index.enter(name)
        index.crate = lambda name: Crate(name, [Release(*it) for it in crates[name]])
        return index

    def test_what_is_taken(self):
        many = [(f"d{number}", "^1") for number in range(65)]
        a = [("1.0.0", [("b", "^1 "), ("b", "<2"), ("b", "*")]), ("1.0.0+x", []), ("x", []), ("2.0.0", [("a", "^1")]),
             ("2.1.0", [("a", "^2")]), ("3.0.0", [("9", "*")]), ("3.1.0", [("b", "^^")]),
             ("4.0.0", many), ("4.1.0", many[1:]), ("5.0.0", [("b", "*"), ("b", "x")], True)]
        index = self.index(a=a, b=[])
        taken = shelf.Shelf(index)
        self.assertEqual([(it.version, it.needs if len(it.needs) < 9 else 64, it.yanked)
                          for it in taken.crate("a").releases],
                         [("1.0.0", [("b", "^1, <2")], False), ("2.1.0", [], False), ("4.1.0", 64, False),
                          ("5.0.0", [("b", "*")], True)])
        self.assertEqual(taken.crate("a").notes.lines(), [
            "left out: dependencies of a version on itself: 1 (first: a 2.1.0 needs a \"^2\")",
            "left out: versions that need another version of their own crate: 1 (first: a 2.0.0 needs a \"^1\")",
            "left out: versions that need what is refused as a name or a requirement: 2 (first: a 3.0.0 needs 9 \"*\")",
            "left out: versions whose precedence another one has: 1 (first: a 1.0.0+x)",
            "left out: versions whose text, or whose crate's name, is refused: 1 (first: a x)",
            "left out: versions with more than 64 dependencies: 1 (first: a 4.0.0)",
            "rewritten: crates needed by several requirements, all of which have to be met: 1 (first: a 1.0.0 needs b "
            "\"^1, <2\")"])
        with mock.patch.object(shelf, "MOST_VERSIONS", 2):
            self.assertEqual([it.version for it in shelf.Shelf(self.index(a=[("1.0.0", []), ("3.0.0", []),
                                                                             ("2.0.0", [])])).crate("a").releases],
                             ["3.0.0", "2.0.0"])

    def test_the_newest_of_a_crate(self):
        taken = shelf.Shelf(self.index(a=[("1.0.0", []), ("3.0.0", [], True), ("2.0.0", []), ("2.0.0-rc.1", [])]))
        for most, wanted in ((0, []), (1, ["2.0.0"]), (2, ["2.0.0", "2.0.0-rc.1"]),
                             (3, ["1.0.0", "2.0.0", "2.0.0-rc.1"]), (4, ["1.0.0", "3.0.0", "2.0.0", "2.0.0-rc.1"])):
            self.assertEqual([it.version for it in taken.newest("a", most)], wanted)

    def test_how_much_fits(self):
        index = self.index(a=[("1.0.0", [("b", "*")]), ("1.1.0", [("b", "*"), ("gone", "*")], True)],
                           b=[("1.0.0", []), ("1.1.0", [("a", "*")])], c=[("1.0.0", [])])
        taken = shelf.Shelf(index)
        self.assertEqual({name: [it.version for it in some] for name, some in shelf.reach(taken, ["a"], 9).items()},
                         {"a": ["1.0.0", "1.1.0"], "b": ["1.0.0", "1.1.0"]})
        # five lines, since one is yanked, and three names
        for lines, names, wanted in ((5, 3, 2), (4, 3, 1), (5, 2, 1), (2, 2, 1), (1, 9, None), (9, 1, None)):
            with mock.patch.object(shelf, "MOST_COMMANDS", lines), mock.patch.object(shelf, "MOST_PACKAGES", names):
                if wanted is None:
                    self.assertRaisesRegex(Unusable,
                                           f"are more than the {lines} lines and {names} names of one session",
                                           shelf.choose, taken, ["a"], 2)
                else:
                    chosen, most = shelf.choose(taken, ["a"], 2)
                    self.assertEqual((most, list(chosen)), (wanted, ["a", "b"]), (lines, names))
        chosen, _ = shelf.choose(taken, ["b", "c", "a"], 2)
        self.assertEqual(list(chosen), ["a", "b", "c"])
        self.assertEqual([(it["op"], it["name"], it["version"]) for it in shelf.commands_of({"a": chosen["a"]})],
                         [("publish", "a", "1.0.0"), ("publish", "a", "1.1.0"), ("yank", "a", "1.1.0")])
        self.assertEqual(shelf.counted(chosen), "5 versions of 3 crates, 1 of them yanked")

    def test_what_is_told(self):
        index = self.index(a=[("1.0.0", [("b", "^2"), ("gone", "*")]), ("0.9.0", [])], b=[("1.0.0", [])])
        taken = shelf.Shelf(index)
        self.assertEqual(shelf.noted(taken, shelf.choose(taken, ["a"], 1)[0], 1, index.notes), [
            "left out: versions below the 1 newest ones of their crate: 1 (first: a 0.9.0)",
            "missing: requirements on crates that are not there: 1 (first: a 1.0.0 needs gone \"*\")",
            "missing: requirements that no version there meets: 1 (first: a 1.0.0 needs b \"^2\")"])

    def test_what_is_begun_with(self):
        index = self.index(Some_Name=[])
        self.assertEqual(shelf.roots(index, ["some-name@^1"]), [("some_name", "^1")])
        for crates, told_of in ((["some-nam"], "there is no crate some-nam in the index; did you mean some_name\\?"),
                                (["zzzzzzzz"], r"there is no crate zzzzzzzz in the index\Z"),
                                (["some-name@^^"], r"\Asome_name@\^\^: the operator \^\^ is not one of Cargo's")):
            self.assertRaisesRegex(Unusable, told_of, shelf.roots, index, crates)
        index.own = lambda: [("Some-Name", "1.0.0"), ("a", "x")]
        self.assertEqual(shelf.roots(index, []), [("some_name", "=1.0.0")])
        self.assertRaisesRegex(Unusable, "there is nothing to ask for: name it by --from", shelf.request, index, [], [])
        wanted = {"op": "resolve", "needs": [["a", "*"]] * 64, "explain": True}
        self.assertEqual((shelf.request(index, [["a", "*"]] * 66, []), index.notes.lines()),
                         (wanted, ["left out: packages that are asked for beyond the 64 needs of a request: 2 (first: "
                                   "a)"]))
        self.assertEqual(shelf.request(index, [["a", "*"]], [["a", "1.0.0"]])["lock"], [["a", "1.0.0"]])

    def test_names_that_fold_to_one(self):
        index = Index()
        self.assertEqual([index.enter(name) for name in ("A_b", "a_b", "a-B", "c")], [True, True, False, True])
        self.assertEqual((index.spelled("A-B"), index.spelled("D-e"), index.has("a-b"), index.has("d"), index.names()),
                         ("a_b", "d-e", True, False, ["a_b", "c"]))
        self.assertEqual([it.version for it in by_precedence([Release(version, [])
                                                              for version in ("2.0.0", "x", "1.0.0", "1.0.0-rc.1")])],
                         ["x", "1.0.0-rc.1", "1.0.0", "2.0.0"])
