"""`registry show`, `search` and `list`: small registries, and what is to be told of them by hand."""
import json
import unittest
from unittest import mock

from registry_cli import catalog
from tests.program.test_journals import journal, learn
from tests.support.program import publish, unyank, yank

# log has versions in another order than that of precedence; 2.1.0 is yanked, and 3.0.0-rc.1 is a pre-release
LINES = [publish("log", "1.10.0", ["zlib ^1"]), publish("log", "1.9.0"), publish("log", "3.0.0-rc.1"),
         publish("log", "2.1.0", ["zlib ^2"]), yank("log", "2.1.0"),
         publish("log", "2.0.0+b", ["zlib >=1, <3", "json-2 *"]), publish("app", "1.0.0", ["log ^1"]),
         publish("app", "2.0.0", ["log ^2", "zlib *"]),
         publish("app", "2.1.0", ["zlib *"]), publish("json-log", "0.1.0-a", ["log *"]), publish("json-log", "0.1.0-b")]


class Read(unittest.TestCase):
    def test_of_a_journal_only_what_is_shown(self):
        # p0 is needed by 300 packages of four versions, and its own versions need q
        lines = [publish("p0", f"1.{minor}.0", ["q ^1"]) for minor in range(4)]
        lines += [publish(f"p{number}", f"1.{minor}.0", ["p0 ^1", "q *"]) for minor in range(4)
                  for number in range(1, 301)]
        text, read, loads = journal(lines), [], json.loads
        with mock.patch.object(catalog.json, "loads", lambda text: read.append(text) or loads(text)):
            made = catalog.Catalog(text)
            self.assertEqual((len(made.listed), made.revision), (301, 1204))
            self.assertEqual([it.text for it in made.versions("p0")], ["1.3.0", "1.2.0", "1.1.0", "1.0.0"])
            self.assertEqual(sorted(made.needing("p0")),
                             sorted((f"p{number}", "1.3.0", "^1") for number in range(1, 301)))
            self.assertEqual(read, [])
            self.assertEqual([it.needs for it in made.versions("p0")], [[["q", "^1"]]] * 4)
            self.assertEqual(len(read), 4)

    def test_who_needs_a_package(self):
        # the first, a middle and the last of several needs; names that begin or end as the package's, and one with
        # letters that a pattern has
        lines = [publish("a", "1.0.0", ["log ^1", "z *"]), publish("a", "1.2.0", ["b *", "log >=1, <3", "z *"]),
                 publish("a", "1.10.0-a", ["log-x *", "x-log *"]), publish("b", "2.0.0", ["a *", "log *"]),
                 publish("b", "1.0.0", ["log =1.0.0"]), yank("b", "2.0.0"), publish("log", "1.0.0", ["lo ^1"])]
        made = catalog.Catalog(journal(lines))
        self.assertEqual(list(made.needing("log")), [("a", "1.2.0", ">=1, <3"), ("b", "2.0.0", "*")])
        self.assertEqual((list(made.needing("lo")), list(made.needing("l.g"))), ([("log", "1.0.0", "^1")], []))

    def test_commands_that_do_not_follow_each_other(self):
        # names that begin as others; what was learnt stands between, and what is only needed has no commands
        lines = [publish("a", "1.0.0", ["b ^1"]), publish("a", "1.1.0", ["only *"]), publish("a-b", "1.0.0", ["a *"]),
                 publish("b", "1.0.0", ["c ^1"]), learn(0), publish("c", "1.0.0"), yank("a", "1.1.0"),
                 publish("a", "1.2.0", ["a-b *", "b *"]), learn(0, 5), publish("b", "1.1.0", ["only ^1"])]
        made = catalog.Catalog(journal(lines))
        self.assertEqual((list(made.lines), made.mentioned, made.revision),
                         (["a", "a-b", "b", "c"], ["a", "b", "only", "a-b", "c"], 8))
        self.assertEqual({name: [it[:2] for it in made.published(name)] for name in [*made.lines, "only"]},
                         {**made.listed, "only": []})
        self.assertEqual(made.published("a"), [("1.0.0", False, b'[["b","^1"]]'), ("1.1.0", True, b'[["only","*"]]'),
                                               ("1.2.0", False, b'[["a-b","*"],["b","*"]]')])
        self.assertEqual([it["version"] for it in made.commands("a")], ["1.0.0", "1.1.0", "1.1.0", "1.2.0"])
        self.assertEqual((list(made.needing("only")), list(made.needing("b"))),
                         ([("a", "1.1.0", "*"), ("b", "1.1.0", "^1")], [("a", "1.2.0", "*")]))

    def test_a_text_in_pieces(self):
        text = journal(LINES)
        whole = catalog.listed_in(text)
        for most in (1, 70, len(text)):
            with mock.patch.object(catalog, "PIECE", most):
                parts = list(catalog.pieces(text))
                self.assertEqual((b"".join(parts), {it[-1:] for it in parts}, catalog.listed_in(text)),
                                 (text, {b"\n"}, whole))
                self.assertEqual(len(parts), {1: text.count(b"\n"), len(text): 1}.get(most, len(parts)))
        self.assertEqual((list(catalog.pieces(b"")), list(catalog.pieces(b"x\ny"))), ([], [b"x\ny"]))

    def test_what_versions_compare_by(self):
        rising = ["0.9.10", "0.10.0-0", "0.10.0-9.1", "0.10.0-a", "0.10.0", "0.10.1", "1.0.0-1", "1.0.0+9", "2.0.0",
                  "10.0.0"]
        self.assertEqual(sorted(reversed(rising), key=catalog.precedence), rising)
        self.assertEqual(catalog.precedence("1.2.3+4.5.6"), catalog.precedence("1.2.3"))

    def test_many_yanks_of_many_versions(self):
        # the last of each counts, and a yank is of the version of equal precedence
        lines = [publish("a", f"1.{minor}.0+b") for minor in range(40)]
        lines += [yank("a", f"1.{minor}.0") for minor in range(40)]
        lines += [unyank("a", f"1.{minor}.0") for minor in range(0, 40, 2)]
        self.assertEqual(catalog.Catalog(journal(lines)).listed,
                         {"a": [(f"1.{minor}.0+b", minor % 2 == 1) for minor in range(40)]})
