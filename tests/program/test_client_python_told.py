"""What the client in Python tells of a request that is wrong: values that are none of their type, before a line is
sent, and the text that a refusal is for. What is wanted is worked by hand from docs/REGISTRY.md and docs/FORMATS.md."""
import json
import pickle
import random
import re

import registryd
from registry_cli.packages import registry_of
from registryd import (
    Check, Line, Listing, NoSelection, NothingSelected, Publish, Refusal, Registry, Resolve, Unyank, Yank)
from registryd.tree import External, tree
from tests.program.test_check_derivation import tangle
from tests.support.client_python import SECONDS, Case, accepted
from tests.support.client_rows import CULPRITS, EXPLAINED, PUBLISHED
from tests.support.program import PROGRAM, serve
from tests.support.read_english import Reader

PAIR = r'is a pair of a name and a requirement, as \("log", "\^1.2"\), not '
PAIRS = r'is a mapping or pairs of a name and a requirement, as \[\("log", "\^1.2"\)\], not '
# Requests that can't be written, and what the exception says, by its kind.
WRONG = {
    TypeError: [
        (Publish("a", "1.0.0", ["log"]), rf"needs\[0\] {PAIR}'log'"),
        (Publish("a", "1.0.0", [("b", "*"), "ab"]), rf"needs\[1\] {PAIR}'ab'"),
        (Publish("a", "1.0.0", [7]), rf"needs\[0\] {PAIR}7"), (Publish("a", "1.0.0", "log"), f"needs {PAIRS}'log'"),
        (Resolve(None), f"needs {PAIRS}None"), (Publish("a", 1.0), "version is a text, not 1.0"),
        (Publish(None, "1.0.0"), "name is a text, not None"), (Yank(b"a", "1.0.0"), "name is a text, not b'a'"),
        (Unyank("a", None), "version is a text, not None"),
        (Resolve({1: "*"}), r"the name in needs\[0\] is a text, not 1"),
        (Resolve({"b": "*", "a": None}), r"the requirement of 'a' in needs\[1\] is a text, not None"),
        (Resolve({}, [("a", 1)]), r"the version of 'a' in lock\[0\] is a text, not 1"),
        (Resolve({}, ["a"]), r'lock\[0\] is a pair of a name and a version, as \("log", "1.3.0"\), not \'a\''),
        (Resolve({}, budget="1"), "budget is a whole number, not '1'"),
        (Resolve({}, budget=True), "budget is a whole number, not True"),
        (Resolve({}, explain=1), "explain is True or False, not 1"), (Line("{}"), "a line is bytes, not '{}'"),
        (Check({}, None), "derivation is the lines that a NoSelection has, not None"), ("a", "'a' is no request.*"),
        (None, "None is no request.*")],
    ValueError: [
        (Publish("a", "1.0.0", [("log",)]), rf"needs\[0\] {PAIR}\('log',\)"), (Line(b"a\nb"), ".*no line feed.*"),
        (Resolve({}, budget=-1), "budget is 0 to 4,294,967,295, not -1"),
        (Resolve({}, budget=2 ** 32), "budget is .* not 4294967296")],
}
# What a session can't be opened with.
UNOPENED = [
    ({"workers": 0}, ValueError, "^workers is 1 to 64, not 0$"),
    ({"workers": 65}, ValueError, "^workers is 1 to 64, not 65$"),
    ({"workers": "2"}, TypeError, "^workers is a whole number"), ({"budget": 1 << 32}, ValueError, "^budget is 0 to"),
    ({"journal": "a", "load": "b"}, ValueError, "loads and saves none"),
    ({"journal": "a", "save": "b"}, ValueError, "loads and saves none"),
]
# Lines that no other client can send, or whose whole text is told here, as the culprits of `rows/culprits.rows`.
MORE = [
    (Publish("c", "1.0.0", {"é": "*"}), "BadName", "needs[0]", "é", "é", "e", "needs[0], é: "),
    (Publish("a", "1.0"), "BadVersion", "version", "a", "1.0", "1.0.0",
     'version, a: the version "1.0" has no patch number; did you mean "1.0.0"?'),
    (Resolve({"a": "*", "log": "==1.2"}), "BadRequirement", "needs[1]", "log", "==1.2", "=1.2",
     "needs[1], log: the operator == of Python"),
    (Publish("a", "1.0.0+x"), "AlreadyPublished", "", "a", "1.0.0+x", None, "a 1.0.0+x is published already"),
    (Line(b'{"op":"list","x":1}'), "BadLine", "", "", "", None, 'a list line has no member "x"'),
    (Line(b"\xff"), "BadLine", "", "", "", None, "byte 1 of the line, 0xFF, is not UTF-8"),
    (Line(b"{op:1}"), "BadLine", "", "", "", '"op"', "the name op has no quotes"),
    (Check({}, [{"causes": []}]), "BadLine", "derivation[0]", "", "", None, "derivation[0]: a line of a derivation"),
]


class Told(Case):
    def open(self):
        return Registry(PROGRAM)

    def test_a_value_that_is_none_of_its_type_is_named_and_sends_no_line(self):
        with self.open() as registry:
            for kind, request, told in ((kind, *it) for kind, requests in WRONG.items() for it in requests):
                with self.subTest(request=request):
                    with self.assertRaisesRegex(kind, f"^{told}$") as caught:
                        registry.many([Publish("a", "1.0.0"), request])
                    self.assertIs(type(caught.exception), kind)
            self.assertEqual(registry.list(), Listing(0, {}))

    def test_a_session_that_cannot_be_opened_so(self):
        for given, kind, told in UNOPENED:
            for more in ({}, {"embedded": True}):
                with self.subTest(given=given, more=more), self.assertRaisesRegex(kind, told):
                    Registry(self.path("none"), **given, **more)

    def test_pairs_in_each_form(self):
        with self.open() as registry:
            for number, needs in enumerate(([["b", "*"]], (("b", "*"),), {"b": "*"}, iter([("b", "*")]),
                                            {"b": "*"}.items(), [], ()), 1):
                self.assertEqual(registry.publish("a", f"{number}.0.0", needs), number)

    def test_a_refusal_tells_its_culprit(self):
        self.assertGreater(len(CULPRITS), 30)
        rows = [*((Line(json.dumps(asked).encode()), *rest, "") for asked, *rest in CULPRITS), *MORE]
        with self.open() as registry:
            accepted(registry, [Line(line.encode()) for line in PUBLISHED])
            for request, error, *wanted, told in rows:
                with self.subTest(request=request), self.assertRaises(Refusal) as caught:
                    registry.ask(request).result(SECONDS)
                found, culprit = caught.exception, caught.exception.culprit
                self.assertEqual((type(found).__name__, found.request, [*culprit[:3], culprit.meant]),
                                 (error, request, wanted))
                self.assertTrue(str(found).startswith(f"{error}: {told}")
                                and str(found).endswith(", at revision 3"), str(found))
                self.assertIn(culprit.told, str(found))

    def test_a_call_tells_it_as_a_future_does(self):
        with self.open() as registry:
            told = r"^BadRequirement: needs\[1\], b: .*; did you mean \"=1\"\?, at revision 0$"
            with self.assertRaisesRegex(registryd.BadRequirement, told) as caught:
                registry.resolve({"a": "*", "b": "==1"})
        self.assertEqual(caught.exception.request, Resolve({"a": "*", "b": "==1"}))

    def test_what_no_text_is_at_fault_for(self):
        with self.open() as registry:
            registry.publish("a", "1.0.0", {"b": "*"})
            with self.assertRaisesRegex(registryd.BudgetSpent, "^BudgetSpent: The search .*, at revision 1$") as caught:
                registry.resolve({"a": "*"}, budget=0)
        self.assertIsNone(caught.exception.culprit)

    def test_a_refusal_may_go_to_another_process(self):
        there = pickle.loads(pickle.dumps(registryd.BadName(3, "", Yank("A", "1.0.0"))))
        self.assertEqual((type(there), there.revision, there.culprit.meant), (registryd.BadName, 3, "a"))

    def test_that_nothing_is_selected_is_false_and_tells_so(self):
        with self.open() as registry:
            nothing, selected = registry.resolve({"zed": "*"}), registry.resolve({})
            self.assertEqual(registry.ask(Resolve({"zed": "*"})).result(SECONDS).request, Resolve({"zed": "*"}))
        self.assertEqual((bool(nothing), bool(selected), nothing, nothing.request),
                         (False, True, NoSelection(0), Resolve({"zed": "*"})))
        with self.assertRaisesRegex(NothingSelected, "^no selection meets the request at revision 0: .* explain=True"):
            nothing.selected

    def walked(self, registry, needs, lock=()):
        """The nodes of a refusal's tree, each once, the root first."""
        nodes, open_nodes = {}, [registry.resolve(needs, lock, explain=True).tree()]
        while open_nodes:
            node = open_nodes.pop()
            if id(node) not in nodes:
                nodes[id(node)] = node
                open_nodes += reversed(getattr(node, "causes", ()))
        return list(nodes.values())

    def test_the_tree_of_a_refusal(self):
        with self.open() as registry:
            for name, version, needs in (("log", "1.0.0", {}), ("log", "1.1.0", {}), ("app", "1.0.0", {"log": "^2"}),
                                         ("old", "1.0.0", {}), ("yet", "1.0.0", {"log": "=1.1"})):
                registry.publish(name, version, needs)
            registry.yank("old", "1.0.0")
            never, dependency, need = self.walked(registry, [("app", "^1")])
            self.assertEqual(vars(dependency), vars(External("premise", "app", ("1.0.0",), "log", "^2", ())))
            self.assertEqual(vars(need), vars(External("need", target="app", requirement="^1", within=("1.0.0",))))
            self.assertEqual((never.terms, never.causes), ({"": (True, ())}, (dependency, need)))
            kinds = {it.kind: it for it in self.walked(registry, {"old": "*"}) if isinstance(it, External)}
            self.assertEqual(kinds["disallowed"].versions, ("1.0.0",))
            inner = [it for it in self.walked(registry, {"yet": "*", "log": "=1.0.0"}) if isinstance(it, External)
                     and it.kind == "premise"]
            self.assertEqual([vars(it) for it in inner],
                             [vars(External("premise", "yet", ("1.0.0",), "log", "=1.1", ("1.1.0",)))])
            with self.assertRaisesRegex(ValueError, "explain=True"):
                registry.resolve({"app": "^1"}).tree()

    def test_a_refusal_is_told_in_sentences(self):
        self.assertGreater(len(EXPLAINED), 10)
        for explanation, sentences in EXPLAINED:
            with self.subTest(explanation=explanation):
                self.assertEqual(tree(explanation).sentences(), sentences)
        with self.open() as registry:
            registry.publish("app", "1.0.0", {"log": ">=2, <3"})
            self.assertEqual(registry.resolve({"app": "^1"}, explain=True).tree().sentences(), [
                'Because app 1.0.0 depends on log ">=2, <3" and no version of log matches ">=2, <3" '
                'and the request depends on app ^1, resolving failed.'])

    def test_each_sentence_follows(self):
        count = 0
        for seed in range(60):
            rng = random.Random(seed)
            commands, _ = tangle(rng)
            registry = registry_of(commands, {it["name"] for it in commands})
            requests = [{**tangle(rng)[1], "explain": True} for _ in range(12)]
            replies = serve([json.dumps(it) for it in [*commands, *requests]])[len(commands):]
            for request, reply in zip(requests, map(json.loads, replies)):
                if "refused" in reply:
                    told = [re.fullmatch(r"(.*\.)(?: \((\d+)\))?", it).groups()
                            for it in tree(reply["explanation"]).sentences()]
                    steps = [(number and int(number), text) for text, number in told]
                    concluded = Reader(registry, request).read(steps)
                    self.assertEqual((len(concluded), concluded[-1]), (len(reply["derivation"]), {}))
                    count += 1
        self.assertGreater(count, 300)

    def test_what_is_no_explanation(self):
        for line in ("", "1. never ()", "1. never (), because the request must be met",
                     "1. never (), because a has b and the request must be met"):
            with self.subTest(line), self.assertRaisesRegex(ValueError, "^this is no step of an explanation: "):
                tree([line, "So no selection meets the request."])

    def test_a_tree_that_is_deep(self):
        # each version is ruled out for a reason of its own, so a line rests on the line before it
        with self.open() as registry:
            accepted(registry, [Publish("a", f"{number}.0.0", {f"n{number}": "*"}) for number in range(1500)])
            nodes = self.walked(registry, {"a": "*"})
            self.assertEqual({it.target for it in nodes if isinstance(it, External) and it.kind == "premise"},
                             {f"n{number}" for number in range(1500)})
            self.assertIn("Derived", repr(nodes[0]))
