"""How `registry why --not` asks for certain versions, in one process: the request or the session that a question is put
in, and the walk of a selection. The sessions are made up."""
import contextlib
import json
import unittest
from types import SimpleNamespace
from unittest import mock

from registry_cli import questions
from registry_cli.check_derivation import ROOT
from registry_cli.failures import Refused
from registry_cli.questions import Question, Retold, bundled, reached
from registry_cli.packages import is_preferred, walk
from tests.support.program import publish, yank


def values(*lines):
    return [json.loads(line) for line in lines]


def request(needs, lock=(), **more):
    return {"op": "resolve", "needs": [need.split(" ", 1) for need in needs],
            "lock": [line.split(" ", 1) for line in lock], **more}


class Asked(unittest.TestCase):
    def test_needs_in_place_of_the_request_s_own(self):
        made = Question(request(["a ^1", "b *", "c ^2"], explain=True), {"b": "1.0.0+x", "d": "2.0.0-rc.1"})
        self.assertEqual((made.request["needs"], made.request["explain"], made.barring),
                         ([["a", "^1"], ["c", "^2"], ["b", "=1.0.0"], ["d", "=2.0.0-rc.1"]], True, set()))
        self.assertTrue(made.is_plain())

    def test_a_version_that_is_too_long_for_a_requirement(self):
        with mock.patch.object(questions, "MOST_REQUIREMENT_BYTES", 10):
            made = Question(request(["a ^1"]), {"b": "1.0.0-rc.1", "c": "1.0.0-rc1", "d": "1.2.3-4567+x"})
        self.assertEqual((made.request["needs"], made.barring),
                         ([["a", "^1"], ["b", ">=1.0.0-0"], ["c", "=1.0.0-rc1"], ["d", ">=1.2.3-0"]], {"b", "d"}))
        self.assertFalse(made.is_plain())

    def test_more_needs_than_a_request_may_have(self):
        for count, is_plain in ((63, True), (64, False)):
            self.assertEqual(Question(request([f"p{number} *" for number in range(count)]), {"a": "1.0.0"}).is_plain(),
                             is_plain)

    def test_needs_that_packages_are_made_for(self):
        needs, one = [[name, "*"] for name in "abcde"], "=1.0.0"
        with mock.patch.object(questions, "MOST_NEEDS", 2):
            self.assertEqual(bundled(needs[:2], []), (needs[:2], []))
            self.assertEqual(bundled(needs, values(publish("a", "1.0.0", ["x *"]))),
                             ([["made3", one], ["made4", one]], [
                                 {"op": "publish", "name": name, "version": "1.0.0", "needs": part} for name, part in (
                                     ("made0", needs[:2]), ("made1", needs[2:4]), ("made2", needs[4:]),
                                     ("made3", [["made0", one], ["made1", one]]), ("made4", [["made2", one]]))]))
            # no name that is taken is made, by a publication, a need of one or a need that is asked for
            for commands, asked, begin in (([publish("made", "1.0.0")], needs, "made-"),
                                           ([publish("a", "1.0.0", ["made-x *"])], needs, "made--"),
                                           ([], [["made-7", "*"], *needs], "made--"),
                                           ([yank("made", "1.0.0")], needs, "made")):
                self.assertEqual(bundled(asked, values(*commands))[1][0]["name"], begin + "0")

    def test_what_a_question_reaches(self):
        commands = values(publish("a", "1.0.0", ["b ^1"]), publish("d", "1.0.0", ["a *"]),
                          publish("b", "1.0.0", ["c *", "a *"]), yank("b", "1.0.0"), publish("c", "1.0.0"),
                          publish("a", "2.0.0", ["e *"]), publish("e", "1.0.0"))
        for names, wanted in ((["a"], "abbcae"), (["c"], "c"), (["d"], "adbbcae"), (["none"], ""), (["b"], "abbcae"),
                              (["e", "c"], "ce")):
            self.assertEqual("".join(it["name"] for it in reached(commands, names)), wanted, names)
        self.assertEqual([it["op"] for it in reached(commands, ["a"])],
                         ["publish", "publish", "yank", "publish", "publish", "publish"])


class Put(unittest.TestCase):
    COMMANDS = values(publish("a", "1.0.0-rc.1"), publish("a", "1.0.0-rc.2"), publish("a", "1.0.0"), yank("a", "1.0.0"),
                      publish("b", "1.0.0"), publish("z", "1.0.0"))

    def put(self, question, reply, asked):
        """What a question is answered where its session answers this, with the lines and the request of that
        session."""
        told = []

        def over(path, text):
            told.append((path, [json.loads(line) for line in text.splitlines()[1:-1]]))
            return contextlib.nullcontext(SimpleNamespace(ask=lambda it: (told.append(it), [reply])[1]))
        with mock.patch.object(questions, "Over", over):
            return question.put(self.COMMANDS, asked, lambda names: sorted(names)), told

    def test_a_session_of_its_own(self):
        with mock.patch.object(questions, "MOST_REQUIREMENT_BYTES", 10):
            question = Question(request(["b *"]), {"a": "1.0.0-rc.1"})
        asked = {**question.request, "lock": [["a", "1.0.0-rc.1+x"], ["b", "1.0.0"]], "budget": 7}
        answer, ((path, lines), sent) = self.put(question, {"error": 22, "revision": 9}, asked)
        self.assertEqual((answer, path), ({"error": 22, "revision": 9}, "the question"))
        # the other versions are yanked, but for the one that is, and what is not reached is left out
        self.assertEqual([(it["op"], it["name"], it["version"]) for it in lines],
                         [("publish", "a", "1.0.0-rc.1"), ("publish", "a", "1.0.0-rc.2"), ("publish", "a", "1.0.0"),
                          ("yank", "a", "1.0.0"), ("publish", "b", "1.0.0"), ("yank", "a", "1.0.0-rc.2")])
        self.assertEqual(sent, {**asked, "needs": [["b", "*"], ["a", ">=1.0.0-0"]]})
        sent = self.put(question, {"error": 22}, {**asked, "lock": [["a", "1.0.0-rc.2"], ["b", "1.0.0"]]})[1][1]
        self.assertEqual(sent["lock"], [["b", "1.0.0"]])  # a yanked version that the lock names could be selected

    def test_answers_over_packages_that_were_made(self):
        with (mock.patch.object(questions, "MOST_NEEDS", 2), mock.patch.object(questions, "Holding") as judge,
              mock.patch.object(questions, "Retold") as retold):
            retold.return_value.retell = lambda rows: [*rows, "retold"]
            question = Question(request(["b *", "z *"]), {"a": "1.0.0"})
            answer, _ = self.put(question, {"selected": [["a", "1.0.0"], ["b", "1.0.0"], ["made0", "1.0.0"]],
                                            "revision": 9}, question.request)
            self.assertEqual(answer, {"selected": [["a", "1.0.0"], ["b", "1.0.0"]], "revision": 9})
            rows = [{"causes": [{"fact": "need", "index": 0}], "conclusion": [["made0", True, [0]], ["b", False, [0]]],
                     "pivot": "made1"}]
            with mock.patch.object(questions, "named", lambda it, derivation: {"a", "b", "made0"} if derivation is rows
                                   else None):
                answer, _ = self.put(question, {"refused": True, "derivation": rows, "revision": 9}, question.request)
            self.assertEqual(answer, {"refused": True, "derivation": [*rows, "retold"], "revision": 9})
            judge.assert_called_once_with(["a", "b"], {"explain": True, "budget": 0, **question.request},
                                          {"a": "1.0.0"})
            self.assertEqual(retold.call_args.args[0], judge.return_value)
            self.assertEqual(retold.call_args.args[1:], (["made0", "made1"], {"made0", "made1"}))

    def test_more_commands_than_a_session_takes(self):
        question = Question(request(["b *"]), {"a": "1.0.0"})
        for most, is_put in ((5, True), (4, False)):
            with mock.patch.object(questions, "MOST_COMMANDS", most):
                if is_put:
                    self.put(question, {"error": 22}, question.request)
                else:
                    self.assertRaisesRegex(Refused, r"\Athe question takes 5 commands; the limit of a session is 4\Z",
                                           self.put, question, {}, question.request)


class ToldBack(unittest.TestCase):
    """A derivation over made0, which depends on b, and made1, on a, told over a and b alone."""
    A_ON_B = {"fact": "dependency", "name": "a", "target": "b"}

    def setUp(self):
        # each cause has a term of each package that is a pivot here, and what two give is always the same
        self.terms = {"a": (True, frozenset({0})), ROOT: (True, frozenset({0}))}
        self.judge = SimpleNamespace(needs=[("a", "^1"), ("b", "^1")], conclusions=[],
                                     registry=SimpleNamespace(numbers={"a": 1, "b": 0}), cause=lambda _: self.terms)
        self.given = {"a": (True, frozenset({2, 1})), "b": (False, frozenset({0}))}
        self.enterContext(mock.patch.object(questions, "resolve", lambda *_: self.given))

    def retold(self, *rows, asked=("made0",)):
        rows = [{"causes": [first, second], "pivot": pivot} for first, second, pivot in rows]
        retold = Retold(self.judge, [*asked], {"made0", "made1"}).retell(rows)
        return [(*it["causes"], it["pivot"], it["conclusion"]) for it in retold]

    def test_lines(self):
        def need(index):
            return {"fact": "need", "index": index}

        def of_made(number, target):
            return {"fact": "dependency", "name": f"made{number}", "target": target}
        first = (need(0), of_made(0, "b"), "made0")
        told = [["b", False, [0]], ["a", True, [1, 2]]]
        rows = [first, ({"line": 1}, self.A_ON_B, "a"), ({"line": 2}, of_made(0, "made1"), "made1"),
                ({"line": 3}, of_made(1, "a"), "made1")]
        self.assertEqual(self.retold(*rows), [(need(1), self.A_ON_B, "a", told), ({"line": 1}, need(0), ROOT, told)])
        self.assertEqual(self.judge.conclusions, [self.given] * 2)
        self.assertEqual(self.retold(*rows[:3]), [(need(1), self.A_ON_B, "a", told)])
        # what the last line says is no line by itself, and a need that is asked for as it is has another place
        self.assertEqual(self.retold(first), [(need(1), {"fact": "root"}, ROOT, told)])
        self.assertEqual(self.retold((need(1), self.A_ON_B, "a"), asked=("made0", "a")),
                         [(need(0), self.A_ON_B, "a", told)])

    def test_what_one_of_two_causes_gives_alone(self):
        made = Retold(self.judge, [], set())
        one, other = {"fact": "one"}, {"fact": "other"}
        for first, second, wanted in ((None, None, None), (one, None, one), (None, other, other)):
            self.assertEqual(made.line(first, second, "a"), wanted)
        self.judge.cause = lambda it: self.terms if it is one else {"b": (True, frozenset({0}))}
        self.assertEqual((made.line(one, other, "a"), made.line(one, other, "b"), made.line(other, one, ROOT),
                          made.rows), (other, one, other, []))


class Walks(unittest.TestCase):
    def test_the_order_in_which_packages_are_asked_for(self):
        needs = {("d", "1"): {"c": 0, "a": 0}, ("b", "2"): {"d": 0, "e": 0}, ("c", "1"): {}, ("a", "1"): {"b": 0},
                 ("e", "1"): {}}
        registry = SimpleNamespace(find=lambda name, version: SimpleNamespace(needs=needs[name, version]))
        selected = {"a": "1", "b": "2", "c": "1", "d": "1", "e": "1"}
        # first the needs by name, and then what each listed one depends on, in its own order
        for asked, wanted in ((["d", "b"], "bdeca"), (["e"], "e"), (["a"], "abdec"), ([], "")):
            self.assertEqual("".join(walk([[name, "*"] for name in asked], selected, registry)), wanted)

    def test_which_version_is_preferred(self):
        for one, other, locked, wanted in (("2.0.0", "1.0.0", None, True), ("1.0.0", "2.0.0", None, False),
                                           ("1.0.0", "1.0.0+b", None, False), ("1.0.0", "2.0.0", "1.0.0+b", True),
                                           ("2.0.0", "1.0.0", "1.0.0", False),
                                           ("2.0.0", "1.0.0", "3.0.0", True), ("1.0.0", "1.0.0", "1.0.0", False),
                                           ("1.10.0", "1.9.0", None, True), ("1.0.0-rc.1", "1.0.0", None, False),
                                           ("1.0.0-b", "1.0.0-a", None, True), ("1.0.0", "1.0.0-a", None, True)):
            self.assertIs(is_preferred(one, other, locked), wanted, (one, other, locked))
