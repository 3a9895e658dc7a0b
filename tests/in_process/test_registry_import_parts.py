"""What `registry import` tells of packages that are requested alone, over a session that answers as it is told to."""
import unittest
from types import SimpleNamespace

from registry_cli.commands import import_index as alone


def premise(name, target, need, *within):
    return {"fact": "premise", "name": name, "need": need, "target": target, "versions": [0], "within": list(within)}


def refused(*rows):
    return {"refused": True, "derivation": [{"causes": row} for row in rows]}


class Requested(unittest.TestCase):
    TWO = "two versions of {} are needed, and a selection has one"
    ROOT, NEED = {"fact": "root"}, {"fact": "need", "index": 0}

    def test_what_stands_in_the_way(self):
        for reply, wanted in (
            ({"selected": []}, []), ({"error": 22, "name": "BudgetSpent"}, ["no answer within 100 conflicts"]),
            ({"error": 18, "name": "OutOfMemory"}, ["OutOfMemory"]),
            (refused([premise("a", "b", "^9"), self.NEED]), ['no version of b meets "^9"']),
            (refused([premise("a", "c", "^1", 0), premise("b", "c", "^2", 1, 2)], [{"line": 1}, self.NEED]),
             [self.TWO.format("c")]),
            # what has a version in common is in nobody's way
            (refused([premise("a", "c", ">=1", 0, 1), premise("b", "c", "^2", 1)],
                     [premise("a", "d", "*"), premise("b", "d", "^1")]),
             ['no version of d meets "*"', 'no version of d meets "^1"']),
            (refused([{"fact": "disallowed", "name": "y", "versions": [0]}, premise("a", "y", "*", 0)]),
             ["versions of y are yanked"]),
            (refused([{"fact": "disallowed", "name": "y", "versions": [0]}, premise("a", "z", "^1")]),
             ['no version of z meets "^1"']),
            (refused([premise("a", "b", "^9"), premise("c", "b", "^9")]), ['no version of b meets "^9"']),
            (refused([self.NEED, self.ROOT]), []),
        ):
            assert alone.obstacles(reply) == wanted, reply

    def made(self, replies):
        asked = []
        session = SimpleNamespace(each=lambda requests: asked.extend(requests)
                                  or iter(replies[it["needs"][0][0]] for it in requests))
        return alone.Alone(session, list(replies)), asked

    def test_how_many_resolve_alone(self):
        lacking = [premise("a", "b", "^9"), self.NEED]
        none, two = refused(lacking), refused([premise("a", "c", "^1", 0), premise("b", "c", "^2", 1)], lacking)
        made, asked = self.made({"p": none, "q": {"selected": []}, "r": two, "s": none})
        assert asked[1] == {"op": "resolve", "needs": [["q", "*"]], "explain": True, "budget": 100}
        assert list(made.lines()) == ["resolve alone: 1 of 4 crates",
                                      'in the way: no version of b meets "^9": 3 (first: p)',
                                      f"in the way: {self.TWO.format('c')}: 1 (first: r)"]
        assert made.value() == {"requested": 4, "selected": 1,
                                "in_the_way": [{"what": 'no version of b meets "^9"', "packages": ["p", "r", "s"]},
                                               {"what": self.TWO.format("c"), "packages": ["r"]}]}
        assert list(self.made({})[0].lines()) == ["resolve alone: 0 of 0 crates"]
        many = self.made({f"p{number}": refused([premise("a", f"b{number}", "^9")]) for number in range(9)})[0]
        assert (len(list(many.lines())), len(many.value()["in_the_way"])) == (6, 9)

    def test_of_many_some_are_requested(self):
        for count, requested in ((2_000, 2_000), (2_001, 1_001), (50_000, 2_000)):
            made, asked = self.made({f"p{number}": {"selected": []} for number in range(count)})
            assert (len(asked), asked[-1]["needs"][0][0][1:] > str(count - 30)) == (requested, True)
            some = "" if count == requested else f" that were requested, of {count}"
            assert list(made.lines()) == [f"resolve alone: {requested} of {requested} crates{some}"]
