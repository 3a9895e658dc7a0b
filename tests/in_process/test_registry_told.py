"""What subcommands tell of what they found, in one process: what holds a version back, what a renewal leaves out."""
from types import SimpleNamespace
from unittest import mock

from registry_cli.commands import journal_renew, outdated
from registry_cli.derivation import Dependency, Fact
from registry_cli.failures import Refused

NOW = {"app": "1.0.0", "log": "1.0.0", "old": "1.0.0", "web": "1.0.0", "zlib": "1.0.0"}


def depends(name, target):
    return Dependency(f"{name} 1", (name, frozenset({1})), target, "^1", frozenset())


class TestHeldBack:
    def told(self, nearest, needs=(("app", "^1"),), reply=None):
        """What is told of zlib 2.0.0, where this is the nearest selection that has it."""
        asked = []

        def again(question):
            asked.append(question.request["needs"])
            if isinstance(reply, Refused):
                raise reply
            return reply or {"selected": []}
        case = SimpleNamespace(request={"needs": [list(it) for it in needs], "lock": []}, again=again,
                               nearest=lambda question, selected, reply: nearest)
        return outdated.held_back(case, "zlib", "2.0.0", NOW), asked

    def test_what_changes_with_it(self):
        newer = {**NOW, "zlib": "2.0.0"}
        a, w = "app 1.0.0 -> 2.0.0 (beyond ^1.0.0)", "web 1.0.0 -> 1.1.0"
        went = {name: text for name, text in newer.items() if name != "old"}
        more = {"app": "2.0.0", "log": "0.9.0", "web": "1.1.0"}
        for nearest, told in (({**newer, "app": "2.0.0"}, f"with it {a}"),
                              ({**newer, "app": "2.0.0", "web": "1.1.0"}, f"with it {a}; {w}"),
                              ({**went, "web": "1.1.0"}, f"with it old 1.0.0; {w}"),
                              ({**newer, **more, "new": "1.0.0"}, f"with it {a}; log 1.0.0 -> 0.9.0 (older); 1 more"),
                              ({**went, **more}, f"with it {a}; log 1.0.0 -> 0.9.0 (older); 2 more")):
            assert self.told(nearest) == (told, [[["app", "^1"], ["zlib", "=2.0.0"]]])

    def test_the_request_and_what_is_not_found_out(self):
        assert self.told({}, (("zlib", "^1"), ("app", "^1"))) == ("the request depends on zlib ^1", [])
        assert self.told({**NOW, "log": "1.1.0"}, (("zlib", ">=1"),)) == ("with it log 1.0.0 -> 1.1.0",
                                                                          [[["zlib", "=2.0.0"]]])
        assert self.told({}, reply=Refused("too long"))[0] == "not known: too long"

    def test_which_facts_are_told_first(self):
        # those on the package, its own, what is missing there, those on what it depends on, and then others
        last, met, own, on_it = (depends(*pair.split()) for pair in ("x y", "web log", "zlib log", "app zlib"))
        lacking = Fact("no version of log matches ^9", ("log", "^9"), ("log",))
        other = Fact("every version of log is yanked")
        steps = [SimpleNamespace(facts=lambda facts=facts: facts)
                 for facts in ([last, met, other], [lacking, own, last], [on_it, on_it])]
        derivation = SimpleNamespace(reached=lambda: steps)
        told = ["app 1 depends on zlib ^1", "zlib 1 depends on log ^1",
                "no version of log matches ^9", "web 1 depends on log ^1", "x 1 depends on y ^1"]
        for most, wanted in ((9, told), (5, told), (4, [*told[:4], "1 more"]), (2, [*told[:2], "3 more"])):
            with mock.patch.object(outdated, "MOST_TOLD", most):
                assert outdated.facts(derivation, "zlib") == wanted


class TestRenewed:
    def told(self, left, count, locks=(), learnt=0, kept=1234):
        releases = {(name, number): None for name, versions in left.items() for number in range(len(versions) + 1)}
        releases |= {("kept", number): None for number in range(count - len(releases))}
        return list(journal_renew.in_words("new", SimpleNamespace(revision=5678, learnt=learnt), range(kept),
                                           releases, locks, left))

    def test_in_words(self):
        locks = [SimpleNamespace(path="a.lock", is_selected=True, keys=range(1500)),
                 SimpleNamespace(path="b.lock", is_selected=False, keys=range(2))]
        assert self.told({}, 7) == ["new is written: 1,234 commands in place of 5,678", "left out: 0 of 7 versions"]
        assert self.told({"a": ["1.0.0"], "b": [str(number) for number in range(1999)]}, 3000, locks, 1001) == [
            "new is written: 1,234 commands in place of 5,678",
            "a.lock: selected as it is, 1,500 packages", "b.lock: selected as before, which is not what it names",
            "left out: 2,000 of 3,000 versions, and 1,001 learnt:",
            "  a: 1.0.0", "  b: 0 to 1998, 1999 of 2000 versions"]

    def test_of_many_packages(self):
        left = {f"p{number}": ["1"] for number in range(20)}
        assert len(self.told(left, 100)) == 22
        assert self.told({**left, "q": ["1"], "r": ["1"]},
                         100)[-2:] == ["  p19: 1", "  and versions of 2 packages more (--json tells all)"]
