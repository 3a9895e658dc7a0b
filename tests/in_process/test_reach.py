"""What docs/THEOREMS.md and docs/MAP.md promise of a call is promised of a call that is made: by the program, by the
example `team`, or by who uses one of the calls that docs/USING.md lists.

Each call without a table of rows is one whose contract says all of it: the clauses that are named stand at the call,
and a program makes the call, so that its lines and `test_memory.py` show that it answers where there is memory, and
gives up where there is none."""
import re
import unittest

from tests.support.program import TOP, read
from tests.support.public_calls import clauses, said_by_clauses, that_take_memory
from tests.support.source_calls import Sources, sources_below

ENTRY = re.compile(r"\[`([^`]+)`\]\(\.\./crates/([^)#]+\.rt)\)")
NAME = re.compile(r"`((?:[A-Z]\w*::)?\w+)`")
# no program stands on these
OF_TESTS = ("probe", "rows")
# the program, and the example that the probe runs
BEGINNINGS = {("registryd/src/main.rt", "main"), ("probe/src/team.rt", "run")}


def entries(using, sources):
    """The calls that a page lists for who uses the crates."""
    table = using.partition("| Call | Costs")[2]
    return {one for name, path in ENTRY.findall(table) for one in sources.find(name) if one.path == path}


def made(sources, *more):
    """What calls come to that begin in the program, in the example, or here."""
    return sources.reached({one for one in sources.calls if (one.path, one.name) in BEGINNINGS}.union(*more))


def named(text, sources):
    """The functions of the crates that a page names, by the name that it has for them; laws are no calls."""
    for name in sorted(set(NAME.findall(text))):
        found = {one for one in sources.find(name) if one.crate not in OF_TESTS}
        if found and not found & sources.laws:
            yield name, found


def unreached(text, using, sources):
    """What a page names and no call comes to."""
    reached = made(sources, entries(using, sources))
    return [name for name, found in named(text, sources) if not found & reached]


class Reach(unittest.TestCase):
    @classmethod
    def setUpClass(cls):
        cls.texts = sources_below(TOP)
        cls.sources = Sources(cls.texts)
        cls.using = read("docs", "USING.md")

    def test_each_call_that_the_pages_name_is_made(self):
        for name in ("THEOREMS.md", "MAP.md"):
            with self.subTest(name):
                assert unreached(read("docs", name), self.using, self.sources) == []
                assert len(list(named(read("docs", name), self.sources))) > 60

    def test_a_call_that_is_taken_out_is_missed(self):
        """Each of these is called in one file alone."""
        for path, call in (("registryd/src/main.rt", "run_program"), ("registryd/src/run_command.rt", "serve_durably"),
                           ("registryd/src/recovered.rt", "recover_session")):
            with self.subTest(call):
                text, count = re.subn(rf"\b{call}\(", f"not_{call}(", self.texts[path])
                assert count > 0
                assert unreached(f"`{call}`", "", Sources(self.texts | {path: text})) == [call]

    def test_each_clause_stands_at_its_call(self):
        there = clauses()
        for name, said in said_by_clauses():
            with self.subTest(name):
                assert said
                assert set(said) <= there[name]

    def test_the_list_is_in_order_and_has_calls_that_take_memory_and_are_made(self):
        names = [name for name, _ in said_by_clauses()]
        assert names == sorted(set(names))
        assert set(names) <= that_take_memory()
        assert set(names) <= {one.full_name for one in made(self.sources)}
