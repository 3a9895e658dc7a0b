"""A refusal that nobody asks to explain: it comes where one that is explained does, and offers the same to be learnt;
so sessions that ask why and sessions that don't learn the same, also of requests that are asked again and again. A
refusal by many steps teaches nothing, and no line is made for each of its steps, which shows in how often memory is
asked for."""
import json
import random
import unittest

import pytest

from bench import workloads
from tests.support import row_tables
from tests.support.generated_rows import entered, row
from tests.support.preloaded import REFUSE_MEMORY, built, each_refused
from tests.support.program import PROBE, publish, resolve, run
from tests.support.registry_folder import pigeons
from tests.support.small_registries import Maker
from tests.support.teaching import TEACHING

ASKED = 6  # so often each request is asked for in a session


def of_pigeons(count):
    """Pigeons in one hole less, which is refused after some hundred conflicts, and a request for all of them."""
    lines, birds = pigeons(count)
    return lines, [resolve(*(f"{bird} *" for bird in birds))]


def can_hold(formula):
    """Whether some values make each clause true: one literal of the shortest clause is tried after the other."""
    if not formula:
        return True
    for variable, value in min(formula, key=len):
        left = [clause for clause in formula if (variable, value) not in clause]
        if can_hold([[it for it in clause if it != (variable, 1 - value)] for clause in left]):
            return True
    return False


def formulas(size, seed, count):
    """The requests of `sat`, and how many of them have no selection: those whose formula can't hold."""
    rng = random.Random(seed)
    return *workloads.sat(size, seed, count), sum(not can_hold(workloads.clauses(size, rng)) for _ in range(count))


def small(seeds, count):
    """Small random registries, each with some requests."""
    for seed in seeds:
        made = Maker(random.Random(seed))
        yield [json.dumps(it) for it in made.commands()], [json.dumps(made.request()) for _ in range(count)], None


def solving(line, **more):
    asked = json.loads(line)
    return row("solver", "solve_with", needs=asked["needs"], lock=asked.get("lock", []), **more)


def alike(lines, requests, wanted):
    """Asks each request both ways; answers for each that is refused how many steps its derivation has, and whether
    something is offered."""
    calls = [solving(request, explain=explain) for request in requests for explain in (True, False)]
    asked = [row_tables.BEGIN, *(json.dumps({name: it for name, it in line.items() if name != "gives"})
                                 for line in [*entered(lines), *calls])]
    told, told_of = row_tables.answers([PROBE], asked)[1 + len(lines):], []
    for explained, plain, call in zip(told[::2], told[1::2], calls[::2]):
        if "derivation" in explained:
            assert plain == {"selected": None, "offered": explained["offered"]}, call
            told_of.append((len(explained["derivation"]), bool(plain["offered"])))
        else:
            assert plain == explained, call
    assert wanted in (None, len(told_of))
    return told_of


def test_long_searches():
    """A refusal offers something just where it is short: each of these follows from what versions need, and from needs
    of the request alone."""
    towers = workloads.towers(6)
    searches = [(*of_pigeons(8), 1), formulas(30, 1, 6), formulas(40, 2, 4), (*towers, len(towers[1]))]
    told_of = [it for search in searches for it in alike(*search)]
    assert [offering for _, offering in told_of] == [steps <= TEACHING for steps, _ in told_of]
    # both kinds are there: pigeons take many steps in any order, and the lowest storey of towers takes few
    assert {offering for _, offering in told_of} == {True, False}


def test_small_registries():
    told_of = [it for case in small(range(150), 4) for it in alike(*case)]
    assert len(told_of) > 100 and sum(offering for _, offering in told_of) > 20


class Lines(unittest.TestCase):
    def test_no_line_is_made_for_each_step(self):
        lines, (asked,) = of_pigeons(8)
        library, asks = built(type(self), REFUSE_MEMORY), []
        for explain in (True, False):
            given = [row_tables.BEGIN, *map(json.dumps, [*entered(lines), solving(asked, explain=explain)])]
            (told,) = each_refused(library, [PROBE], "".join(f"{line}\n" for line in given).encode(), range(1))
            asks.append(told.requests)
        self.assertLess(asks[1], asks[0] * 2 / 3, asks)


def session(folder, lines, requests, explain):
    """What a session is told of requests, each answered alone, and the lines of what it learns."""
    # an empty line ends what is answered together
    asked = ["\n" + json.dumps({**json.loads(it), "explain": explain}) for it in requests] * ASKED
    journal = folder / "journal"
    done = run(["serve", "--workers", "1", "--save", str(journal)],
               "".join(f"{it}\n" for it in [*lines, *asked]).encode())
    assert (done.returncode, done.stderr) == (0, b""), done
    return done.stdout.decode().splitlines(), [line for line in journal.read_text().splitlines()
                                               if '"op":"learn"' in line]


def unless_all(lines, requests):
    """What asks for as much as a request, if that can be had; else for nothing. Its budget has it searched for."""
    top = json.dumps({**json.loads(publish("top", "2.0.0")), "needs": json.loads(requests[0])["needs"]})
    return [*lines, publish("top", "1.0.0"), top], [resolve("top *", budget=1_000_000)]


HARD = [of_pigeons(5), of_pigeons(6), workloads.sat(20), workloads.sat(30, 2, 3), workloads.towers(6)]


# what is asked, how many refusals there are, and how many lines are learnt, at least; none is learnt of what is refused
# by hundreds of conflicts, each of which takes several steps
@pytest.mark.parametrize("registries, refusals, lines", [
    (HARD, 31, 61), ([of_pigeons(8)], ASKED, 0), ([unless_all(*of_pigeons(8))], 0, 21),
    (list(small(range(40), 3)), 101, 11)],
    ids=["hard requests", "a long refusal", "a selection after as long a search", "small registries"])
def test_sessions_learn_the_same(registries, refusals, lines, tmp_path):
    refused = learnt = 0
    for published, requests, *_ in registries:
        replies, plain = session(tmp_path, published, requests, False)
        _, explained = session(tmp_path, published, requests, True)
        assert plain == explained
        refused, learnt = refused + sum('"refused":true' in it for it in replies), learnt + len(plain)
    assert refused >= refusals and learnt >= lines
    assert bool(refused) == bool(refusals) and bool(learnt) == bool(lines)
