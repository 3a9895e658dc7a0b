"""The least budget of conflicts that answers a request: below it the answer is 22, which leaves nothing behind, so at
it the answer is the same as without a budget."""
import json
import random

from tests.support.program import publish, serve
from tests.support.small_registries import Maker
from tests.support.teaching import TEACHING

NAMES, VERSIONS = "abcdefgh", ["1.0.0", "1.1.0", "1.2.0", "1.3.0"]
TIGHT = ["=1.0.0", "=1.1.0", "=1.2.0", ">=1.1.0, <1.3.0", ">=1.2.0", "<1.2.0"]


def tight(rng):
    """Packages whose versions each go with few versions of the others: most requests meet several conflicts."""
    rows = [(name, version) for name in NAMES for version in rng.sample(VERSIONS, rng.choice([2, 3, 4]))]
    rng.shuffle(rows)
    return [publish(name, version, [f"{target} {rng.choice(TIGHT)}" for target in rng.sample(
        [it for it in NAMES if it != name], rng.choice([1, 2]))]) for name, version in rows]


def answers(made, asked):
    """The replies to these requests after these commands."""
    return [json.loads(text) for text in serve([*made, *map(json.dumps, asked)])[len(made):]]


def least_budget(made, request, most, before=()):
    """The least budget that answers a request, behind those before it, of so many at most."""
    under = answers(made, [*before, *({**request, "budget": budget} for budget in range(most))])[len(before):]
    whole = answers(made, [*before, request])[-1]
    least = sum(reply.get("error") == 22 for reply in under)
    assert all(reply.get("error") == 22 for reply in under[:least]), (request, under)
    assert under[least:least + 1] == [whole][:most - least], request
    assert all(("selected" in reply) == ("selected" in whole) for reply in under[least:]), request
    return least


def test_random_requests_have_a_least_budget():
    least = []
    for seed in range(200, 260):
        maker = Maker(random.Random(seed))
        made = [json.dumps(it) for it in maker.commands()]
        least += [least_budget(made, maker.request(), 8) for _ in range(8)]
    assert least.count(0) > 80
    for seed in range(20):
        rng = random.Random(seed)
        made = tight(rng)
        asked = [{"op": "resolve", "needs": [[name, "*"] for name in rng.sample(NAMES, 3)]} for _ in range(4)]
        least += [least_budget(made, request, 12) for request in asked]
    assert sum(conflicts > 1 for conflicts in least) > 8


def test_a_request_of_many_conflicts_has_a_least_budget():
    """No version of one package goes with one of another, which each pair shows by itself. The refusal is short enough
    to teach: that spares the second request all conflicts but one."""
    # Of each version of l, what all versions of r need is joined, a fact of each, and then both of its own needs: as
    # many steps as there are versions, and one more. Then these are joined, and the two needs of the request.
    rows = 6
    steps = rows * (rows + 1) + (rows - 1) + 2
    assert steps <= TEACHING
    made = [publish("x", f"1.{row}.{patch}") for row in range(rows + 1) for patch in range(3)]
    for row in range(rows):
        made += [publish("k", f"1.{row}.0"), publish("l", f"1.{row}.0", [f"x ~1.{row}.0", f"k ~1.{row}.0"]),
                 publish("r", f"1.{row}.0", [f"x ~1.{row + 1}.0", f"k ~1.{row}.0"])]
    request = {"op": "resolve", "needs": [["l", "*"], ["r", "*"]]}
    (told,) = answers(made, [{**request, "explain": True}])
    assert len(told["derivation"]) <= steps
    # nothing follows of l or r alone, so a conflict rules out one version of them, and the last one finds none left
    assert rows <= least_budget(made, request, 60) < 60
    # It is learnt that l and r don't go together, and both are needed, which is a conflict at once. Before the second
    # request there is a listing, since lines that are answered together spare each other nothing.
    assert least_budget(made, request, 60, [request, {"op": "list"}]) == 1
