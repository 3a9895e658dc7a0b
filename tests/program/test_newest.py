"""The newest selection by its definition: worked cases, what follows from it over random registries, and the tool that
judges a program by it."""
import json
import random
import unittest
from pathlib import Path

from dev.long import newest_many
from tests.support.plain_newest import Published
from tests.support.program import TOP
from tests.support.small_registries import small_case

# What each shows; what is published, as texts `name version: need, need`, with what is yanked; the needs, the lock; and
# the newest selection, worked by hand.
WORKED = json.loads(Path(TOP, "tests", "support", "data", "newest.json").read_text(encoding="ascii"))


def publication(text):
    version, _, needs = text.partition(": ")
    name, number = version.split(" ")
    return {"op": "publish", "name": name, "version": number,
            "needs": [need.split(" ", 1) for need in needs.split(", ") if need]}


def pairs(texts):
    return [text.split(" ", 1) for text in texts]


def worked(published, yanked, needs, lock):
    """The commands and the request of a worked case."""
    commands = [publication(text) for text in published]
    commands += [{"op": "yank", "name": name, "version": version} for name, version in pairs(yanked)]
    return commands, {"op": "resolve", "needs": pairs(needs), "lock": pairs(lock)}


def made(commands):
    registry = Published()
    for command in commands:
        registry.apply(command)
    return registry


class Worked(unittest.TestCase):
    def test_each_worked_case(self):
        for told, published, yanked, needs, lock, wanted in WORKED:
            with self.subTest(told):
                commands, request = worked(published, yanked, needs, lock)
                selection = None if wanted is None else pairs(it for it in wanted.split(", ") if it)
                registry = made(commands)
                self.assertEqual(registry.newest(request["needs"], request["lock"]), selection)
                self.assertEqual(registry.first_found(request["needs"], request["lock"]), selection)


class Defined(unittest.TestCase):
    """What follows from the definition, over random registries."""

    @classmethod
    def setUpClass(cls):
        cls.cases = []
        for seed in range(200):
            case = small_case(random.Random(seed))
            registry = made(case.commands)
            needs, lock = case.request["needs"], case.request.get("lock", [])
            cls.cases.append((seed, case, registry, needs, lock, registry.newest(needs, lock)))

    def test_a_search_that_goes_back_step_by_step_ends_there(self):
        met = 0
        for seed, _, registry, needs, lock, newest in self.cases:
            self.assertEqual(registry.first_found(needs, lock), newest, seed)
            met += newest is not None
        self.assertGreater(min(met, len(self.cases) - met), 30)

    def test_the_preferred_selection_is_the_newest_where_it_serves(self):
        serves = other = 0
        for seed, _, registry, needs, lock, newest in self.cases:
            preferred = registry.preferred_selection(needs, lock)
            if preferred in registry.selections(needs, lock):
                self.assertEqual(newest, preferred, seed)
                serves += 1
            elif newest is not None:
                other += 1
        self.assertGreater(serves, 50)
        self.assertGreater(other, 8)

    def test_what_was_selected_stays_where_it_is_the_lock(self):
        for seed, case, _, needs, _, newest in self.cases:
            if newest is not None:
                yanks = [{"op": "yank", "name": name, "version": version} for name, version in newest]
                self.assertEqual(made([*case.commands, *yanks]).newest(needs, newest), newest, seed)

    def test_the_order_of_the_needs_and_of_the_lock_is_nothing(self):
        for seed, _, registry, needs, lock, newest in self.cases:
            self.assertEqual(registry.newest(needs[::-1], lock[::-1]), newest, seed)

    def test_a_yank_of_what_is_not_selected_changes_nothing(self):
        tried = 0
        for seed, case, _, needs, lock, newest in self.cases:
            if newest is None:
                continue
            rng = random.Random(seed)
            command = rng.choice([it for it in case.commands if it["op"] == "publish"])
            name, version = command["name"], command["version"]
            if [name, version] not in newest:
                yanked = made([*case.commands, {"op": "yank", "name": name, "version": version}])
                self.assertEqual(yanked.newest(needs, lock), newest, seed)
                tried += 1
        self.assertGreater(tried, 50)

    def test_a_publication_changes_it_only_to_a_selection_that_has_it(self):
        changed = tried = 0
        for seed, case, _, needs, lock, newest in self.cases:
            *before, last = [it for it in case.commands if it["op"] == "publish"]
            yanks = [it for it in case.commands
                     if it["op"] == "yank" and (it["name"], it["version"]) != (last["name"], last["version"])]
            earlier, later = (made([*some, *yanks]).newest(needs, lock) for some in (before, [*before, last]))
            tried += 1
            if earlier != later:
                self.assertIn([last["name"], last["version"]], later, seed)
                changed += 1
        self.assertGreater(changed, 12)
        self.assertGreater(tried - changed, 12)


class Anyhow(Published):
    """Some selection: the first that is found of all."""

    def newest(self, needs, lock):
        return next(iter(self.selections(needs, lock)), None)


def served_by(kind):
    """What answers lines as a session does, by the selections of such a registry. Each case has a registry of its
    own."""
    def serve(lines, _workers):
        registries, replies = {}, []
        for line in lines:
            number = (line["name"] if "name" in line else line["needs"][0][0]).rpartition("-")[2]
            registry = registries.setdefault(number, kind())
            if line["op"] == "resolve":
                found = registry.newest(line["needs"], line.get("lock", []))
                replies.append(json.dumps({"refused": True} if found is None else {"selected": found}))
            else:
                registry.apply(line)
                replies.append("{}")
        return replies
    return serve


class Judged(unittest.TestCase):
    """What `newest_many` tells of programs that answer rightly, or not."""

    # among them cases in which something else is selected than the newest
    SEEDS = (5_004, 5_013, 5_038, 5_039, 5_053, 5_060, 5_076, 5_081)

    def test_the_newest_selection_is_no_find(self):
        self.assertEqual(newest_many.faults(self.SEEDS, served_by(Published)), [])

    def test_each_other_selection_is_a_find(self):
        found = newest_many.faults(self.SEEDS, served_by(Anyhow))
        self.assertGreater(len(found), 0)
        self.assertRegex(found[0], r"seed \d+, \w.*: .* is answered, and .* is the newest")

    def test_a_refusal_of_what_can_be_met_is_a_find(self):
        def refuses(lines, _workers):
            return ['{"refused":true}' for _ in lines]
        self.assertEqual(len(newest_many.faults(self.SEEDS, refuses)), 3 * len(self.SEEDS))
