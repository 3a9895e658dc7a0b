"""The tool that checks derivations: worked refusals, random ones, and all of them damaged."""
import contextlib
import copy
import io
import json
import random
import unittest
from pathlib import Path

from registry_cli import check_derivation
from tests.support import plain_search
from tests.support.damages import KINDS, Damage
from tests.support.program import TOP, publish, resolve, unyank, yank
from tests.support.reference import Registry
from tests.support.refuter import Known, Refuter

DATA = Path(TOP, "tests", "support", "data")
# Worked refusals: what is published, what is asked, the derivation, and how `registry why` tells it.
REFUSALS = json.loads(DATA.joinpath("refusals.json").read_text(encoding="utf-8"))
TANGLED = ["^1.0.0", "^2.0.0", ">=1.1.0", "<2.0.0", "*", "=1.1.0", "^2.0.0-rc.1"]
REQUIREMENTS = [*TANGLED, "^1", "^3.0.0", ">=1.0.0"]  # those that the sessions here publish
NAMES = ["a", "b", "c", "d"]


def worked(name):
    """The lines and the request of a worked refusal, and its derivation, as texts."""
    held = REFUSALS[name]
    derivation = json.dumps(held["derivation"], separators=(",", ":"))
    return [json.dumps(line) for line in held["lines"]], json.dumps(held["request"]), derivation


CHAIN, YANKED, UNKNOWN = worked("chain"), worked("yanked"), worked("unknown")
WORKED = {name: worked(name) for name in ("chain", "either", "yanked", "unknown", "pre-release")}


def rows(name):
    """The rows of a table of this folder."""
    text = DATA.joinpath(name).read_text(encoding="utf-8")
    return [row for row in text.splitlines() if not row.startswith("# ")]


def asked(line):
    return {**json.loads(line), "explain": True}


def refused(derivation, revision):
    return {"derivation": derivation, "explanation": [], "refused": True, "revision": revision}


def session(lines, request, derivation):
    """The requests and the replies of a session that ends with a refusal: the rules answer all other lines."""
    registry, requests = Registry(), [json.loads(it) for it in lines]
    replies = [json.loads(registry.answer(it, REQUIREMENTS)) for it in requests]
    return [*requests, request], [*replies, refused(derivation, registry.revision)]


def said_of(requests, replies, journal=None):
    """What the tool answers and prints of a session."""
    with contextlib.redirect_stdout(io.StringIO()) as printed:
        status = check_derivation.audit(requests, replies, journal)
    return status, printed.getvalue()


class Judged(unittest.TestCase):
    def judge(self, wanted, lines, request, derivation, told=""):
        status, printed = said_of(*session(lines, request, derivation))
        self.assertEqual(status, wanted, f"{told}\n{printed}{json.dumps(request)}\n{json.dumps(derivation)}")
        self.assertEqual(printed.count("\n"), 1)
        self.assertIn(" follows\n" if wanted == 0 else " does not follow: ", printed)
        return printed

    def judge_each(self, wanted, lines, refusals):
        """The same of all refusals that one session ends with, each a request, its derivation, and what is told where
        it fails."""
        requests, replies = session(lines, *refusals[0][:2])
        for request, derivation, _ in refusals[1:]:
            requests.append(request)
            replies.append(refused(derivation, replies[-1]["revision"]))
        status, printed = said_of(requests, replies)
        for (request, derivation, told), said in zip(refusals, printed.splitlines(), strict=True):
            self.assertIn(" follows" if wanted == 0 else " does not follow: ", said,
                          f"{told}\n{json.dumps(request)}\n{json.dumps(derivation)}")
        self.assertEqual(status, wanted)


class Worked(Judged):
    def test_they_follow(self):
        for name, (lines, request, derivation) in WORKED.items():
            self.judge(0, lines, asked(request), json.loads(derivation), name)

    def test_they_follow_of_no_other_request(self):
        for name, (lines, _, derivation) in WORKED.items():
            self.judge(1, lines, asked(resolve()), json.loads(derivation), name)

    def test_each_text_changed(self):
        for row in rows("wrong_derivations.txt"):
            if not row.startswith("  "):
                lines, request, derivation = WORKED[row]
                continue
            change, _, told = row[2:].partition(" -- ")
            old, new = change.split(" as ")
            self.assertIn(old, derivation)
            wrong = json.loads(derivation.replace(old, new, 1))
            printed = self.judge(0 if told == "follows" else 1, lines, asked(request), wrong, row)
            self.assertTrue(printed.endswith(f"{told}\n"), printed)

    def test_faults_of_the_whole(self):
        lines, request, derivation = CHAIN
        for wrong, told in (([], "there is no derivation of the right form"),
                            (json.loads(derivation)[:-1], "the last line does not say that the request can't be met")):
            self.assertIn(f"does not follow: {told}\n", self.judge(1, lines, asked(request), wrong, told))
        lines, request, derivation = YANKED
        printed = self.judge(1, [*lines, unyank("a", "1.0.0")], asked(request), json.loads(derivation))
        self.assertIn("line 1: of a these ordinals are allowed: [0]\n", printed)

    def test_lines_that_only_lack_sense(self):
        # each stands before the lines of the chain, and concludes what its causes would give
        lines, request, derivation = CHAIN
        later = json.loads(derivation.replace('{"line":2}', '{"line":3}').replace('{"line":1}', '{"line":2}'))
        premise, need = later[0]["causes"][0], {"fact": "need", "index": 1}
        true = {"causes": [premise, need], "conclusion": [["", True, [0]], ["bar", True, [0]]], "pivot": "baz"}
        self.judge(0, lines, asked(request), [true, *later])
        more = {**true, "conclusion": [*true["conclusion"], ["baz", False, []]]}
        self.judge(1, lines, asked(request), [more, *later])
        for pivot in ("foo", "zzz"):
            more = {**true, "conclusion": [*true["conclusion"], ["baz", False, [0, 1]]], "pivot": pivot}
            self.assertIn("pivot", self.judge(1, lines, asked(request), [more, *later]))
        empty = {"causes": [{**premise, "versions": []}, need], "conclusion": [["", True, [0]], ["bar", True, []]],
                 "pivot": "baz"}
        self.assertIn("no versions", self.judge(1, lines, asked(request), [empty, *later]))

    def test_the_highest_ordinal(self):
        lines, request, derivation = YANKED
        for versions, wanted in (("[0,4294967295]", 0), ("[0,4294967296]", 1)):
            changed = derivation.replace('"versions":[0]', f'"versions":{versions}')
            self.judge(wanted, lines, asked(request), json.loads(changed))

    def test_lines_left_out(self):
        for lines, request, derivation in WORKED.values():
            rows = json.loads(derivation)
            for kept in (rows[:-1], rows[1:], rows[:1] if len(rows) > 1 else []):
                self.judge(1, lines, asked(request), kept)

    def test_every_form(self):
        lines, request, derivation = CHAIN
        for bad in (None, {}, [], "", 1, [None], [[]], [{}], json.loads(derivation)[0]):
            self.judge(1, lines, asked(request), bad)

    def test_a_version_that_was_published_since(self):
        lines, request, derivation = CHAIN
        for version, wanted in (("baz 3.1.0", 1), ("baz 3.1.0-pre", 0), ("baz 4.0.0", 0), ("bar 2.5.0", 1),
                                ("foo 1.1.0", 1), ("foo 2.0.0", 0), ("baz 1.4.0", 0)):
            later = publish(*version.split())
            self.judge(wanted, [*lines, later], asked(request), json.loads(derivation), version)

    def test_yanks_and_locks(self):
        lines, request, derivation = YANKED
        for line, wanted in ((unyank("a", "1.0.0"), 1), (unyank("a", "1.0.0+other"), 1), (unyank("a", "2.0.0"), 0),
                             (yank("a", "1.0.0"), 0)):
            self.judge(wanted, [*lines, line], asked(request), json.loads(derivation), line)
        for lock, wanted in ((["a 1.0.0"], 1), (["a 1.0.0+locked"], 1), (["a 1.0.0-pre"], 0), (["b 1.0.0"], 0),
                             ([], 0)):
            self.judge(wanted, lines, asked(resolve("a ^1", lock=lock)), json.loads(derivation), lock)

    def test_a_package_that_nothing_publishes(self):
        lines, request = [publish("a", "1.0.0", ["zed *"])], asked(resolve("a *"))
        premise = {"fact": "premise", "name": "a", "need": "*", "target": "zed", "versions": [0], "within": []}
        last = {"causes": [premise, {"fact": "need", "index": 0}], "conclusion": [["", True, [0]]], "pivot": "a"}
        self.judge(0, lines, request, [last])
        for name, wanted in (("zed", 0), ("a", 1), ("nobody", 1)):
            barred = {"fact": "disallowed", "name": name, "versions": [0]}
            first = {"causes": [{**premise, "within": [0]}, barred], "conclusion": [["a", True, [0]]], "pivot": "zed"}
            self.judge(wanted, lines, request, [first, {**last, "causes": [{"line": 1}, last["causes"][1]]}], name)

    def test_refused_lines_number_nothing(self):
        lines, request, derivation = CHAIN
        barred = [publish("baz", "1", ["foo ^1"]), publish("x", "1.0.0", ["baz ^1", "x ^1"]),
                  publish("x", "1.0.0", ["baz ^1", "baz ^2"]), yank("baz", "1.0.0"),
                  publish("x", "1.0.0", ["baz ^1", "y nonsense"]), publish("X", "1.0.0", ["baz ^1"])]
        self.judge(0, [*barred, *lines], asked(request), json.loads(derivation))
        first = publish("x", "1.0.0", ["baz ^1"])
        self.assertIn("order", self.judge(1, [first, *lines], asked(request), json.loads(derivation)))


class Rules(unittest.TestCase):
    def test_precedence(self):
        rising = ("0.9.9 1.0.0-0 1.0.0-2 1.0.0-10 1.0.0-- 1.0.0-alpha 1.0.0-alpha.1 1.0.0-alpha.beta 1.0.0-beta "
                  "1.0.0-beta.2 1.0.0-beta.11 1.0.0-rc.1 1.0.0 1.0.1 1.1.0 2.0.0 10.0.0 "
                  "18446744073709551615.0.0").split()
        self.assertEqual(sorted(reversed(rising), key=check_derivation.read_version), rising)
        self.assertEqual(check_derivation.read_version("1.0.0-a+x.01"), check_derivation.read_version("1.0.0-a+y"))

    def test_texts_that_are_no_versions(self):
        bad = "1 1.0 1.0.0.0 01.0.0 1.0.00 1.0.0- 1.0.0-00 1.0.0-a..b 1.0.0+ 1.0.0-a_b =1.0.0 v1.0.0 1.0.* \u0661.0.0"
        for text in (*bad.split(), "", " 1.0.0", "1.0.0 ", "1.0.0\n", "18446744073709551616.0.0", "1.0.0+" + "b" * 251):
            self.assertIsNone(check_derivation.read_version(text), text)
        self.assertIsNotNone(check_derivation.read_version("1.0.0+" + "b" * 250))

    def test_requirements(self):
        for row in rows("requirements.txt"):
            requirement, met, unmet = row.split(" | ")
            for text in (*met.split(), *unmet.split()):
                admitted = check_derivation.admits(requirement, check_derivation.read_version(text))
                self.assertEqual(admitted, text in met.split(), row)
        with self.assertRaisesRegex(ValueError, "one is no requirement"):
            check_derivation.admits("one", check_derivation.read_version("1.0.0"))

    def test_texts_that_are_no_requirements(self):
        bad = "^ 1, ,1 a 1.0.0.0 ** 01 1.*.2 *.1 1.0-a 1.*-a 1.0.0- 1.0.0-01 ==1 =>1 !1 18446744073709551616"
        for text in (*bad.split(), "", " ", "*, 1", "1, *", "1 2", "1\t", "^1.0.0" + " " * 251, ", ".join(["^1"] * 33)):
            self.assertIsNone(check_derivation.read_requirement(text), text)
        self.assertEqual(len(check_derivation.read_requirement(", ".join(["^1"] * 32))), 32)
        self.assertEqual(check_derivation.read_requirement(" X "), [])

    def test_random_requirements(self):
        rng = random.Random(7)

        def version():
            return ".".join(str(rng.randrange(3)) for _ in range(3)) + rng.choice(["", "", "-a", "-b.1", "-1"])

        for _ in range(20000):
            requirement = ", ".join(rng.choice(["^", "", "~", "=", ">", ">=", "<", "<="]) + version()
                                    for _ in range(rng.choice([1, 1, 2])))
            text = version()
            self.assertEqual(check_derivation.admits(requirement, check_derivation.read_version(text)),
                             plain_search.matches(requirement, text), (requirement, text))


def tangle(rng):
    """Publications of which most depend on others that don't go together, some yanked, and a request."""
    rows = [(name, version) for name in NAMES
            for version in rng.sample(["1.0.0", "1.1.0", "2.0.0", "2.0.0-rc.1"], rng.choice([2, 2, 3]))]
    rng.shuffle(rows)
    commands = []
    for name, version in rows:
        targets = rng.sample([other for other in NAMES if other != name], rng.choice([0, 1, 2, 2]))
        commands.append({"op": "publish", "name": name, "version": version,
                         "needs": [[target, rng.choice(TANGLED)] for target in targets]})
    commands += [{"op": "yank", "name": name, "version": version} for name, version in rows if rng.random() < 0.2]
    request = {"op": "resolve",
               "needs": [[name, rng.choice(TANGLED[:5])] for name in rng.sample(NAMES, rng.choice([1, 2, 3]))],
               "explain": True}
    if rng.random() < 0.4:
        request["lock"] = [[name, rng.choice(["1.0.0", "2.0.0+x", "9.9.9"])]
                           for name in rng.sample([*NAMES, "nobody"], 2)]
    return commands, request


class Random(Judged):
    def refusals(self, seeds):
        """Random refusals: the commands, what is known then, the request, and what refutes it. Few have one line."""
        for seed in seeds:
            rng = random.Random(seed)
            commands, request = tangle(rng)
            known = Known(commands)
            refuter = Refuter(known, request, rng)
            refutes = refuter.derivation() is not None
            self.assertEqual(refutes, known.published.selections(request["needs"], request.get("lock", [])) == [],
                             (seed, request))
            if refutes and (len(refuter.rows) > 1 or rng.random() < 0.1):
                yield f"seed {seed}", commands, known, request, refuter, rng

    def test_they_follow(self):
        lines = []
        for told, commands, _, request, refuter, _ in self.refusals(range(1500)):
            self.judge(0, map(json.dumps, commands), request, refuter.rows, told)
            lines.append(len(refuter.rows))
        self.assertGreater(len(lines), 400)
        self.assertGreater(max(lines), 10)

    def test_harmless_changes(self):
        for told, commands, _, request, refuter, rng in self.refusals(range(10000, 10300)):
            rows = json.loads(json.dumps(refuter.rows))
            for row in rows:
                rng.shuffle(row["causes"])
            # the first line once more before the others, and all others cite one line further down
            more = copy.deepcopy(rows)
            for cause in [it for row in more for it in row["causes"] if "line" in it]:
                cause["line"] += 1
            self.judge_each(0, map(json.dumps, commands), [(request, rows, told), (request, [rows[0], *more], told)])

    def test_damaged(self):
        counts = dict.fromkeys(KINDS, 0)
        for told, commands, known, request, refuter, rng in self.refusals(range(20000, 21000)):
            refusals = []
            for kind in KINDS:
                damage = Damage(known, copy.deepcopy(request), copy.deepcopy(refuter.rows),
                                known.said(refuter.rows, request), rng)
                if getattr(damage, kind)():
                    refusals.append((damage.request, damage.rows, f"{told}, {kind}"))
                    counts[kind] += 1
            self.judge_each(1, map(json.dumps, commands), refusals)
        # each kind of damage was done often enough
        self.assertGreater(min(counts.values()), 60, counts)
