"""`registry why --not`: which of the versions that come before a better one in the walk rule it out, however many these
are. Small registries with the wanted text by hand; large ones of a plain form; and a reader of English and the checker
of derivations, which judge what is told."""
import json
import os
import random
import unittest
from pathlib import Path
from unittest import mock

from registry_cli import questions
from registry_cli.check_derivation import Judge
from registry_cli.derivation import Holding
from registry_cli.packages import registry_of
from registry_cli.questions import Question
from tests.support.called import registry
from tests.support.plain_newest import Published
from tests.support.program import PROGRAM, publish, resolve, run
from tests.support.read_english import Reader
from tests.support.registry_folder import Folder
from tests.support.small_registries import small_case
LONG = "1.0.0-" + "x" * 250  # of as many bytes as a version may have: `=` and this are too many for a requirement


def wide(count, *, every):
    """A registry in whose walk `z` comes behind `count` packages and more: `app` needs half of them and `more`, which
    needs the others and, by `tail`, `z`. The newest version of `z` goes with an older version of the sixth package
    alone, or, of every, needs a package of which each version goes with an older version of another one."""
    parts = [f"part-{number:03}" for number in range(count)]
    lines = [publish(name, version) for name in parts for version in ("1.0.0", "2.0.0")]
    hubs = [parts[at:at + 60] for at in range(0, count, 60)]
    for place, names in enumerate(hubs):
        behind = [f"hub-{place + 1} *"] if place + 1 < len(hubs) else ["tail *"]
        lines.append(publish("app" if not place else f"hub-{place}", "1.0.0",
                             [*(f"{name} *" for name in names), *behind]))
    if every:
        lines += [publish("w", f"{number + 1}.0.0", [f"{name} =1.0.0"]) for number, name in enumerate(parts)]
    lines += [publish("tail", "1.0.0", ["z *"]), publish("z", "1.0.0"),
              publish("z", "2.0.0", ["w *"] if every else [f"{parts[5]} =1.0.0"])]
    return lines, parts


def reader_of(lines, needs, lock, name, version, before):
    registry = registry_of([json.loads(it) for it in lines], {json.loads(it)["name"] for it in lines})
    request = {"needs": needs, "lock": lock}
    return Reader(registry, request, f"{name} {version} can't be selected", before)


class Told(Folder):
    LONGEST = 300  # each sentence is tried over many choices of versions

    def why_not(self, needs, version, *words, lock=None):
        locked = ["--lock", self.path("a.lock", json.dumps(lock))] if lock else []
        status, said, fault = self.registry("why", *needs, *locked, "--not", *version.split(" "), *words)
        self.assertEqual((status, fault), (0, ""))
        return said

    def english(self, said):
        """The sentences that are told, each with its number or none."""
        told = [it[2:] for it in said.splitlines()[1:] if it.startswith("  ") and it[2] not in "+-~"]
        found = []
        for it in told:
            number = it[1:it.index(")")] if it.startswith("(") else None
            found.append((int(number) if number else None, it.partition(") ")[2].strip() if number else it.strip()))
        return found

    def test_two_before_it_are_told_as_english(self):
        lines = [*(publish(name, version) for name in "abc" for version in ("1.0.0", "2.0.0")), publish("z", "1.0.0"),
                 publish("z", "2.0.0", ["w *"]), publish("w", "1.0.0", ["a ~1.0"]), publish("w", "2.0.0", ["b ~1.0"])]
        self.hold(*lines)
        said = self.why_not(["a", "b", "c", "z"], "z 2.0.0")
        first, *_ = said.splitlines()
        self.assertEqual(first, "a *, b *, c *, z *: z 2.0.0 can't be selected with a 2.0.0 and b 2.0.0, which come "
                                "before it")
        pairs = [[name, "*"] for name in "abcz"]
        reader_of(lines, pairs, [], "z", "2.0.0", [("a", "2.0.0"), ("b", "2.0.0")]).read(self.english(said))
        # b keeps the version that was selected where a does not
        self.assertIn("a selection with z 2.0.0 also changes:\n  ", said)

    def test_one_of_more_packages_than_a_request_may_need(self):
        for count in (62, 90, 200):
            lines, _ = wide(count, every=False)
            self.hold(*lines)
            said = self.why_not(["app"], "z 2.0.0", "--picture", self.path("why.svg"))
            for told in ("because z 2.0.0 depends on part-005 \"=1.0.0\" and z 2.0.0 is asked for",
                         "the selection has part-005 2.0.0"):
                self.assertIn(told, self.text("why.svg"))
            self.assertEqual(said, """\
app *: z 2.0.0 can't be selected with part-005 2.0.0, which comes before it
  Because z 2.0.0 depends on part-005 "=1.0.0" and z 2.0.0 is asked for, the selection requires part-005 "=1.0.0".
  And because the selection has part-005 2.0.0, z 2.0.0 can't be selected.
a selection with z 2.0.0 also changes:
  ~ part-005 2.0.0 -> 1.0.0 (older)
""")
            reader_of(lines, [["app", "*"]], [], "z", "2.0.0", [("part-005", "2.0.0")]).read(self.english(said))
            os.unlink(self.journal)

    def test_all_of_more_packages_than_a_request_may_need(self):
        lines, parts = wide(90, every=True)
        self.hold(*lines)
        before = Path(self.journal).read_bytes()
        said = self.why_not(["app"], "z 2.0.0")
        names = [f"{name} 2.0.0" for name in parts]
        self.assertEqual(said.splitlines()[0], f"app *: z 2.0.0 can't be selected with {', '.join(names[:-1])} and "
                                               f"{names[-1]}, which come before it")
        self.assertNotIn("made", said)
        reader_of(lines, [["app", "*"]], [], "z", "2.0.0", [(name, "2.0.0") for name in parts]).read(self.english(said))
        self.assertEqual(Path(self.journal).read_bytes(), before)

    def test_a_session_of_lines(self):
        lines, _ = wide(90, every=False)
        lines.append(resolve("app *"))
        replies = run(["serve", "--workers", "1", "--newest"],
                      "".join(line + "\n" for line in lines).encode()).stdout.decode().splitlines()
        turns = self.path("turns", "".join(f"{line}\n{reply}\n" for line, reply in zip(lines, replies)))
        status, said, fault = registry("why", "--asked", turns, "--not", "z", "2.0.0")
        title = f"request {len(lines)}, app *: z 2.0.0 can't be selected with part-005 2.0.0, which comes before it"
        self.assertEqual((status, said.splitlines()[0], fault), (0, title, ""))

    def test_versions_that_no_requirement_names_alone(self):
        self.hold(publish("p", LONG), publish("p", LONG[:-1]), publish("p", "2.0.0"),
                  publish("q", "1.0.0", [f"p {LONG[:-1]}"]), publish("r", "1.0.0"),
                  publish("r", "2.0.0", ["p >=2.0.0"]))
        # one that is asked about
        self.assertEqual(self.why_not(["p@>=1.0.0-a"], f"p {LONG}"),
                         f"p {LONG} can be selected; p 2.0.0 was selected, which is higher\na selection with it "
                         "changes nothing else\n")
        # and one that comes before what is asked about
        said = self.why_not(["p@>=1.0.0-a, <2.0.0", "r"], "r 2.0.0")
        self.assertEqual(said.splitlines()[0], "p >=1.0.0-a, <2.0.0, r *: r 2.0.0 can't be selected")
        lock = [["p", LONG]]
        said = self.why_not(["p@>=1.0.0-a", "r"], "r 2.0.0", lock=lock)
        self.assertEqual(said.splitlines()[0], f"p >=1.0.0-a, r *: r 2.0.0 can't be selected with p {LONG}, which "
                                               "comes before it")
        self.assertEqual(said.splitlines()[-2:],
                         ["a selection with r 2.0.0 also changes:", f"  ~ p {LONG} -> 2.0.0 (beyond ^{LONG})"])
        reader_of([publish("p", LONG), publish("p", LONG[:-1]), publish("p", "2.0.0"), publish("r", "1.0.0"),
                   publish("r", "2.0.0", ["p >=2.0.0"])],
                  [["p", ">=1.0.0-a"], ["r", "*"]], lock, "r", "2.0.0", [("p", LONG)]).read(self.english(said))


class Asked(unittest.TestCase):
    def test_what_is_answered_over_random_registries(self):
        """A request may have two needs: so each question takes packages that are made. Each answer is that of a list of
        all selections, and each derivation follows over the registry alone, without them."""
        met = refused = 0
        with mock.patch.object(questions, "MOST_NEEDS", 2), mock.patch.dict(os.environ, {"REGISTRY_PROGRAM": PROGRAM}):
            for seed in range(60):
                case = small_case(random.Random(seed))
                lock = case.request.get("lock", [])
                plain = Published()
                for command in case.commands:
                    plain.apply(command)
                rng = random.Random(seed)
                versions = {name: rng.choice(held)[0] for name, held in sorted(plain.versions.items())
                            if rng.random() < 0.9}
                question = Question({**case.request, "lock": lock}, versions)
                reply = question.put(case.commands, {**question.request, "explain": True}, lambda names,
                                     case=case: registry_of(case.commands, names))
                selections = plain.selections(question.request["needs"], lock)
                if "selected" in reply:
                    self.assertIn(reply["selected"], list(selections), seed)
                    met += 1
                else:
                    self.assertEqual(list(selections), [], seed)
                    request = {"budget": 0, "explain": True, **question.request}
                    Judge(registry_of(case.commands, set(plain.versions)), request).judge(reply["derivation"])
                    refused += 1
        self.assertGreater(min(met, refused), 5)

    def test_other_versions_than_the_one_that_is_asked_for_are_not_allowed(self):
        made = registry_of([json.loads(publish("a", version)) for version in ("1.0.0", "2.0.0", "3.0.0")], {"a"})
        judge = Holding(made, {"op": "resolve", "needs": [["a", "*"]], "lock": [], "explain": True, "budget": 0},
                        {"a": "2.0.0"})
        self.assertEqual(judge.disallowed("a", [0, 2]), {"a": (True, frozenset({0, 2}))})
        for versions in ([1], [0, 1]):
            with self.assertRaisesRegex(Exception, "of a these ordinals are allowed"):
                judge.disallowed("a", versions)
