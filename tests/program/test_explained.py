"""Explanations that the program gives.

They follow, by the program's own checker and by the tool that shares nothing with it; a second writer of the words
agrees with them; and their lines are few, and stand in the order in which a person tells them. Damaged, none follows.
"""
import json
import random
import unittest
from copy import deepcopy

from registry_cli import check_derivation
from tests.program.test_check_derivation import WORKED, asked, said_of, tangle
from tests.support.called import called
from tests.support.damages import KINDS, Damage
from tests.support.program import publish, run, serve, unyank, yank
from tests.support.refuter import Known
from tests.support.registry_folder import Folder

MOST_LINES = {"chain": 3, "either": 5}  # of the worked refusals; each other one takes a single line


def told(known, request, rows):
    """The text of an explanation, written once more."""
    def members(name, ordinals):
        held = known.releases(name)
        return "{" + ", ".join(held[it][0] if it < len(held) else f"#{it}" for it in ordinals) + "}"

    def term(name, inside, ordinals):
        shown = name or "the request"
        if name or ordinals != [0]:
            shown += f" {members(name, ordinals)}"
        return shown if inside else "not " + shown

    def cause(it):
        if "line" in it:
            return f"line {it['line']}"
        if it["fact"] == "root":
            return "the request must be met"
        if it["fact"] == "disallowed":
            return f"{it['name']} {members(it['name'], it['versions'])} is not allowed"
        if it["fact"] == "need":
            target, requirement = request["needs"][it["index"]]
            met = members(target, known.matching(target, requirement))
            return f'the request needs {target} "{requirement}" in {met}'
        return (f'{it["name"]} {members(it["name"], it["versions"])} needs {it["target"]} "{it["need"]}" '
                f'in {members(it["target"], it["within"])}')

    lines = [f"{number}. never ({', '.join(term(*it) for it in row['conclusion'])}), because {cause(row['causes'][0])} "
             f"and {cause(row['causes'][1])}" for number, row in enumerate(rows, 1)]
    return [*lines, "So no selection meets the request."]


def checking(request, rows):
    """The line that asks the program whether a derivation follows."""
    kept = {member: request[member] for member in ("needs", "lock") if member in request}
    return json.dumps({"op": "check", **kept, "derivation": rows})


def distances(cited, order):
    """How far each line stands from the first that cites it, where the lines stand in this order, all together."""
    at = {line: place for place, line in enumerate(order)}
    first = {}
    for line in order:
        for cause in cited[line]:
            first.setdefault(cause, line)
    return sum(at[user] - at[line] for line, user in first.items())


class Explained(unittest.TestCase):
    def explained(self, lines, requests):
        """The program's refusals of these requests after these lines, each with its request; the tool says of all that
        they follow."""
        every = [*map(json.loads, lines), *requests]
        replies = [json.loads(it) for it in serve([json.dumps(it) for it in every])]
        status, printed = said_of(every, replies)
        self.assertEqual(status, 0, printed)
        found = [(request, reply) for request, reply in zip(requests, replies[len(lines):]) if "refused" in reply]
        self.assertEqual(printed.count(" follows\n"), len(found))
        return found

    def well_told(self, known, request, reply):
        """The members are those of an explained refusal, and the text is that of the lines, which are well ordered."""
        self.assertEqual(list(reply), ["derivation", "explanation", "refused", "revision"])
        rows = reply["derivation"]
        self.assertEqual(reply["explanation"], told(known, request, rows))
        self.assertEqual(len({json.dumps(row["conclusion"]) for row in rows}), len(rows), "two conclusions are equal")
        self.well_ordered([[it["line"] - 1 for it in row["causes"] if "line" in it] for row in rows])

    def well_ordered(self, cited):
        """Each line but the last is cited, and stands as near as it can to the first that cites it, with nothing
        between that this one does not rest on."""
        rests, first = [], {}
        for place, places in enumerate(cited):
            rests.append(set(places).union(*(rests[it] for it in places)))
            for it in places:
                first.setdefault(it, place)
        self.assertEqual(sorted(first), list(range(len(cited) - 1)), "a line is never cited")
        least = distances(cited, range(len(cited)))
        for place, user in first.items():
            self.assertLessEqual(set(range(place + 1, user)), rests[user])
            moved = [line for line in range(len(cited)) if line != place]
            moved.insert(moved.index(user), place)
            self.assertGreaterEqual(distances(cited, moved), least, "a line could stand nearer to the first that cites "
                                                                    "it")

    def test_worked(self):
        for name, (lines, request, by_hand) in WORKED.items():
            (request, reply), = self.explained(lines, [asked(request)])
            self.well_told(Known(map(json.loads, lines)), request, reply)
            rows = reply["derivation"]
            self.assertLessEqual(len(rows), MOST_LINES.get(name, 1))
            plain, *verdicts = serve([*lines, json.dumps({**request, "explain": False}), checking(request, rows),
                                      checking(request, json.loads(by_hand)), checking(request, rows[:-1]),
                                      checking({"needs": []}, rows)])[len(lines):]
            self.assertEqual(json.loads(plain), {"refused": True, "revision": len(lines)})
            self.assertEqual([json.loads(it) for it in verdicts],
                             [{"follows": it, "revision": len(lines)} for it in (True, True, False, False)], name)

    def random_refusals(self, seeds):
        """Of each registry the commands, and its refused requests with what they were answered."""
        for seed in seeds:
            rng = random.Random(seed)
            commands, _ = tangle(rng)
            requests = [tangle(rng)[1] for _ in range(12)]
            yield commands, Known(commands), self.explained(list(map(json.dumps, commands)), requests), rng

    def test_random(self):
        count = 0
        for commands, known, found, _ in self.random_refusals(range(100)):
            for request, reply in found:
                self.well_told(known, request, reply)
            lines = [checking(request, reply["derivation"]) for request, reply in found]
            answers = serve([*map(json.dumps, commands), *lines])[len(commands):]
            self.assertEqual(list(map(json.loads, answers)),
                             [{"follows": True, "revision": len(commands)}] * len(found))
            count += len(found)
        self.assertGreater(count, 300)

    def test_many_reasons(self):
        # Each version of a package is ruled out for a reason of its own, and there is one line for each. Sixteen lines
        # and more are put together pairwise: of 64 versions the lines name each as one of 2, of 4, and so on up to 64,
        # so six times. Fifteen lines or fewer each name one version more than the one before.
        for versions, named in ((64, 6 * 64), (14, sum(range(2, 15)))):
            lines = [publish("q", "1.0.0"), publish("q", "2.0.0")]
            lines += [publish("a", f"1.{number}.0", [f"q >=2.0.0, <3.{number}.0"]) for number in range(versions)]
            (request, reply), = self.explained(lines, [{"op": "resolve", "needs": [["a", "*"], ["q", "^1"]],
                                                        "explain": True}])
            self.well_told(Known(map(json.loads, lines)), request, reply)
            rows = reply["derivation"]
            self.assertEqual(len(rows), versions + 1)
            told = [len(ordinals) for row in rows for name, _, ordinals in row["conclusion"] if name == "a"]
            self.assertEqual(sum(told), named)
            self.assertEqual(json.loads(serve([*lines, checking(request, rows)])[-1])["follows"], True)

    def test_damaged(self):
        for commands, known, found, rng in self.random_refusals(range(1000, 1030)):
            damages = [damage for request, reply in found
                       for damage in self.damages(known, request, reply["derivation"], rng)]
            accepted = [{"ok": True, "revision": number} for number in range(1, len(commands) + 1)]
            replies = [{"derivation": damage.rows, "explanation": [], "refused": True, "revision": len(commands)} for _,
                       damage in damages]
            status, printed = said_of([*commands, *(damage.request for _, damage in damages)], [*accepted, *replies])
            for (kind, damage), said in zip(damages, printed.splitlines(), strict=True):
                self.assertIn(" does not follow: ", said, (kind, damage.request, damage.rows))
            self.assertEqual(status, int(damages != []))
            lines = [checking(damage.request, damage.rows) for _, damage in damages]
            for line, answer in zip(lines, serve([*map(json.dumps, commands), *lines])[len(commands):], strict=True):
                self.assertNotEqual(json.loads(answer).get("follows"), True, line)

    def damages(self, known, request, rows, rng):
        """Derivations of a refusal that are damaged, one of each kind that there can be."""
        for kind in KINDS:
            damage = Damage(known, deepcopy(request), deepcopy(rows), known.said(rows, request), rng)
            if getattr(damage, kind)():
                yield kind, damage


class Files(Folder):
    def file(self, name, lines):
        return self.path(name, "".join(line + "\n" for line in lines))

    def test_a_race(self):
        # Each file asks why at a place of its own; the tool judges each seat's replies by the journal that was printed.
        request = {"op": "resolve", "needs": [["a", "^1"], ["b", "^1"]], "explain": True}
        rows = [{"causes": [{"fact": "need", "index": 0}, {"fact": "root"}], "conclusion": [], "pivot": ""}]
        files = [[publish("a", "1.0.0", ["b ^2"]), publish("b", "1.0.0"), json.dumps(request), checking(request, rows)],
                 [publish("c", "1.0.0"), json.dumps(request), yank("c", "1.0.0"), checking(request, rows),
                  json.dumps(request)], [json.dumps(request), publish("b", "2.0.0"), unyank("b", "2.0.0"),
                                         json.dumps(request), checking(request, rows)]]
        for _ in range(20):
            done = run(["race", *(self.file(str(number), lines) for number, lines in enumerate(files))])
            self.assertEqual((done.returncode, done.stderr), (0, b""))
            printed = done.stdout.decode().splitlines()
            journal = self.file("journal", printed[sum(map(len, files)):])
            for number, lines in enumerate(files):
                replies, printed = printed[:len(lines)], printed[len(lines):]
                status, said, _ = called(check_derivation, "--journal", journal, self.file("asked", lines),
                                         self.file("told", replies))
                explained = [it for it in map(json.loads, replies) if "derivation" in it]
                self.assertEqual((status, said.count(" follows\n")), (0, len(explained)), said)
                for line, reply in zip(lines, map(json.loads, replies)):
                    self.assertEqual(reply["seat"], number + 1)
                    if "follows" in reply:
                        # the derivation says that nothing meets the need on `a`, so it follows until `a` is published
                        before = [json.loads(it)["name"] for it in printed_journal(journal)[:reply["revision"]]]
                        self.assertEqual(reply["follows"], "a" not in before)


def printed_journal(path):
    with open(path, encoding="utf-8") as lines:
        return lines.read().splitlines()[1:-1]
