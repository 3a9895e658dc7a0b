"""The English of refusals: worked examples word by word, and random ones that a reader of English judges sentence by
sentence; the pictures; and the command line.

The first two examples are those of Dart pub's doc/solver.md, "Linear Error Reporting" and "Branching Error Reporting".
"""
import json
import math
import os
import random
import re
import unittest
from pathlib import Path
from xml.etree import ElementTree

from bench import hostile_lines, workloads
from registry_cli import check_derivation, drawing
from registry_cli.derivation import Derivation, Telling, Versions
from tests.program.test_check_derivation import REFUSALS, WORKED, tangle, worked
from tests.program.test_check_derivation import rows as rows_of
from tests.program.test_readme import answers, page
from tests.support import generated_lines
from tests.support.program import TOP, publish, resolve, serve, yank
from tests.support.read_english import Reader, Unread
from tests.support.refuter import Known, Refuter
from tests.support.registry_folder import Folder


RANGES = [publish("a", it, ["b ^2"]) for it in ("1.0.0", "2.0.0", "1.2.0", "1.1.0", "1.5.0+x", "2.0.0-rc.1")]
# what is published, what is asked, the derivation, and its English
TOLD = {name: (*worked(name)[:2], it["derivation"], it["english"]) for name, it in REFUSALS.items() if "english" in it}
BRANCHING = TOLD["branching"][:3]


def registry_of(commands):
    registry = check_derivation.Registry()
    for it in commands:
        if not registry.obey(it, {"ok": True}):
            raise ValueError(it)
    return registry


def asked(request):
    """A request as the reader wants it."""
    return json.loads(request) if isinstance(request, str) else request


class Worked(unittest.TestCase):
    def test_word_by_word(self):
        for name, (lines, request, rows, english) in TOLD.items():
            registry = registry_of(map(json.loads, lines))
            told = Telling(Derivation(registry, asked(request), rows))
            self.assertEqual(told.lines(), english, name)
            Reader(registry, asked(request)).read(told.sentences)

    def test_the_program_s_own(self):
        # the request is met, or its refusal is told: what the program derives may be another derivation
        for name, (lines, request, _) in {**WORKED, "branching": BRANCHING}.items():
            told = Telling(derived(lines, request))
            if name == "branching":
                self.assertEqual(told.lines(), TOLD[name][3])
            Reader(registry_of(map(json.loads, lines)), asked(request)).read(told.sentences)

    def test_sets_of_versions(self):
        versions = Versions(registry_of(map(json.loads, RANGES)))
        for row in rows_of("sets_of_versions.txt"):
            ordinals, words = row.split(" | ")
            self.assertEqual(versions.every("a", frozenset(map(int, ordinals.split()))), words)
        self.assertEqual(versions.some("a", frozenset(range(6))), "a")
        self.assertEqual(versions.some("a", frozenset([0, 1, 3, 4, 5])), "any version of a but 1.2.0")

    def test_the_reader_reads(self):
        # what is no fact, does not follow, cites nothing, or can't be read
        lines, request, rows, _ = TOLD["branching"]
        registry = registry_of(map(json.loads, lines))
        good = Telling(Derivation(registry, asked(request), rows)).sentences
        for row in rows_of("wrong_english.txt"):
            old, new = row.split(" -> ")
            changed, count = [], 0
            for number, said in good:
                count += old in said
                changed.append((number, said.replace(old, new, 1)))
            self.assertGreater(count, 0, old)
            with self.assertRaises(Unread, msg=new):
                Reader(registry, asked(request)).read(changed)


def meanings(derivation, reader):
    """What the steps of a derivation forbid, the request aside, as the reader of English has it."""
    found = []
    for step in [*derivation.steps, *(it for step in derivation.steps for it in step.below())]:
        terms = {}
        for name, (inside, ordinals) in step.terms.items():
            if name:
                terms[name] = reader.choices(name) & ordinals if inside else reader.choices(name) - ordinals
        found.append(reader.normal(terms))
    return found


class Generated(unittest.TestCase):
    def told(self, commands, request, rows, place):
        """A refusal is told: each sentence follows and says what a step says, all packages are named, all numbers are
        cited."""
        registry = registry_of(commands)
        derivation = Derivation(registry, request, rows)
        told = Telling(derivation)
        reader = Reader(registry, request)
        steps = meanings(derivation, reader)
        for said in reader.read(told.sentences):
            self.assertIn(said, steps, place)
        english = "\n".join(told.lines())
        named = {name for step in derivation.steps for name in step.terms if name}
        named |= {row[member] for row in cut(rows) for row in row["causes"] for member in ("name", "target")
                  if member in row}
        self.assertLessEqual(named, set(re.findall("[a-z][a-z0-9_-]*", english)), place)
        self.assertTrue(english.endswith(" resolving failed."), place)
        numbers = [number for number, _ in told.sentences if number]
        self.assertEqual(set(map(int, re.findall(r"\((\d+)\)[ ,]", re.sub(r"(?m)^\(\d+\)", "", english)))),
                         set(numbers), place)
        self.assertLessEqual(len(told.sentences), 2 * len(derivation.steps) + 2, place)
        return derivation

    def test_derivations_of_another_hand(self):
        count = lines = 0
        for seed in range(400):
            rng = random.Random(seed)
            commands, request = tangle(rng)
            rows = Refuter(Known(commands), request, rng).derivation()
            if rows:
                count, lines = count + 1, lines + len(rows)
                derivation = self.told(commands, request, rows, seed)
                ElementTree.fromstring(drawing.draw_derivation(derivation, "a <title> & more"))
        self.assertGreater(count, 100)
        self.assertGreater(lines, 500)

    def refusals(self, lines, requests):
        """What the program refuses of these requests after these lines."""
        replies = serve([*lines, *(json.dumps({**it, "explain": True}) for it in requests)])[len(lines):]
        for request, reply in zip(requests, map(json.loads, replies)):
            if "derivation" in reply:
                yield request, reply["derivation"]

    def test_random_sessions(self):
        count = 0
        for seed in range(2000, 2060):
            rng = random.Random(seed)
            commands, _ = tangle(rng)
            for request, rows in self.refusals([json.dumps(it) for it in commands], [tangle(rng)[1] for _ in range(8)]):
                self.told(commands, request, rows, seed)
                count += 1
        self.assertGreater(count, 100)

    def test_workloads(self):
        most = 0
        for lines, requests in (workloads.tower(2), workloads.towers(4), workloads.chain(8),
                                hostile_lines.two_bumped(12), workloads.about_one(3),
                                self.of_lines(generated_lines.budgets_in_other_words),
                                self.of_lines(generated_lines.needs_past_the_most_of_a_request)):
            commands = [json.loads(it) for it in lines]
            for request, rows in self.refusals(lines, [json.loads(it) for it in requests[:6]]):
                self.told(commands, request, rows, request["needs"])
                most = max(most, len(rows))
        self.assertGreater(most, 40)

    def of_lines(self, table):
        """The commands and the requests of a table of lines."""
        commands, requests = [], []
        for row, reply in table():
            value = json.loads(row)
            if reply.startswith('{"ok"'):
                commands.append(row.decode())
            elif value["op"] == "resolve" and "refused" in reply:
                requests.append(json.dumps({"op": "resolve", "needs": value["needs"]}))
        return commands, requests


def cut(rows):
    """The lines that the last one rests on."""
    kept = {len(rows)}
    for number in range(len(rows), 0, -1):
        if number in kept:
            kept |= {it["line"] for it in rows[number - 1]["causes"] if "line" in it}
    return [row for number, row in enumerate(rows, 1) if number in kept]


SVG = "{http://www.w3.org/2000/svg}"


def drawn(picture):
    """The texts, with their places, of a picture, and how far it goes."""
    top = ElementTree.fromstring(picture)
    texts = [(it.text, float(it.get("x")), float(it.get("y"))) for it in top.iter(SVG + "text")]
    assert len({(x, y) for _, x, y in texts}) == len(texts), "two texts stand at one place"
    wide, high = float(top.get("width")), float(top.get("height"))
    assert top.get("viewBox") == f"0 0 {wide:.0f} {high:.0f}", "a picture that can't be shown at another size"
    return top, texts, (wide, high)


def upright(top):
    """The upright pieces of the lines, each by how far right it is and from where to where it goes."""
    for path in top.iter(SVG + "path"):
        if path.get("fill") == "none":
            points = [tuple(map(float, it.split())) for it in path.get("d")[1:].split(" L")]
            yield from ((x, min(y, lower), max(y, lower)) for (x, y), (right, lower) in zip(points, points[1:]) if x
                        == right)


def derived(lines, request):
    """The derivation of a refusal by the program."""
    reply = json.loads(serve([*lines, json.dumps({**json.loads(request), "explain": True})])[-1])
    return Derivation(registry_of(map(json.loads, lines)), json.loads(request), reply["derivation"])


def refusal(storeys):
    """One of a registry that it takes many lines for."""
    lines, (request,) = workloads.tower(storeys)
    return derived(lines, request)


class Pictures(unittest.TestCase):
    def test_derivations(self):
        for derivation in (refusal(3), refusal(25)):
            steps = {it.number: it for it in derivation.steps}
            top, texts, (wide, high) = drawn(drawing.draw_derivation(derivation, "what was asked", most=math.inf))
            boxes = [[float(it.get(side)) for side in ("x", "y", "width", "height")] for it in top.iter(SVG + "rect")
                     if it.get("rx")]
            self.assertEqual([int(it) for it, _, _ in texts if it.isdigit()], list(steps))
            self.assertEqual(len(boxes), len(steps))
            # the boxes stand one below another, and hold their texts
            self.assertTrue(all(y + tall <= lower for (_, y, _, tall), (_, lower, _, _) in zip(boxes, boxes[1:])))
            self.assertTrue(all(x + across <= wide and y + tall <= high for x, y, across, tall in boxes))
            for (x, top_of_it, across, tall), step in zip(boxes, steps.values()):
                inside = [(said, at) for said, at, y in texts if top_of_it < y < top_of_it + tall]
                self.assertTrue(all(at + len(said) * 6 <= x + across for said, at in inside if not said.isdigit()),
                                inside)
                said = " ".join(said for said, _ in inside)
                self.assertIn("resolving failed" if step is derivation.last else derivation.conclusion(step), said)
                for cause in step.causes:
                    self.assertIn(f"line {cause.number}" if cause in step.below() and cause.number else "depends on",
                                  said)
            # an arrow for each citation, and no two lines on one another
            cited = sum(it.number is not None for step in steps.values() for it in step.below())
            self.assertEqual(sum(it.get("fill") != "none" for it in top.iter(SVG + "path")), cited)
            pieces = sorted(upright(top))
            self.assertFalse([(one, other) for one, other in zip(pieces, pieces[1:]) if one[0] == other[0]
                              and other[1] < one[2]])
        self.assertGreater(len(steps), 180)

    def test_reasons_of_several_rows(self):
        one, other = "a" * 60, "b" * 60
        lines, request = [publish(one, "1.0.0", [f"{other} ^2"]), publish(other, "1.0.0")], resolve(f"{one} ^1")
        top, texts, _ = drawn(drawing.draw_derivation(derived(lines, request), "asked"))
        box = next(it for it in top.iter(SVG + "rect") if it.get("rx"))
        rows = [(y, said) for said, _, y in texts if other in said]
        self.assertGreater(len({y for y, _ in rows}), 1)
        self.assertTrue(all(float(box.get("y")) < y for y, _ in rows))

    def dots(self, lines, request):
        """Compares what each dot of a selection's picture tells, with the names that its line and its column lead to,
        with what there is; answers the selection and what else is written there."""
        *_, reply = serve([*lines, request])
        selected, registry = dict(json.loads(reply)["selected"]), registry_of(map(json.loads, lines))
        top, texts, _ = drawn(drawing.draw_selection(registry, asked(request), selected, "what was asked"))
        labels = {f"{name} {version}": name for name, version in selected.items()} | {"the request": ""}
        nodes = [(labels[said], x + 9, y - 4) for said, x, y in texts if said in labels]
        self.assertEqual(sorted(name for name, _, _ in nodes), sorted(labels.values()))
        found = []
        for it in top.iter(SVG + "circle"):
            told = it.find(SVG + "title")
            if told is not None:
                x, y = float(it.get("cx")), float(it.get("cy"))
                row = [name for name, _, high in nodes if high <= y < high + drawing.STAIR]
                column = [name for name, right, _ in nodes if abs(right - x) < 2]
                found.append((told.text, *row, *column))
        needs = {"": asked(request)["needs"], **{name: registry.find(name, version).needs.items() for name,
                                                 version in selected.items()}}
        named = {name: said for said, name in labels.items()}
        wanted = [(f"{named[name]} needs {target} {need}", name, target) for name, row in needs.items() for target,
                  need in row]
        self.assertEqual(sorted(found), sorted(wanted))
        return selected, [said for said, _, _ in texts if said not in labels]

    def test_selections(self):
        lines, requests = workloads.lockfile(90)
        selected, said = self.dots(lines, requests[0])
        self.assertGreaterEqual(len(selected), 60)
        self.assertEqual([it.split(" ", 2)[:2] for it in said if it != "what was asked"], [["From", "a"]] * 2)

    def test_a_selection_of_what_is_not_published(self):
        registry = registry_of([json.loads(publish("a", "1.0.0"))])
        for selected, needs, told in (({"a": "2.0.0"}, ["a *"], "a 2.0.0 was selected and is not published"),
                                      ({}, ["a *"], "the selection lacks what it needs")):
            with self.assertRaisesRegex(ValueError, told):
                drawing.draw_selection(registry, asked(resolve(*needs)), selected, "what was asked")

    def test_packages_that_need_each_other(self):
        lines = [publish("a", "1.0.0", ["b *"]), publish("b", "1.0.0", ["c *", "d *"]),
                 publish("c", "1.0.0", ["a *", "b *"]), publish("d", "1.0.0", ["d-2 *"]), publish("d-2", "1.0.0")]
        self.assertIn("A red line leads back up, where packages need each other.",
                      self.dots(lines, resolve("a *", "c *"))[1])


ASKED = [publish("app", "1.0.0", ["log ^1"]), publish("app", "1.1.0", ["log ^2"]), publish("tiny", "1.0.0"),
         *(publish("log", it) for it in ("1.0.0", "2.0.0", "2.1.0", "2.2.0")), yank("log", "2.2.0")]


class Typed(Folder):
    def test_the_picture_of_why_a_version_is_not_selected(self):
        self.hold(*ASKED)
        # a selection with the version, which the request then asks for; and why there is none with it
        for version, shown, dots in (
                ("1.0.0", ["app *: a selection with log 1.0.0", "the request", "app 1.0.0", "log 1.0.0"],
                 ["the request needs app *", "the request needs log =1.0.0", "app 1.0.0 needs log ^1"]),
                ("2.2.0", ["app *: log 2.2.0 can't be selected", "1", "log 2.2.0 can't be selected",
                           "because log 2.2.0 is asked for and log 2.2.0 is yanked"], [])):
            status, *_ = self.registry("why", "app *", "--not", "log", version, "--picture", self.path("why.svg"))
            top, texts, _ = drawn(self.text("why.svg"))
            # without what says how the picture is read
            said = [it for it, _, _ in texts if not it.startswith(("From a package", "A box is"))]
            self.assertEqual((status, said), (0, shown))
            self.assertEqual([it.text for it in top.iter(SVG + "title")], dots)

    def test_the_page(self):
        # what docs/WHY.md tells to type prints what it says, and its pictures are those that are drawn
        shown = [re.sub("(?m)^    ", "", block.strip("\n")).split("\n")
                 for block in re.findall(r"(?:^    .*\n|^\n(?=    ))+", page("docs/WHY.md"), re.M)]
        self.assertEqual(len(shown), 8)
        for typed, told in zip(shown[::2], shown[1::2]):
            self.assertEqual(answers(self.folder, [it.replace("docs/", "") for it in typed]), (told, 0))
        for picture in ("why.svg", "selection.svg"):
            new, old = (Path(folder, picture).read_text(encoding="utf-8")
                        for folder in (self.folder, os.path.join(TOP, "docs")))
            self.assertEqual(new, old, f"docs/{picture}")
