"""Pictures of long derivations: what is drawn, what is folded, and what is told of that."""
import json

from bench import workloads
from registry_cli import drawing
from tests.program.test_registry_why import SVG, drawn, refusal
from tests.support.registry_folder import Folder

FEW = 65  # boxes that a folded picture has at most


def hidden_below(step, shown):
    """The lines that are not shown and that a line rests on, directly or along others of them."""
    found, waiting = set(), [step]
    while waiting:
        below = {it for it in waiting.pop().below() if it.number and it.number not in shown} - found
        found |= below
        waiting += below
    return found


class Folded(Folder):
    def test_each_box_tells_what_it_rests_on_or_how_much_is_folded(self):
        derivation = refusal(110)
        lines = {it.number: it for it in derivation.steps if it.number}
        top, texts, (_, high) = drawn(drawing.draw_derivation(derivation, "what was asked"))
        boxes, said = [it for it in top.iter(SVG + "rect") if it.get("rx")], [it for it, _, _ in texts]
        numbers = [int(it) for it in said if it.isdigit()]
        self.assertGreater(len(lines), 650)
        self.assertLess(len(numbers), FEW)
        self.assertLess(high, 4_000)
        self.assertEqual((len(boxes), numbers), (len(numbers), sorted(numbers)))
        self.assertEqual(numbers[-1], derivation.last.number)
        self.assertIn(f"{len(lines) - len(numbers)} of the {len(lines)} lines are folded: a dashed box says what they "
                      "lead to. The sentences tell all of them.", said)
        dashed = [number for number, it in zip(numbers, boxes) if it.get("stroke-dasharray")]
        for number in numbers:
            below = {it.number for it in lines[number].below() if it.number}
            self.assertEqual(below <= set(numbers), number not in dashed, number)
        folded = [int(it.split(" ")[2]) for it in said if it.endswith(", folded here")]
        self.assertEqual(folded, [len(hidden_below(lines[it], set(numbers))) for it in dashed])

    def test_one_that_is_not_long_is_drawn_whole(self):
        for storeys, is_folded in ((1, False), (12, True)):
            derivation = refusal(storeys)
            lines = [it for it in derivation.steps if it.number]
            said = [it for it, _, _ in drawn(drawing.draw_derivation(derivation, "what was asked"))[1]]
            self.assertEqual((len(lines) > 50, any("folded" in it for it in said)), (is_folded, is_folded))
            self.assertEqual(sum(it.isdigit() for it in said) < len(lines), is_folded)

    def test_the_command(self):
        lines, (request,) = workloads.tower(30)
        self.hold(*lines)
        needs, found = ["@".join(it) for it in json.loads(request)["needs"]], []
        for more in ([], ["--unfolded"]):
            answered = self.registry("why", *needs, "--picture", self.path("why.svg"), *more)
            numbers = [it for it, _, _ in drawn(self.text("why.svg"))[1] if it.isdigit()]
            found.append((answered, len(numbers)))
        self.assertEqual(found[0][0], found[1][0])  # the sentences are all there in both
        self.assertEqual((found[0][0][0], found[0][0][2]), (0, ""))
        self.assertLess(found[0][1], FEW)
        self.assertGreater(found[1][1], 180)
