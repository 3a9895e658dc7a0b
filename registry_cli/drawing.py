"""Pictures of a derivation and of a selection, as SVG.

A derivation is a column of boxes, each below those that it rests on; a line on the left leads from a box to those that
cite it. A selection is a staircase of packages: what a package needs is to the right of it and then down."""
from __future__ import annotations

import html
import textwrap

from .check_derivation import ROOT, demand
from .derivation import FAILED, Fact, Step, joined
from .shapes import Container, Derivation, Iterable, Mapping, Needs, Registry, Request, Sequence

MARGIN = 16
MOST_SHOWN = 48  # lines of a long derivation, those nearest to its end; what they rest on besides stands folded
INK, FAINT, PAPER, EDGE, ALARM = "#222222", "#5c6b7a", "#f4f6f8", "#44546a", "#b3261e"
COLOURS = ["#3b6ea5", "#b5651d", "#3d8b57", "#8a4f9e", "#a33b5b", "#4f7f86"]
# a box of a derivation: its letters, the rows of them, what is left free, and how far the lines on its left are apart
SAID, WHY, ROW, GAP, LANE, MOST_LETTERS = 13, 11, 15, 8, 11, 110
# a step of the staircase
STAIR = 18
# how wide a letter is, for the widest of the common fonts, in parts of its size
NARROW, WIDE = set("fijlrt.,:;'|!()[] -"), set("mwMW@%")
# letters that stand on lines are seen whole
HALO = '<text paint-order="stroke" stroke="#ffffff" stroke-width="3"'


# ---- pieces of SVG

def text(x: float, y: float, words: str, size: float, colour: str = "#222222", anchor: str = "start") -> str:
    escaped = html.escape(words, quote=False)
    return f'<text x="{x:.0f}" y="{y:.0f}" font-size="{size}" fill="{colour}" text-anchor="{anchor}">{escaped}</text>'


def width(words: str, size: float) -> float:
    """About how wide a text is, rather too much than too little."""
    return size * sum(0.4 if it in NARROW else 1.0 if it in WIDE else 0.72 if it.isupper() else 0.64 for it in words)


def line(points: Iterable[tuple[float, float]], colour: str, thick: float = 1.4) -> str:
    way = "M" + " L".join(f"{x:.1f} {y:.1f}" for x, y in points)
    return f'<path d="{way}" fill="none" stroke="{colour}" stroke-width="{thick}"/>'


def dot(x: float, y: float, colour: str, size: float = 3.0, title: str | None = None) -> str:
    inside = f"<title>{html.escape(title, quote=False)}</title>" if title else ""
    return f'<circle cx="{x:.1f}" cy="{y:.1f}" r="{size}" fill="{colour}">{inside}</circle>'


def arrow(x: float, y: float, colour: str, right: int = 0, down: int = 0) -> str:
    """The head of an arrow that ends here and looks to one side."""
    back, beside = (x - 6 * right, y - 6 * down), (4 * down, 4 * right)
    ends = [(back[0] + sign * beside[0], back[1] + sign * beside[1]) for sign in (1, -1)]
    sides = " ".join(f"L{one:.1f} {other:.1f}" for one, other in ends)
    return f'<path d="M{x:.1f} {y:.1f} {sides} Z" fill="{colour}"/>'


def sheet(wide: float, high: float, pieces: Sequence[str]) -> str:
    head = (f'<svg xmlns="http://www.w3.org/2000/svg" width="{wide:.0f}" height="{high:.0f}" '
            f'viewBox="0 0 {wide:.0f} {high:.0f}" font-family="sans-serif">')
    return "\n".join([head, '<rect width="100%" height="100%" fill="#ffffff"/>', *pieces, "</svg>"]) + "\n"


# ---- a derivation

def cited(step: Step) -> list[Step]:
    return [it for it in step.below() if it.number]


def folded(derivation: Derivation, most: float = MOST_SHOWN) -> dict[Step, int]:
    """The lines to show, each with how many hidden ones it rests on: `most` have reasons, the others none."""
    lines = [it for it in derivation.steps if it.number]
    if len(lines) <= most:
        return {it: 0 for it in lines}
    shown: dict[Step, int] = {}
    waiting = [derivation.last]
    for step in waiting:  # it grows: the lines by their distance from the last one
        if len(shown) < most and step not in shown:
            shown[step] = 0
            waiting += cited(step)
    ends = [it for it in waiting if it not in shown]
    shown |= {end: hidden_below(end, {*shown, *ends}) for end in ends}
    return {it: shown[it] for it in lines if it in shown}


def hidden_below(end: Step, shown: Container[Step]) -> int:
    """How many lines a line rests on, directly or not, that are not among these."""
    found: set[Step] = set()
    waiting = [end]
    while waiting:
        for it in cited(waiting.pop()):
            if it not in shown and it not in found:
                found.add(it)
                waiting.append(it)
    return len(found)


class Box:
    """`hidden` is how many lines without a box it rests on; its other reasons are left out then."""

    def __init__(self, derivation: Derivation, step: Step, failed: str, hidden: int = 0) -> None:
        self.number, self.is_last, self.hidden = step.number, step is derivation.last, hidden
        self.cites = [] if hidden else [it.number for it in cited(step)]
        alone = facts_of(step)
        told = [joined(alone[0], alone[1], [step, *step.below()])] if len(alone) == 2 else [it.said for it in alone]
        if hidden:
            told = [f"of {hidden} line{'s' * (hidden > 1)}, folded here"]
        self.said = textwrap.wrap(failed if self.is_last else derivation.conclusion(step), MOST_LETTERS)
        told += [f"line {it}" for it in self.cites]
        self.why = textwrap.wrap("because " + " and ".join(told), MOST_LETTERS + 20)
        self.high = 12 + (ROW + 2) * len(self.said) + ROW * len(self.why)
        self.top = 0.0

    def wide(self) -> float:
        return max(*(width(it, SAID) for it in self.said), *(width(it, WHY) for it in self.why))

    def enters(self, number: int | None) -> float:
        return self.top + 11 + 9 * self.cites.index(number)

    def leaves(self) -> float:
        return self.top + self.high - 7

    def drawn(self, x: float, gutter: float, wide: float) -> list[str]:
        colour, y = ALARM if self.is_last else EDGE, self.top + 19
        dashes = ' stroke-dasharray="5 4"' if self.hidden else ""
        outline = f'stroke="{colour}" stroke-width="{2 if self.is_last else 1}"{dashes}'
        pieces = [f'<rect x="{x:.0f}" y="{self.top:.0f}" width="{gutter + wide:.0f}" height="{self.high:.0f}" rx="5" '
                  f'fill="{PAPER}" {outline}/>', text(x + gutter - 8, y, str(self.number), WHY, FAINT, "end")]
        for row in self.said:
            pieces.append(text(x + gutter, y, row, SAID, colour if self.is_last else INK))
            y += ROW + 2
        for row in self.why:
            pieces.append(text(x + gutter, y - 1, row, WHY, FAINT))
            y += ROW
        return pieces


def facts_of(step: Step) -> list[Fact]:
    facts: list[Fact] = []
    for cause in step.causes:
        if isinstance(cause, Fact):
            facts.append(cause)
        elif not cause.number:
            facts += cause.facts()
    return facts


def lanes_of(boxes: Sequence[Box]) -> dict[int | None, int]:
    """The lane of each line that is cited: short ways next to the boxes, and no two on one piece of a lane."""
    ends: dict[int | None, int] = {}
    for place, box in enumerate(boxes):
        for number in box.cites:
            ends[number] = place
    starts = {box.number: place for place, box in enumerate(boxes)}
    lanes: dict[int | None, int] = {}
    taken: list[list[tuple[int, int]]] = []
    for number in sorted(ends, key=lambda it: (ends[it] - starts[it], starts[it])):
        start, end = starts[number], ends[number]
        free = (at for at, ways in enumerate(taken) if all(end <= low or high <= start for low, high in ways))
        lane = next(free, len(taken))
        taken += [[]] if lane == len(taken) else []
        taken[lane].append((start, end))
        lanes[number] = lane
    return lanes


def ways(boxes: Sequence[Box], lanes: Mapping[int | None, int], left: float) -> list[str]:
    """The lines from boxes to those that cite them, each with a dot where another one is cited before the last."""
    pieces: list[str] = []
    by_number = {box.number: box for box in boxes}
    for number, lane in lanes.items():
        x, colour, box = left - 14 - LANE * lane, COLOURS[lane % len(COLOURS)], by_number[number]
        citing = [it for it in boxes if number in it.cites]
        pieces.append(line([(left, box.leaves()), (x, box.leaves()), (x, citing[-1].enters(number))], colour))
        for it in citing:
            y = it.enters(number)
            pieces += [line([(x, y), (left - 5, y)], colour), arrow(left, y, colour, right=1)]
            pieces += [dot(x, y, colour)] if it is not citing[-1] else []
    return pieces


def legend(derivation: Derivation, boxes: Sequence[Box]) -> list[str]:
    """How the picture is read, and how much of the derivation it shows."""
    told = ["A box is a line of the derivation. It rests on what it names and on the boxes that lead to it from the "
            "left."]
    lines = sum(it.number is not None for it in derivation.steps)
    if lines > len(boxes):
        folded_lines = f"{lines - len(boxes):,} of the {lines:,} lines are folded"
        told.append(f"{folded_lines}: a dashed box says what they lead to. The sentences tell all of them.")
    return told


def draw_derivation(derivation: Derivation, title: str, failed: str = FAILED, most: float = MOST_SHOWN) -> str:
    title = textwrap.shorten(title, MOST_LETTERS, placeholder=" ..")
    boxes = [Box(derivation, step, failed, hidden) for step, hidden in folded(derivation, most).items()]
    told = legend(derivation, boxes)
    lanes = lanes_of(boxes)
    left = MARGIN + 14 + LANE * (max(lanes.values(), default=-1) + 1)
    gutter = 20 + width(str(boxes[-1].number), WHY)
    wide = 12 + max(*(box.wide() for box in boxes), width(title, SAID), *(width(it, WHY) for it in told))
    y: float = MARGIN + 28 + 14 * len(told)
    for box in boxes:
        box.top = y
        y += box.high + GAP
    rows = [text(left, MARGIN + 28 + 14 * at, it, WHY, FAINT) for at, it in enumerate(told)]
    pieces = [text(left, MARGIN + 12, title, SAID), *rows, *ways(boxes, lanes, left)]
    for box in boxes:
        pieces += box.drawn(left, gutter, wide)
    return sheet(left + gutter + wide + MARGIN, y - GAP + MARGIN, pieces)


# ---- a selection

def needs_of(registry: Registry, request: Request, selected: Mapping[str, str]) -> dict[str, dict[str, str]]:
    needs = {ROOT: dict(request["needs"])}
    for name, version in selected.items():
        release = registry.find(name, version)
        if release is None:
            raise ValueError(f"{name} {version} was selected and is not published")
        needs[name] = release.needs
    demand(all(it in needs for row in needs.values() for it in row), "the selection lacks what it needs", ValueError)
    return needs


def from_above(needs: Needs) -> list[str]:
    """The packages, each above those that it needs, but where they need each other."""
    order: list[str] = []
    seen, open_names = {ROOT}, [(ROOT, reversed(needs[ROOT]))]
    while open_names:
        name, rest = open_names[-1]
        below = next((it for it in rest if it not in seen), None)
        if below is None:
            order.append(name)
            open_names.pop()
        else:
            seen.add(below)
            open_names.append((below, reversed(needs[below])))
    return order[::-1]


def stairs(needs: Needs, order: Sequence[str], places: Mapping[str, tuple[float, float]],
           labels: Mapping[str, str]) -> list[str]:
    """To what each package needs: right to the other's column and down, or back beneath the names and up."""
    pieces: list[str] = []
    at = {name: place for place, name in enumerate(order)}
    for name in order:
        x, y = places[name]
        colour = COLOURS[at[name] % len(COLOURS)]
        down = [it for it in needs[name] if at[it] > at[name]]
        if down:
            pieces.append(line([(x, y), (max(places[it][0] for it in down), y)], colour, 1))
        citing = [it for it in order[:at[name]] if name in needs[it]]
        if citing:
            pieces += [line([(x, places[citing[0]][1]), (x, y - 6)], colour, 1), arrow(x, y - 4, colour, down=1)]
    for name in order:
        x, y = places[name]
        for it in needs[name]:
            told = f"{labels[name]} needs {it} {needs[name][it]}"
            if at[it] > at[name]:
                pieces.append(dot(places[it][0], y, INK, 3.0, told))
            else:
                back, up = places[it]
                pieces += [line([(x, y), (x, y + STAIR / 2), (back, y + STAIR / 2), (back, up)], ALARM, 1),
                           arrow(back, up + 4, ALARM, down=-1), dot(back, y + STAIR / 2, ALARM, 3.0, told)]
    return pieces


def draw_selection(registry: Registry, request: Request, selected: Mapping[str, str], title: str) -> str:
    title = textwrap.shorten(title, MOST_LETTERS, placeholder=" ..")
    needs = needs_of(registry, request, selected)
    order = from_above(needs)
    labels = {name: f"{name} {selected[name]}" if name else "the request" for name in order}
    told = ["From a package go right to each dot on its line, and from there down: that is what it needs.",
            "From a package go up to each dot on its column, and from there left: that needs it."]
    if any(order.index(it) < order.index(name) for name in order for it in needs[name]):
        told.append("A red line leads back up, where packages need each other.")
    left = MARGIN + max(width(labels[name], 12) - STAIR * place for place, name in enumerate(order)) + 10
    head = MARGIN + 42 + 14 * len(told)
    places = {name: (left + STAIR * place, head + STAIR * place) for place, name in enumerate(order)}
    pieces = [text(MARGIN, MARGIN + 12, title, SAID),
              *(text(MARGIN, MARGIN + 28 + 14 * at, it, WHY, FAINT) for at, it in enumerate(told))]
    pieces += stairs(needs, order, places, labels)
    for place, name in enumerate(order):
        x, y = places[name]
        label = text(x - 9, y + 4, labels[name], 12, INK if name else EDGE, "end")
        pieces += [dot(x, y, COLOURS[place % len(COLOURS)], 4.0), label.replace("<text", HALO)]
    wide = max(left + STAIR * len(order), MARGIN + max(width(it, WHY) for it in told), MARGIN + width(title, SAID))
    return sheet(wide + MARGIN, head + STAIR * len(order) + MARGIN, pieces)
