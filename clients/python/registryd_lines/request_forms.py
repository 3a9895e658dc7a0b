"""The forms of request lines: which members each has, and of which shape; and of the derivations in them: see
"Derivations" in docs/FORMATS.md. What is not of its form is answered 19, names and numbers of derivations too."""
from __future__ import annotations

import json
from collections.abc import Callable, Iterable, Mapping

from .fault import Edit, Fault, shown
from .nearest import nearest
from .placed_json import Held, Value
from .texts import name_fault

Form = Callable[["Forms", Value, str], None]

BEYOND_WHOLE = 2 ** 32
KINDS = {str: "a text", bool: "true or false", int: "a number", float: "a number", list: "an array", dict: "an object",
         type(None): "null"}
# members that were meant by others, which are not near in their letters
OTHER_MEMBERS = {"package": "name", "crate": "name", "vers": "version", "dependencies": "needs", "deps": "needs",
                 "requires": "needs", "requirements": "needs", "locked": "lock", "command": "op", "action": "op",
                 "type": "op", "kind": "fact", "because": "causes"}
FLAGS = {"true": "true", "1": "true", "yes": "true", "false": "false", "0": "false", "no": "false"}


class Forms:
    """Judges the values of one line, and notes what is not of its form."""

    def __init__(self, text: str) -> None:
        self.text = text
        self.faults: list[Fault] = []

    def fault(self, place: int, what: str, edit: Edit | None = None) -> None:
        self.faults.append(Fault(19, place, what, edit))

    def raw(self, value: Value) -> str:
        return self.text[value.start:value.end]

    def wrong(self, value: Value, whose: str, wanted: str, new: str | None = None) -> None:
        """A value of another shape than is wanted; a new text may stand in its place."""
        self.fault(value.start, f"{whose} is {wanted}, not {KINDS[type(value.held)]}",
                   (value.start, value.end, new) if new else None)

    # Objects

    def object(self, value: Value, whose: str, required: Mapping[str, Form],
               optional: Mapping[str, Form] | None = None) -> bool:
        """Whether a value is an object whose members have these forms; optional ones may be left out."""
        before, known = len(self.faults), {**required, **(optional or {})}
        if not isinstance(value.held, dict):
            self.wrong(value, whose, "an object")
            return False
        missing = [name for name in required if name not in value.held]
        for name in value.held:
            if name not in known:
                self.unknown(value, whose, name, known, missing)
        for name in missing:
            self.fault(value.end - 1, f"{whose} has no {shown(name)}, which it must have")
        for name, form in known.items():
            if name in value.held:
                form(self, value.held[name], shown(name))
        return len(self.faults) == before

    def unknown(self, value: Value, whose: str, name: str, known: Iterable[str], missing: list[str]) -> None:
        """A member that is none of those that there are. What was meant by it is not missing as well."""
        free = [other for other in known if other not in value.members]
        meant = OTHER_MEMBERS.get(name.lower())
        meant = meant if meant in free else nearest(name, missing) or nearest(name, free)
        if meant in missing:
            missing.remove(meant)
        place = value.names[name]
        rest = "" if meant else f"; it has {listed(known)}"
        self.fault(place.start, f"{whose} has no member {shown(name)}{rest}",
                   (place.start, place.end, json.dumps(meant)) if meant else None)

    # Values of members

    def text_member(self, value: Value, whose: str) -> None:
        if not isinstance(value.held, str):
            is_number = isinstance(value.held, (int, float)) and not isinstance(value.held, bool)
            self.wrong(value, whose, "a text in quotes", json.dumps(self.raw(value)) if is_number else None)

    def flag(self, value: Value, whose: str) -> None:
        if not isinstance(value.held, bool):
            wanted = "true or false, without quotes" if isinstance(value.held, str) else "true or false"
            self.wrong(value, whose, wanted, FLAGS.get(str(value.held).lower()))

    def whole(self, value: Value, whose: str) -> None:
        """A whole number of 32 bits, in digits alone."""
        held = value.held
        if isinstance(held, (int, float)) and not isinstance(held, bool):
            if isinstance(held, int) and 0 <= held < BEYOND_WHOLE:
                return
            meant = str(int(held)) if held == int(held) and 0 <= held < BEYOND_WHOLE else None
            wanted = f"a whole number from 0 to {BEYOND_WHOLE - 1:,} in digits only"
            self.fault(value.start, f"{whose} is {wanted}, not {shown(self.raw(value))[1:-1]}",
                       (value.start, value.end, meant) if meant else None)
            return
        is_number = isinstance(held, str) and held.isascii() and held.isdigit() and len(held) < 10
        self.wrong(value, whose, "a number in digits", str(int(value.text)) if is_number else None)

    def items(self, value: Value, whose: str, wanted: str) -> list[Value]:
        """The items of an array; none where it is no array."""
        if isinstance(value.held, list):
            return value.held
        self.wrong(value, whose, wanted)
        return []

    def needs(self, value: Value, whose: str) -> None:
        self.pairs(value, whose, "a name and a requirement", '["b","^1"]', "*")

    def lock(self, value: Value, whose: str) -> None:
        self.pairs(value, whose, "a name and a version", '["b","1.0.0"]', None)

    def pairs(self, value: Value, whose: str, parts: str, example: str, usual: str | None) -> None:
        form = f"an array of pairs of {parts}, as [{example}]"
        held = value.held
        if isinstance(held, dict):
            texts = all(isinstance(member.held, str) for member in held.values())
            pairs = [[name, member.held] for name, member in held.items()]
            self.wrong(value, whose, form, json.dumps(pairs) if texts else None)
        elif not isinstance(held, list):
            self.wrong(value, whose, form)
        elif len(held) == 2 and all(isinstance(item.held, str) and " " not in item.held for item in held):
            self.fault(value.start, f"{whose} is {form}", (value.start, value.end, f"[{self.raw(value)}]"))
        else:
            for item in held:
                if not is_pair(item):
                    self.fault(item.start, f"each item of {whose} is a pair of {parts}, as {example}",
                               self.pair_meant(item, usual))

    def pair_meant(self, item: Value, usual: str | None) -> Edit | None:
        """The edit that makes a pair of an item that is none."""
        held = item.held
        pair: list[Held] = []
        if isinstance(held, str):
            name, _, behind = held.replace("@", " ").strip().partition(" ")
            pair = [name, behind.strip() or usual]
        elif isinstance(held, dict) and len(held) == 2:
            pair = [member.held for member in held.values()]
        elif isinstance(held, list) and len(held) == 1:
            pair = [held[0].held, usual]
        is_meant = pair and all(isinstance(part, str) for part in pair)
        return (item.start, item.end, json.dumps(pair)) if is_meant else None


def is_pair(value: Value) -> bool:
    held = value.held
    return isinstance(held, list) and len(held) == 2 and all(isinstance(part.held, str) for part in held)


def listed(names: Iterable[str], word: str = "and") -> str:
    *others, last = map(shown, names)
    return f"{', '.join(others)} {word} {last}" if others else last


# ---- derivations

CAUSE = 'a cause, as {"line":1} or {"fact":"root"}'
TERM = 'a term, as ["a",true,[0]]'


def derivation(forms: Forms, value: Value, whose: str) -> None:
    for line in forms.items(value, whose, "an array of lines"):
        forms.object(line, "a line of a derivation", {"causes": causes, "conclusion": conclusion, "pivot": whose_name})


def causes(forms: Forms, value: Value, whose: str) -> None:
    held = forms.items(value, whose, "an array of two causes")
    if isinstance(value.held, list) and len(held) != 2:
        forms.fault(value.start, f"a line of a derivation has two causes, not {len(held)}")
    for item in held:
        cause(forms, item)


def cause(forms: Forms, value: Value) -> None:
    """A line or a fact, which the member `fact` tells."""
    if not isinstance(value.held, dict):
        forms.wrong(value, "a cause", CAUSE)
    elif "line" in value.held:
        forms.object(value, 'a cause with "line"', {"line": Forms.whole})
    elif "fact" not in value.held:
        forms.fault(value.start, 'a cause has either "line" or "fact"')
    else:
        fact(forms, value, value.held["fact"])


def fact(forms: Forms, value: Value, kind: Value) -> None:
    if not isinstance(kind.held, str):
        forms.wrong(kind, '"fact"', "a text in quotes")
    elif kind.held not in FACTS:
        meant = nearest(kind.held, FACTS)
        rest = "" if meant else f": it is {listed(FACTS, 'or')}"
        forms.fault(kind.start, f"there is no fact {shown(kind.held)}{rest}",
                    (kind.start, kind.end, json.dumps(meant)) if meant else None)
    else:
        forms.object(value, f"the fact {shown(kind.held)}", {"fact": Forms.text_member, **FACTS[kind.held]})


def conclusion(forms: Forms, value: Value, whose: str) -> None:
    for item in forms.items(value, whose, "an array of terms"):
        held = item.held
        if not isinstance(held, list) or len(held) != 3:
            forms.fault(item.start, f"each item of {whose} is {TERM}")
            continue
        whose_name(forms, held[0], "the name of a term")
        if not isinstance(held[1].held, bool):
            forms.wrong(held[1], "the second part of a term", "true or false")
        ordinals(forms, held[2], "the set of a term")


def ordinals(forms: Forms, value: Value, whose: str) -> None:
    """An array of whole numbers that rise."""
    before = len(forms.faults)
    items = forms.items(value, whose, "an array of ordinals, as [0,1]")
    for item in items:
        forms.whole(item, f"an ordinal of {whose}")
    if len(forms.faults) > before:
        return
    numbers = [item.held for item in items if isinstance(item.held, int)]
    for low, high, item in zip(numbers, numbers[1:], items[1:]):
        if low >= high:
            rising = sorted(set(numbers))
            forms.fault(item.start, f"the ordinals of {whose} rise, and {high} stands behind {low}",
                        (value.start, value.end, json.dumps(rising, separators=(",", ":"))))
            return


def name(forms: Forms, value: Value, whose: str) -> None:
    if not isinstance(value.held, str):
        forms.fault(value.start, f"{whose} is a package name, not {KINDS[type(value.held)]}")
        return
    bad = name_fault(value.held)
    if bad:
        forms.fault(value.start, f"{whose}: {bad.what}")


def whose_name(forms: Forms, value: Value, whose: str) -> None:
    """A package's name, or the empty text for the request."""
    if value.held != "":
        name(forms, value, whose)


# by the word of a fact its other members
FACTS: dict[str, dict[str, Form]] = {
    "root": {}, "need": {"index": Forms.whole}, "disallowed": {"name": name, "versions": ordinals},
    "premise": {"name": name, "need": Forms.text_member, "target": whose_name, "versions": ordinals,
                "within": ordinals}}


# ---- requests

MARKED: dict[str, Form] = {"name": Forms.text_member, "version": Forms.text_member}
# by op the members that must be there, and those that may
OPS: dict[str, tuple[dict[str, Form], dict[str, Form]]] = {
    "publish": ({**MARKED, "needs": Forms.needs}, {}), "yank": (MARKED, {}), "unyank": (MARKED, {}),
    "resolve": ({"needs": Forms.needs}, {"lock": Forms.lock, "explain": Forms.flag, "budget": Forms.whole}),
    "check": ({"needs": Forms.needs, "derivation": derivation}, {"lock": Forms.lock}),
    "list": ({}, {})}
# ops that were meant by other words, which are not near in their letters
OTHER_OPS = {"add": "publish", "release": "publish", "remove": "yank", "delete": "yank", "unpublish": "yank",
             "restore": "unyank", "solve": "resolve", "install": "resolve", "lock": "resolve", "ls": "list",
             "show": "list", "verify": "check"}


def has_form(forms: Forms, value: Value) -> bool:
    """Whether the value of a line has the form of a request; the forms note what is not."""
    if not isinstance(value.held, dict):
        alone = forms.raw(value.held[0]) if isinstance(value.held, list) and len(value.held) == 1 else None
        forms.wrong(value, "a request", "an object", alone)
        return False
    op = value.held.get("op")
    if op is None:
        no_op(forms, value)
    elif not isinstance(op.held, str):
        forms.wrong(op, '"op"', "a text in quotes")
    elif op.held not in OPS:
        unknown_op(forms, op)
    else:
        required, optional = OPS[op.held]
        whose = f"{'an' if op.held == 'unyank' else 'a'} {op.held} line"
        return forms.object(value, whose, {"op": Forms.text_member, **required}, optional)
    return False


def no_op(forms: Forms, value: Value) -> None:
    """A request that does not say what it asks."""
    members = value.members
    other = next((name for name in members if OTHER_MEMBERS.get(name.lower()) == "op" or nearest(name, ["op"])), None)
    if other is not None:
        place = value.names[other]
        forms.fault(place.start, f'a request has an "op", not {shown(other)}', (place.start, place.end, '"op"'))
        return
    meant = next((op for op in ("publish", "check", "resolve") if OPS[op][0].keys() <= members.keys()), None)
    inside = value.start + 1
    forms.fault(value.start, f'a request has an "op", which is {listed(OPS, "or")}',
                (inside, inside, f'"op":"{meant}",') if meant else None)


def unknown_op(forms: Forms, op: Value) -> None:
    meant = OTHER_OPS.get(op.text.lower()) or nearest(op.text, OPS)
    rest = "" if meant else f": it is {listed(OPS, 'or')}"
    forms.fault(op.start, f"there is no op {shown(op.text)}{rest}",
                (op.start, op.end, json.dumps(meant)) if meant else None)
