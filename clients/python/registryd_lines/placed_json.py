"""JSON as the program reads it, as the crate `serde_json` does, with the place of each value. Python's own reader tells
no places, and reads what the program does not: NaN, halves of surrogates, numbers out of range, endless nesting."""
from __future__ import annotations

import json
import re
import unicodedata
from collections.abc import Callable
from typing import Union

from .fault import Bad, shown
from .texts import past

OPENING = {"'": "'", "‘": "’", "’": "’", "“": "”", "”": "”", "„": "“", "`": "`", "«": "»"}
WORD = re.compile(r"[A-Za-z_$][A-Za-z0-9_$.+-]*")
LITERALS = {"true": "true", "false": "false", "null": "null", "none": "null", "nil": "null"}
NUMBER_LIKE = re.compile(r"[0-9A-Za-z.+_-]+")
CLOSING = {"{": "}", "[": "]"}
KINDS = {"{": "object", "[": "array"}
Held = Union[str, bool, int, float, list["Value"], dict[str, "Value"], None]

MOST_DEPTH = 127
SPACE = re.compile(r"[ \t\n\r]*")
PLAIN = re.compile(r'[^"\\\x00-\x1f]*')
NUMBER = re.compile(r"-?(?:0|[1-9][0-9]*)(\.[0-9]+)?([eE][+-]?[0-9]+)?")
UNIT = re.compile(r"\\u([0-9A-Fa-f]{4})")
ESCAPES = {'"': '"', "\\": "\\", "/": "/", "b": "\b", "f": "\f", "n": "\n", "r": "\r", "t": "\t"}
WORDS = {"true": True, "false": False, "null": None}
NO_NAMES: dict[str, Value] = {}  # of what is no object


class Value:
    """A value and where it stands in the text. An array holds values; an object holds values by name, and has the
    places of the names beside them. `text`, `items` and `members` are for who knows which of them it is."""
    __slots__ = ("held", "start", "end", "names")

    def __init__(self, held: Held, start: int, end: int, names: dict[str, Value] | None = None) -> None:
        self.held, self.start, self.end, self.names = held, start, end, names or NO_NAMES

    @property
    def text(self) -> str:
        assert isinstance(self.held, str)
        return self.held

    @property
    def items(self) -> list[Value]:
        assert isinstance(self.held, list)
        return self.held

    @property
    def members(self) -> dict[str, Value]:
        assert isinstance(self.held, dict)
        return self.held


def read(text: str, whose: str = "line") -> Value:
    """The value of a text, or Bad."""
    reader = Reader(text)
    value = reader.value(reader.space(0))
    end = reader.space(value.end)
    if end < len(text):
        raise behind_the_value(text, end, whose)
    return value


def place_in(text: str, value: Value, index: int) -> int:
    """Where a letter of a string value stands by its index; one past the last stands at the closing quote."""
    place = value.start + 1
    for _ in range(index):
        if place >= value.end - 1:
            break
        place = Reader(text).letter(place)[1] if text[place] == "\\" else place + 1
    return place


class Reader:
    """Reads values of one text; each method takes the place where something begins."""

    def __init__(self, text: str) -> None:
        self.text, self.depth = text, 0

    def space(self, at: int) -> int:
        return past(SPACE, self.text, at)

    def value(self, at: int) -> Value:
        first = self.text[at:at + 1]
        if first == '"':
            return self.string(at)
        if first == "{":
            return self.nested(at, self.object)
        if first == "[":
            return self.nested(at, self.array)
        for word, held in WORDS.items():
            if self.text.startswith(word, at):
                return Value(held, at, at + len(word))
        found = NUMBER.match(self.text, at)
        if found and not NUMBER_LIKE.match(self.text, found.end()):
            return Value(self.number(found), at, found.end())
        raise no_value(self.text, at)

    def nested(self, at: int, read_inside: Callable[[int], Value]) -> Value:
        self.depth += 1
        if self.depth > MOST_DEPTH:
            raise Bad(at, f"more than {MOST_DEPTH} brackets are open")
        value = read_inside(at)
        self.depth -= 1
        return value

    def array(self, at: int) -> Value:
        items: list[Value] = []
        place = self.space(at + 1)
        if self.text.startswith("]", place):
            return Value(items, at, place + 1)
        while True:
            items.append(self.value(place))
            place = self.space(items[-1].end)
            if self.text.startswith("]", place):
                return Value(items, at, place + 1)
            place = self.behind_comma(at, items[-1].end, place)

    def object(self, at: int) -> Value:
        members: dict[str, Value] = {}
        names: dict[str, Value] = {}
        place = self.space(at + 1)
        if self.text.startswith("}", place):
            return Value(members, at, place + 1, names)
        while True:
            if not self.text.startswith('"', place):
                raise no_name(self.text, place)
            name = self.string(place)
            place = self.space(name.end)
            if not self.text.startswith(":", place):
                raise no_colon(self.text, name.end, place)
            # a member that comes twice is the one that comes last
            names[name.text], members[name.text] = name, self.value(self.space(place + 1))
            end = members[name.text].end
            place = self.space(end)
            if self.text.startswith("}", place):
                return Value(members, at, place + 1, names)
            place = self.behind_comma(at, end, place)

    def behind_comma(self, opened: int, end: int, place: int) -> int:
        """Where the next item or member of what was opened begins, behind the one that ended."""
        if not self.text.startswith(",", place):
            raise no_comma(self.text, opened, end, place)
        behind = self.space(place + 1)
        if self.text[behind:behind + 1] in ("]", "}"):
            raise Bad(place, "there is a trailing comma", (place, place + 1, ""))
        return behind

    def number(self, found: re.Match[str]) -> int | float:
        whole = not (found[1] or found[2]) and found[0] != "-0" and len(found[0]) <= 20
        if whole and -2 ** 63 <= int(found[0]) < 2 ** 64:
            return int(found[0])
        number = float(found[0])
        if number in (float("inf"), float("-inf")):
            raise Bad(found.start(), "this number is out of range")
        return number

    def string(self, at: int) -> Value:
        parts, place = [], at + 1
        while True:
            end = past(PLAIN, self.text, place)
            parts.append(self.text[place:end])
            place = end
            stop = self.text[place:place + 1]
            if stop == '"':
                return Value("".join(parts), at, place + 1)
            if stop != "\\":
                raise no_letter(self.text, at, place)
            letter, place = self.letter(place)
            parts.append(letter)

    def letter(self, at: int) -> tuple[str, int]:
        plain = ESCAPES.get(self.text[at + 1:at + 2])
        if plain:
            return plain, at + 2
        first = self.unit(at)
        if 0xdc00 <= first < 0xe000:
            raise Bad(at, "the second half of a pair of surrogates has no first one before it")
        if not 0xd800 <= first < 0xdc00:
            return chr(first), at + 6
        second = self.unit(at + 6) if self.text.startswith("\\u", at + 6) else 0
        if not 0xdc00 <= second < 0xe000:
            raise Bad(at, "the first half of a pair of surrogates has no second one after it")
        return chr(0x10000 + ((first - 0xd800) << 10) + (second - 0xdc00)), at + 12

    def unit(self, at: int) -> int:
        found = UNIT.match(self.text, at)
        if not found:
            raise no_escape(self.text, at)
        return int(found[1], 16)


# ---- what people write where JSON wants something else, as a Bad with what they probably meant

def no_value(text: str, at: int) -> Bad:
    """Where a value should begin and none does."""
    first = text[at:at + 1]
    if not first:
        return Bad(at, "the line ends where a value is expected" if text.strip() else "the line is empty")
    odd = strange(text, at)
    if odd:
        return odd
    if not text[:at].strip():
        return Bad(at, 'a line is a request in JSON, as {"op":"list"}')
    if first in OPENING:
        return quoted_otherwise(text, at)
    if first in "]}:,":
        return Bad(at, f"a value is missing before {first}")
    word = WORD.match(text, at)
    if word:
        return bare_word(at, word[0])
    number = NUMBER_LIKE.match(text, at)
    if number:
        return Bad(at, f"{shown(number[0])[1:-1]} is no number of JSON")
    return Bad(at, f"no value begins with {shown(first)}")


def quoted_otherwise(text: str, at: int) -> Bad:
    """A text in quotes that are not JSON's."""
    end = text.find(OPENING[text[at]], at + 1)
    edit = (at, end + 1, json.dumps(text[at + 1:end], ensure_ascii=False)) if end > 0 else None
    told = "double quotes, not in single ones" if text[at] == "'" else f"straight double quotes, not in {text[at]}"
    return Bad(at, f"a text must be in {told}", edit)


def bare_word(at: int, word: str) -> Bad:
    literal = LITERALS.get(word.lower())
    if literal:
        return Bad(at, f"{word} is no word of JSON", (at, at + len(word), literal))
    if word in ("NaN", "Infinity"):
        return Bad(at, f"{word} is no number of JSON")
    return Bad(at, f"the text {shown(word)[1:-1]} has no quotes", (at, at + len(word), json.dumps(word)))


def strange(text: str, at: int) -> Bad | None:
    """What stands in a line where nothing may, or none."""
    first = text[at:at + 1]
    if first == "\ufeff":
        return Bad(at, "there is a byte order mark here, the bytes EF BB BF", (at, at + 1, ""))
    if text.startswith(("//", "/*", "#", "--"), at):
        return Bad(at, "JSON has no comments")
    if first.isspace() or unicodedata.category(first) in ("Cf", "Cc"):
        return Bad(at, f"the character U+{ord(first):04X} is no white space of JSON", (at, at + 1, " "))
    return None


def no_name(text: str, at: int) -> Bad:
    """Where a member's name should begin."""
    first = text[at:at + 1]
    if not first:
        return Bad(at, "the line ends where a member is expected")
    if first in OPENING:
        return quoted_otherwise(text, at)
    if first == ",":
        return Bad(at, "a member is missing before the comma", (at, at + 1, ""))
    word = WORD.match(text, at)
    if word:
        return Bad(at, f"the name {shown(word[0])[1:-1]} has no quotes", (at, word.end(), json.dumps(word[0])))
    return strange(text, at) or Bad(at, f"a member begins with its name in double quotes, not with {shown(first)}")


def no_colon(text: str, end: int, at: int) -> Bad:
    """What stands between a name, which ended, and a value."""
    if at == len(text):
        return Bad(at, "the line ends after the name of a member")
    if text[at] == "=":
        behind = at + 2 if text.startswith("=>", at) else at + 1
        return Bad(at, "expected a colon between a name and its value, not =", (at, behind, ":"))
    if text[at] in ",}":
        return Bad(end, "this member has a name and no value")
    return strange(text, at) or Bad(end, "a colon is missing between a name and its value", (end, end, ":"))


def no_comma(text: str, opened: int, end: int, at: int) -> Bad:
    """What stands behind an item or a member in place of a comma or the closing bracket."""
    bracket = text[opened]
    if at == len(text):
        kind = f"the {KINDS[bracket]} that begins at column {opened + 1}"
        return Bad(at, f"the line ends and {kind} is not closed: a request must be on one line",
                   (end, end, CLOSING[bracket]))
    first = text[at]
    if first in "]}":
        return Bad(at, f"{first} closes what {bracket} opened at column {opened + 1}", (at, at + 1, CLOSING[bracket]))
    if first == ";":
        return Bad(at, "items are separated by commas", (at, at + 1, ","))
    if first == ":" and bracket == "[":
        return Bad(at, "an array has items and no names", (at, at + 1, ","))
    if first in '"{[' or first.isalnum() or first in OPENING:
        return Bad(end, "a comma is missing", (end, end, ","))
    return strange(text, at) or Bad(at, f"a comma or {CLOSING[bracket]} is expected here, not {shown(first)}")


def no_letter(text: str, opened: int, at: int) -> Bad:
    """What a text in quotes may not have as it stands."""
    if at == len(text):
        return Bad(opened, "this text has no closing quote")
    return Bad(at, f"the control character U+{ord(text[at]):04X} must be written as an escape in a text",
               (at, at + 1, json.dumps(text[at])[1:-1]))


def no_escape(text: str, at: int) -> Bad:
    """A backslash with something behind it that makes no escape."""
    behind = text[at + 1:at + 2]
    if not behind:
        return Bad(at, "the line ends after a backslash")
    if behind == "u":
        return Bad(at, "four hexadecimal digits must follow \\u")
    return Bad(at, f"\\{behind if behind.isprintable() else ''} is no escape of JSON", (at, at + 1, "\\\\"))


def behind_the_value(text: str, at: int, whose: str) -> Bad:
    """What stands behind the whole value of a line or a file."""
    held = {"line": "request", "file": "lock"}[whose]
    if text[at] == ",":
        return Bad(at, f"{whose}s are not separated by commas", (at, at + 1, ""))
    if text[at] in "]}":
        return Bad(at, f"one {text[at]} too many", (at, at + 1, ""))
    if text[at] in '"{[' or text[at].isalnum():
        return Bad(at, f"there is something after the {held}: each {whose} has one {held}")
    return strange(text, at) or Bad(at, f"{shown(text[at])} can't follow the {held}")
