"""Request lines for sessions that nobody would write by hand: most of them good, many damaged in their bytes, their
tokens or their members. Nothing here says what a line is answered."""
import json
import re
from collections.abc import Iterator
from json.encoder import encode_basestring, encode_basestring_ascii  # type: ignore[attr-defined]
from random import Random
from typing import Any

from registry_cli.limits import (
    MOST_DERIVATION_LINES, MOST_NAME_BYTES, MOST_NEEDS, MOST_REQUIREMENT_BYTES, MOST_VERSION_BYTES, MOST_VERSIONS)

NAMES = ["a", "b", "c", "d", "e-1"]
VERSIONS = ["1.0.0", "1.1.0", "1.2.3", "2.0.0", "2.0.0-rc.1", "0.3.1", "0.0.7", "1.0.0-alpha.1", "2.1.0+build.5"]
REQUIREMENTS = ["*", "^1", "^1.0.0", "^2.0.0", "=1.1.0", ">=1.1.0", "<2.0.0", ">=1.0.0, <2.0.0", "~1.0", "1.2.*",
                "^0.3", ">2", "x", "^2.0.0-rc.1", "1", "~1.2.3", "=2", "<=1.2, >0.3", ">=0.0.7"]
TEXTS = ["", "A", "9a", "a.b", "a" * MOST_NAME_BYTES, "a" * (MOST_NAME_BYTES + 1), "zed", "é", "a\u0000", "\ufeffa",
         "1.0", "01.0.0", "1.0.0-", "1.0.0-01", "1.0.0+", "1.0.0+01", "18446744073709551615.0.0",
         "18446744073709551616.0.0", "1.0.0-" + "9" * 40, "1.0.0+".ljust(MOST_VERSION_BYTES, "b"),
         "1.0.0+".ljust(MOST_VERSION_BYTES + 1, "b"), "1.0.0-alpha..1", " 1.0.0", "1.0.0 ", "v1.0.0", "", "^", ">=",
         "1,", ",1", "1 2", "1.0.0.0", "*, 1", "1.*.*", "1.*.2", "^*", "> 1", "=1.x", ", ".join(["^1"] * 32),
         ", ".join(["^1"] * 33), "^1".ljust(MOST_REQUIREMENT_BYTES), "^1".ljust(MOST_REQUIREMENT_BYTES + 1),
         "\u0661.0.0", "^\u0661", "1.0.0-\u0661", "publish", "learn", "list", "check", "null", "\U0001f600", "x" * 3000]
NUMBERS = ["0", "1", "2", "16", "-1", "-0", "0.0", "1.0", "1e0", "1E0", "4294967295", "4294967296",
           "18446744073709551615", "18446744073709551616", "1e308", "1e309", "-1e400", "1e-400", "00", "01", "+1", ".5",
           "1.", "0x10", "NaN", "Infinity", "-Infinity", "9" * 400, "1" + "0" * 30]
TOKEN = re.compile(r'"(?:[^"\\]|\\.)*"|[\[\]{},:]|[^\s\[\]{},:"]+|\s+')


class Raw(str):
    """A text that stands in a line as it is."""


class Twice(list[tuple[str, Any]]):
    """Members of an object that may name one twice."""


def places(rows: list[dict[str, Any]]) -> Iterator[tuple[str, Any, Any]]:
    """All that may be another in a derivation: its kind, what holds it, and its key there."""
    for row in rows:
        yield from ((key, row, key) for key in ("pivot", "conclusion", "causes"))
        for term in row["conclusion"]:
            yield from ((kind, term, place) for place, kind in enumerate(("package", "sign", "ordinals")))
        for place, cause in enumerate(row["causes"]):
            yield "cause", row["causes"], place
            yield from ((key, cause, key) for key in cause if key != "fact")


class Maker:
    """Makes the lines of one session."""

    def __init__(self, rng: Random) -> None:
        self.rng = rng

    def one(self, texts: list[str], other: list[str] = TEXTS) -> str:
        return self.rng.choice(texts if self.rng.random() < 0.985 else other)

    def pairs(self, names: list[str], texts: list[str], most: int) -> list[list[str]]:
        if self.rng.random() < 0.004:
            # about as many as there may be
            return [[f"n{number}", self.rng.choice(texts)]
                    for number in range(self.rng.choice([MOST_NEEDS - 1, MOST_NEEDS, MOST_NEEDS + 1, MOST_NEEDS + 2,
                                                         2 * MOST_NEEDS + 2]))]
        named = self.rng.sample(names, min(self.rng.choice([0, 1, 1, 2, 3]), len(names), most))
        if named and self.rng.random() < 0.02:
            named.append(self.rng.choice(named))
        return [[self.one([name]), self.one(texts)] for name in named]

    def command(self) -> dict[str, Any]:
        op, name = self.rng.choice(["publish"] * 5 + ["yank", "yank", "unyank"]), self.rng.choice(NAMES)
        made: dict[str, Any] = {"op": op, "name": self.one([name]), "version": self.one(VERSIONS)}
        if op == "publish":
            made["needs"] = self.pairs([it for it in [*NAMES, "zed"] if it != name or self.rng.random() < 0.05],
                                       REQUIREMENTS, 3)
        return made

    def request(self, op: str = "resolve") -> dict[str, Any]:
        made: dict[str, Any] = {"op": op, "needs": self.pairs([*NAMES, "zed"], REQUIREMENTS, 3) or [["a", "*"]]}
        if self.rng.random() < 0.4:
            made["lock"] = self.pairs([*NAMES, "zed"], VERSIONS, 3)
        return made

    def resolve(self) -> dict[str, Any]:
        made = self.request()
        if self.rng.random() < 0.75:
            made["explain"] = self.rng.random() < 0.9
        if self.rng.random() < 0.15:
            made["budget"] = self.rng.choice([0, 0, 1, 2, 3, 1000, 4294967295])
        return made

    def ordinals(self) -> list[int]:
        return sorted(self.rng.sample(range(6), self.rng.choice([0, 1, 1, 2, 3])))

    def cause(self) -> dict[str, Any]:
        return self.rng.choice([
            {"line": self.rng.choice([0, 1, 1, 2, 3])}, {"fact": "root"},
            {"fact": "need", "index": self.rng.choice([0, 0, 1, 2])},
            {"fact": "disallowed", "name": self.rng.choice(NAMES), "versions": self.ordinals()},
            {"fact": "premise", "name": self.rng.choice(NAMES), "need": self.rng.choice(REQUIREMENTS),
             "target": self.rng.choice(NAMES),
             "versions": self.ordinals(), "within": self.ordinals()}])

    def term(self) -> list[Any]:
        return [self.rng.choice(["", *NAMES]), self.rng.random() < 0.5, self.ordinals()]

    def derivation(self) -> list[dict[str, Any]]:
        """Lines of the form of a derivation, few of which follow."""
        return [{"causes": [self.cause(), self.cause()],
                 "conclusion": [self.term() for _ in range(self.rng.choice([0, 1, 2]))],
                 "pivot": self.rng.choice(["", *NAMES])} for _ in range(self.rng.choice([0, 1, 1, 2, 3]))]

    def repeated(self, rows: list[dict[str, Any]]) -> list[dict[str, Any]]:
        """A derivation with its first lines many times over: each follows as the first of its kind does, where that
        cites no line."""
        most = MOST_DERIVATION_LINES
        count = self.rng.choice([1, 2, 10, most // 2 - 1, most - 2, most - 1, most])
        first = rows[:self.rng.randrange(1, 3)]
        moved: list[dict[str, Any]] = json.loads(json.dumps(rows))
        for row in moved:
            for cause in row["causes"]:
                if "line" in cause:
                    cause["line"] += count * len(first)
        return first * count + moved

    def near(self, rows: list[dict[str, Any]]) -> list[dict[str, Any]]:
        """A derivation that differs in one place, and is of its form."""
        rows = json.loads(json.dumps(rows))
        if self.rng.random() < 0.1:
            place = self.rng.randrange(len(rows))
            rows[place:place + 1] = self.rng.choice([[], [rows[place], rows[place]]])
        else:
            kind, holder, key = self.rng.choice(list(places(rows)))
            holder[key] = self.near_value(kind, holder[key])
        return rows

    def near_value(self, kind: str, old: Any) -> Any:
        if kind in ("versions", "within", "ordinals"):
            return self.near_set(old)
        if kind == "conclusion":
            more = [self.rng.choice(["", *NAMES]), self.rng.random() < 0.5, self.ordinals()]
            return self.rng.choice([old[1:], old[:-1], old[::-1], [*old, more]])
        if kind in ("line", "index"):
            return self.rng.choice([max(0, old - 1), old + 1, 0, 4294967295])
        others: Any = {"causes": lambda: [old[::-1]], "cause": lambda: [self.cause()], "sign": lambda: [not old],
                       "need": lambda: REQUIREMENTS, "pivot": lambda: ["", *NAMES], "package": lambda: ["", *NAMES]}
        return self.rng.choice(others.get(kind, lambda: NAMES)())

    def near_set(self, ordinals: list[int]) -> list[int]:
        if self.rng.random() < 0.05:
            return list(range(0, self.rng.choice([64, 65, MOST_VERSIONS, MOST_VERSIONS + 904]),
                              self.rng.choice([1, 63, 64])))
        return sorted(set(ordinals) ^ {self.rng.choice([0, 1, 2, 3, 4, 5, 17, 4294967295])})

    def check(self) -> dict[str, Any]:
        return {**self.request("check"), "derivation": self.derivation()}

    def value(self) -> dict[str, Any]:
        """What one line says."""
        kind = self.rng.random()
        if kind < 0.55:
            return self.command()
        if kind < 0.85:
            return self.resolve()
        return self.check() if kind < 0.95 else {"op": "list"}

    # Lines

    def plain_line(self, value: Any) -> bytes:
        """The line that says this, in whatever words."""
        return self.written(value).encode()

    def line(self, value: Any) -> bytes:
        """The line that says this, or one that is damaged."""
        kind = self.rng.random()
        if kind < 0.6:
            return json.dumps(value).encode() if kind < 0.4 else self.plain_line(value)
        if kind < 0.8:
            return self.written(self.other(value)).encode("utf-8", "surrogatepass").replace(b"\n", b" ")
        text = json.dumps(value)
        return self.other_tokens(text).encode() if kind < 0.9 else self.other_bytes(text.encode())

    def space(self) -> str:
        return self.rng.choice([" ", "\t", "\r", "  "]) if self.rng.random() < 0.1 else ""

    def text(self, text: str) -> str:
        """A text in quotes, some of it in escapes."""
        if isinstance(text, Raw):
            return text
        if self.rng.random() < 0.8:
            return str((encode_basestring_ascii if self.rng.random() < 0.5 else encode_basestring)(text))
        return '"' + "".join("\\u%04x" % ord(it) if ord(it) < 65536
                             and self.rng.random() < 0.3 else json.dumps(it)[1:-1] for it in text) + '"'

    def written(self, value: Any) -> str:
        """A value as JSON, with white space, its members in any order."""
        if isinstance(value, Raw):
            return value
        if isinstance(value, dict):
            value = Twice(self.rng.sample(list(value.items()), len(value)))
        if isinstance(value, Twice):
            inside = ",".join(f"{self.space()}{self.text(name)}{self.space()}:{self.written(it)}" for name, it in value)
            return self.space() + "{" + inside + self.space() + "}" + self.space()
        if isinstance(value, list):
            return self.space() + "[" + ",".join(map(self.written, value)) + self.space() + "]" + self.space()
        told = self.text(value) if isinstance(value, str) else json.dumps(value)
        return self.space() + told + self.space()

    # Damage

    def other(self, value: Any) -> Any:
        """A value that is another one somewhere inside."""
        inside = list(value.items()) if isinstance(value,
                                                   dict) else list(enumerate(value)) if isinstance(value, list) else []
        if not inside or self.rng.random() < 0.15:
            return self.replaced(value)
        key, held = self.rng.choice(inside)
        kind = self.rng.random()
        if isinstance(value, dict):
            if kind < 0.1:
                return {name: it for name, it in value.items() if name != key}
            if kind < 0.2:
                return {**value,
                        self.rng.choice(["lock", "explain", "budget", "name", "", "Op", "op ",
                                         "x"]): self.replaced(held)}
            if kind < 0.35:
                return Twice([*value.items(), (key, self.replaced(held))] if kind < 0.28
                             else [(key, self.replaced(held)), *value.items()])
            return {**value, key: self.other(held)}
        if kind < 0.15:
            return [it for place, it in enumerate(value) if place != key]
        if kind < 0.3:
            return [*value[:key], held, *value[key:]]
        if kind < 0.35:
            return value * self.rng.choice([0, 2, 3, 70])
        if kind < 0.4:
            return value[::-1]
        return [*value[:key], self.other(held), *value[key + 1:]]

    def replaced(self, value: Any) -> Any:
        kind = self.rng.random()
        if kind < 0.3 or (isinstance(value, str) and kind < 0.7):
            return self.rng.choice([*TEXTS, *NAMES, *VERSIONS, *REQUIREMENTS])
        if kind < 0.5 or (isinstance(value, int) and kind < 0.8):
            return Raw(self.rng.choice(NUMBERS))
        if kind < 0.6:
            depth = self.rng.choice([1, 2, 120, 126, 127, 128, 129, 400])
            return Raw("[" * depth + "]" * depth if kind < 0.55 else '{"a":' * depth + "0" + "}" * depth)
        if kind < 0.65:
            return Raw(self.rng.choice(['"\\ud800"', '"\\udc00\\ud800"', '"\\ud83d\\ude00"', '"\\u0"', '"\\x41"',
                                        '"\t"', "'a'", '"\\/"', '"\\u0061"']))
        return self.rng.choice([None, True, False, [], {}, [value], {"": value}, [value, value],
                                [["a", "*"]], "", 0, 1])

    def other_tokens(self, text: str) -> str:
        """A text with a token left out, doubled, or another in its place."""
        tokens = TOKEN.findall(text)
        for _ in range(self.rng.choice([1, 1, 2])):
            place, kind = self.rng.randrange(len(tokens) or 1), self.rng.random()
            if kind < 0.3:
                del tokens[place:place + 1]
            elif kind < 0.6:
                tokens[place:place] = tokens[place:place + 1]
            else:
                tokens[place:place
                       + 1] = [self.rng.choice([*tokens, *NUMBERS, "null", "true", "//", "'", ";", "\\",
                                                "[", "}", ","])]
        return "".join(tokens)

    def other_bytes(self, line: bytes) -> bytes:
        """A line with some of its bytes changed, left out or put in."""
        for _ in range(self.rng.choice([1, 1, 1, 2, 4])):
            place, kind = self.rng.randrange(len(line) + 1), self.rng.random()
            if kind < 0.2:
                line = line[:place]
            elif kind < 0.4:
                line = line[:place] + line[place + 1:]
            elif kind < 0.6:
                line = line[:place] + self.rng.choice([b"\xff", b"\xc0\x80", b"\xed\xa0\x80", b"\xf4\x90\x80\x80",
                                                       b"\xe2\x82", b"\0", b"\xef\xbb\xbf",
                                                       b"\x7f", b"\xc3\xa9"]) + line[place:]
            else:
                line = line[:place] + bytes([self.rng.randrange(256)]) + line[place + (kind < 0.8):]
        return line.replace(b"\n", b" ")
