"""What is asked: requests as values, and their lines."""
from __future__ import annotations

import json
import os
from collections.abc import Callable, Iterable, Mapping, Sequence
from dataclasses import dataclass
from typing import Any, ClassVar, Union

# Names with requirements, or with versions: a mapping, or pairs, which may repeat a name.
Pairs = Union[Mapping[str, str], Iterable[tuple[str, str]]]
# The lines of a derivation as docs/FORMATS.md has them.
Derivation = Sequence[Mapping[str, Any]]
FilePath = Union[str, "os.PathLike[str]"]

# JSON of a value without white space, and that of a text, which takes nothing else. Made once: `json.dumps` costs three
# times as much.
encoded = json.JSONEncoder(separators=(",", ":")).encode
quoted: Callable[[str], str] = json.encoder.encode_basestring_ascii  # type: ignore[attr-defined]  # typeshed lacks it


@dataclass(frozen=True)
class Publish:
    name: str
    version: str
    needs: Pairs = ()

    def line(self) -> str:
        return (f'{{"op":"publish","name":{text_of(self.name, "name")},"version":{text_of(self.version, "version")},'
                f'"needs":{rows(self.needs, "needs")}}}')


@dataclass(frozen=True)
class Yank:
    name: str
    version: str
    _op: ClassVar[str] = "yank"

    def line(self) -> str:
        named = f'"name":{text_of(self.name, "name")},"version":{text_of(self.version, "version")}'
        return f'{{"op":"{self._op}",{named}}}'


@dataclass(frozen=True)
class Unyank(Yank):
    _op: ClassVar[str] = "unyank"


@dataclass(frozen=True)
class Resolve:
    needs: Pairs
    lock: Pairs = ()
    budget: int | None = None
    explain: bool = False

    def line(self) -> str:
        lock = f',"lock":{rows(self.lock, "lock")}' if self.lock else ""
        budget = "" if self.budget is None else f',"budget":{number_of(self.budget, "budget")}'
        explain = ',"explain":true' if is_set(self.explain, "explain") else ""
        return f'{{"op":"resolve","needs":{rows(self.needs, "needs")}{lock}{budget}{explain}}}'


@dataclass(frozen=True)
class Check:
    needs: Pairs
    derivation: Derivation
    lock: Pairs = ()

    def line(self) -> str:
        if not isinstance(self.derivation, (list, tuple)):
            raise TypeError(f"derivation is the lines that a NoSelection has, not {self.derivation!r}")
        return (f'{{"op":"check","needs":{rows(self.needs, "needs")},"lock":{rows(self.lock, "lock")},'
                f'"derivation":{encoded(self.derivation)}}}')


@dataclass(frozen=True)
class List:
    def line(self) -> str:
        return '{"op":"list"}'


@dataclass(frozen=True)
class Line:
    """A line's bytes as they are, without the line feed."""
    text: bytes


Request = Union[Publish, Yank, Unyank, Resolve, Check, List, Line]
REQUESTS = (Publish, Yank, Unyank, Resolve, Check, List, Line)


def text_of(value: str, whose: str) -> str:
    if not isinstance(value, str):
        raise TypeError(f"{whose} is a text, not {value!r}")
    return quoted(value)


def number_of(value: int, whose: str, least: int = 0, most: int = 4_294_967_295) -> str:
    if not isinstance(value, int) or isinstance(value, bool):
        raise TypeError(f"{whose} is a whole number, not {value!r}")
    if not least <= value <= most:
        raise ValueError(f"{whose} is {least} to {most:,}, not {value}")
    return str(value)


def is_set(value: bool, whose: str) -> bool:
    if not isinstance(value, bool):
        raise TypeError(f"{whose} is True or False, not {value!r}")
    return value


SECOND = {"needs": "requirement", "lock": "version"}  # what a pair of these has behind the name
EXAMPLE = {"needs": '("log", "^1.2")', "lock": '("log", "1.3.0")'}


def rows(pairs: Pairs, whose: str) -> str:
    items: Iterable[Any]
    if isinstance(pairs, Mapping):
        items = pairs.items()
    elif isinstance(pairs, (str, bytes)) or not isinstance(pairs, Iterable):
        raise TypeError(f"{whose} is a mapping or pairs of a name and a {SECOND[whose]}, as [{EXAMPLE[whose]}], "
                        f"not {pairs!r}")
    else:
        items = tuple(pairs)
        if any(isinstance(pair, str) for pair in items):
            raise wrong_pair(items, whose)  # one of two letters would be taken apart
    try:
        return f"[{','.join([f'[{quoted(name)},{quoted(text)}]' for name, text in items])}]"
    except (TypeError, ValueError):
        raise wrong_pair(items, whose) from None


def wrong_pair(pairs: Iterable[object], whose: str) -> Exception:
    """What is wrong with the first of these that is no pair of texts."""
    for place, pair in enumerate(pairs):
        told = f"{whose}[{place}] is a pair of a name and a {SECOND[whose]}, as {EXAMPLE[whose]}, not {pair!r}"
        if isinstance(pair, (str, bytes)) or not isinstance(pair, Iterable):
            return TypeError(told)
        parts = tuple(pair)
        if len(parts) != 2:
            return ValueError(told)
        name, text = parts
        if not isinstance(name, str):
            return TypeError(f"the name in {whose}[{place}] is a text, not {name!r}")
        if not isinstance(text, str):
            return TypeError(f"the {SECOND[whose]} of {name!r} in {whose}[{place}] is a text, not {text!r}")
    return TypeError(f"{whose} changed while it was read")


def written(request: Request) -> bytes:
    if isinstance(request, Line):
        if not isinstance(request.text, bytes):
            raise TypeError(f"a line is bytes, not {request.text!r}")
        if b"\n" in request.text:
            raise ValueError("a line has no line feed in it")
        return request.text + b"\n"
    if not isinstance(request, REQUESTS):
        raise TypeError(f"{request!r} is no request, as Resolve({{'log': '^1.2'}}) is one")
    return request.line().encode() + b"\n"
