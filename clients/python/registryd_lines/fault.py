"""What is wrong with a line, and how it is told."""
from __future__ import annotations

import json
from collections.abc import Callable
from typing import NamedTuple

NAMES = {1: "BadName", 2: "BadVersion", 3: "BadRequirement", 4: "RepeatedDependency", 5: "SelfDependency",
         6: "TooManyDependencies", 19: "BadLine"}
MOST_SHOWN = 40

# the places in a text from and up to which a new text stands, and that
Edit = tuple[int, int, str]


class Bad(Exception):
    """Why a text is not what it should be: where in it, in words, and the edit to what was probably meant."""

    def __init__(self, place: int, what: str, edit: Edit | None = None) -> None:
        super().__init__(what)
        self.place, self.what, self.edit = place, what, edit


class Fault(NamedTuple):
    """A fault of a line, by the number of the refusal. The place counts letters from 0."""
    number: int
    place: int
    what: str
    edit: Edit | None = None

    @property
    def name(self) -> str:
        return NAMES[self.number]

    @property
    def meant(self) -> str | None:
        """What the edit puts in, where that says more than that something is missing or too much."""
        return self.edit[2].rstrip(",") if self.edit and len(self.edit[2]) > 1 else None

    @property
    def told(self) -> str:
        """What is wrong, and behind it what was probably meant."""
        if self.meant:
            return f"{self.what}; did you mean {self.meant}?"
        return f"{self.what}; leave it out" if self.edit and not self.edit[2] else self.what


def placed(file: str, line: int, fault: Fault, style: Callable[[str, str], str] = lambda text, _: text) -> str:
    """In the way of compilers: the file, the line, the column, the error, what is wrong, and what was meant."""
    where, error = f"{file}:{line}:{fault.place + 1}:", f"error {fault.number} {fault.name}:"
    return f"{style(where, 'bold')} {style(error, 'red')} {fault.told}"


def shown(text: str) -> str:
    """A text in quotes, cut where it is long, with nothing in it that a terminal obeys."""
    cut = text if len(text) <= MOST_SHOWN else text[:MOST_SHOWN - 1] + "…"
    return as_json(cut)


def as_json(value: object) -> str:
    """A value as JSON in one line, in letters of ASCII where it has what is not visible."""
    text = json.dumps(value, separators=(",", ":"), ensure_ascii=False)
    return text if text.isprintable() else json.dumps(value, separators=(",", ":")).replace("\x7f", "\\u007f")
