"""The request lines of a front: read by a thread of their own, and handed over as they came together."""
from __future__ import annotations

import itertools
import json
from typing import TYPE_CHECKING

from registry_cli.limits import MOST_LINE_BYTES
from registry_etcd.cells import command_line
from registry_etcd.replica import NO_LINE

if TYPE_CHECKING:
    from collections.abc import Iterator
    from io import BufferedReader

    from registry_etcd.front import Arrived

PIECE_BYTES = 65_536
REQUESTS = (b'{"op":"resolve",', b'{"op": "resolve",')


class Line:
    def __init__(self, number: int, text: bytes) -> None:
        self.number, self.text = number, text
        self.op, self.command = read_line(text)


def read_line(text: bytes) -> tuple[str | None, bytes | None]:
    """The word of its `op`, and its line in a journal where it is a command: all that a front has to know."""
    if text.startswith(REQUESTS) and text.count(b'"op"') == 1 and b"\\" not in text:
        # no second member can be the `op`, whatever follows: if this is a line at all, then a request
        return "resolve", None
    try:
        asked = json.loads(text.decode())
        return (asked["op"], command_line(asked)) if isinstance(asked["op"], str) else (None, None)
    except (ValueError, KeyError, TypeError, RecursionError):
        return None, None


def texts(reader: BufferedReader) -> Iterator[list[bytes]]:
    """The lines of what is read, those that came together in one list. Of a line that is too long nothing is kept."""
    rest, is_long = b"", False
    for piece in iter(lambda: reader.read1(PIECE_BYTES), b""):
        *whole, rest = (rest + piece).split(b"\n")
        if whole and is_long:
            whole[0], is_long = NO_LINE, False
        if len(rest) > MOST_LINE_BYTES:
            rest, is_long = b"", True
        if whole:
            yield [NO_LINE if len(line) > MOST_LINE_BYTES else line for line in whole]
    if rest or is_long:
        yield [NO_LINE if is_long else rest]


def read_lines(reader: BufferedReader, arrived: Arrived) -> None:
    """Hands over lists of lines, and none at the end."""
    numbers = itertools.count(1)
    for together in texts(reader):
        arrived.put([Line(next(numbers), text) for text in together])
    arrived.put(None)
