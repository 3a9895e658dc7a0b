"""Reads the tables of lines under `rows/`, each of which is a session or a race. rows/README.md says how they are
written."""
import os
from urllib.parse import unquote_to_bytes

from tests.support.program import TOP


class Table:
    def __init__(self, title: str, place: str) -> None:
        self.title, self.place, self.seat = title, place, 1
        self.rows: list[tuple[bytes, str, str]] = []  # (request line, reply line, place)
        self.journal: list[str] = []

    def requests(self) -> bytes:
        return b"".join(line + b"\n" for line, _, _ in self.rows)

    def replies(self) -> list[str]:
        return [reply for _, reply, _ in self.rows]


class Reader:
    """Reads the lines of one file, from its first to its last."""

    def __init__(self) -> None:
        self.tables: list[Table] = []
        self.waiting: list[tuple[bytes, str]] = []  # request lines without a reply so far, with their places
        self.is_title, self.base = False, b""

    def read(self, text: str, place: str) -> None:
        demand(text == text.rstrip() and text.isascii(), "a space at the end, or a letter that is not ASCII", place)
        sign, _, rest = text.partition(" ")
        if text.startswith("#"):
            self.title(text[1:].strip(), place)
        elif text:
            demand(self.tables, "no table is open", place)
            self.row(sign, rest, place)
        self.is_title = text.startswith("#")

    def title(self, text: str, place: str) -> None:
        if self.is_title:
            self.tables[-1].title += " " + text
            return
        self.close(place)
        self.tables.append(Table(text, place))
        self.base = b""

    def row(self, sign: str, rest: str, place: str) -> None:
        table = self.tables[-1]
        if sign == "seat":
            table.seat = int(rest)
        elif sign == "=":
            table.journal.append(rest)
        elif sign == "<":
            demand(self.waiting, "a reply to nothing", place)
            table.rows += [(line, rest, at) for line, at in self.waiting]
            self.waiting = []
        else:
            self.waiting.append((self.request(sign, rest, place), place))

    def request(self, sign: str, rest: str, place: str) -> bytes:
        demand(sign in (">", "%", "~"), f"no such sign: {sign}", place)
        if sign == "~":
            old, _, new = rest.partition(" as ")
            demand(old and new and old.encode() in self.base and old != new, "nothing is changed", place)
            return self.base.replace(old.encode(), new.encode(), 1)
        self.base = rest.encode() if sign == ">" else unquote_to_bytes(rest)
        demand(b"\n" not in self.base, "a line feed in a line", place)
        return self.base

    def close(self, place: str) -> None:
        demand(not self.waiting, "a line above has no reply", place)
        demand(not self.tables or self.tables[-1].rows or self.tables[-1].journal, "the table above is empty", place)


def demand(holds: object, told: str, place: str) -> None:
    if not holds:
        raise ValueError(f"{place}: {told}")


def tables_in(path: str) -> list[Table]:
    """The tables of a file."""
    reader, number = Reader(), 0
    with open(path, encoding="utf-8", newline="\n") as lines:
        for number, text in enumerate(lines, 1):
            reader.read(text.removesuffix("\n"), f"{os.path.relpath(path, TOP)}:{number}")
    reader.close(f"{os.path.relpath(path, TOP)}:{number}")
    return reader.tables


def tables_under(folder: str) -> list[Table]:
    """The tables of each file of a folder of `rows/`."""
    top = os.path.join(TOP, "rows", folder)
    return [table for name in sorted(os.listdir(top)) if name.endswith(".rows")
            for table in tables_in(os.path.join(top, name))]
