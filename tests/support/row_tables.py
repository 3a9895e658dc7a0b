"""Tables of rows: each row names one public call of a crate, what it is given and what it is to give. rows/README.md
says how they are written.

The calls are made by the program `probe`. The environment variable PROBE may name another program to be run instead, as
a script that runs `rt try` in the crate's folder. """
import json
import os
import subprocess
import tempfile
from collections.abc import Iterable, Sequence
from typing import Any, NoReturn

from tests.support.program import PROBE, TOP

ROWS = os.path.join(TOP, "rows", "calls")
# At each table the program begins anew, so that no table rests on another one.
BEGIN = '{"of":"session","call":"new"}'
# How much of a long row or answer is shown, and how many rows of a table.
SHOWN_TEXT = 600
SHOWN_ROWS = 10
# A program has this many seconds for all rows of a file.
LIMIT = 600


class BadRows(Exception):
    """A file of rows that is not as it has to be."""


class Row:
    """One call: the line that asks for it, where it stands, and the answer that is wanted. A row that a function made
    may have a member `by`, a function of the answer: what it gives is compared in the answer's place."""

    def __init__(self, place: str, given: Any) -> None:
        if not isinstance(given, dict) or not all(isinstance(given.get(name), str) for name in ("of", "call")):
            raise BadRows(f"{place}: a row is an object whose members `of` and `call` are texts")
        asked = {name: value for name, value in given.items() if name != "gives"}
        self.by = asked.pop("by") if callable(given.get("by")) else None
        self.place, self.wanted = place, given.get("gives")
        self.asked = json.dumps(asked, separators=(",", ":"))

    def fault(self, got: Any) -> str | None:
        """What is to be told of an answer that is not the one that is wanted, else None."""
        if self.by:
            try:
                got = self.by(got)
            except (LookupError, TypeError, ValueError) as fault:
                return f"{self.place}: {cut(self.asked)}\n  got    {cut(plain(got))}\n  of another form: {fault!r}"
        if plain(got) == plain(self.wanted):
            return None
        return f"{self.place}: {cut(self.asked)}\n  wanted {cut(plain(self.wanted))}\n  got    {cut(plain(got))}"


class Table:
    """A title, the source of what is wanted, and rows that are asked one after another in a session of their own."""

    def __init__(self, title: str, source: str = "") -> None:
        self.title, self.source = title, source
        self.rows: list[Row] = []

    def lines(self) -> list[str]:
        """What the program is sent."""
        return [BEGIN, *(row.asked for row in self.rows)]

    def faults(self, answers: list[Any]) -> list[str]:
        """What is to be told of the answers to these lines."""
        begun = Row(self.title, {**json.loads(BEGIN), "gives": None})
        told = [row.fault(got) for row, got in zip([begun, *self.rows], answers, strict=True)]
        return [fault for fault in told if fault]


def plain(value: Any) -> str:
    """A JSON value as text in which equal values look the same, and 1, 1.0 and true do not."""
    return json.dumps(value, sort_keys=True, ensure_ascii=False, separators=(",", ":"))


def cut(text: str) -> str:
    return text if len(text) <= SHOWN_TEXT else f"{text[:SHOWN_TEXT]}.. ({len(text)} characters)"


def members(pairs: list[tuple[str, Any]]) -> dict[str, Any]:
    """The members of an object, each of which is named once."""
    found = dict(pairs)
    if len(found) != len(pairs):
        raise ValueError("a member is named twice")
    return found


def no_number(text: str) -> NoReturn:
    raise ValueError(f"{text} is no number of JSON")


def parsed(text: str) -> Any:
    return json.loads(text, object_pairs_hook=members, parse_constant=no_number)


def tables_in(text: str, name: str) -> list[Table]:
    """The tables of a file of this name and text. Every line is used: it heads a table, or is a row, or is empty."""
    tables: list[Table] = []
    is_heading = False
    for number, line in enumerate(text.splitlines(), 1):
        place = f"{name}:{number}"
        if line.startswith("# "):
            if is_heading:
                tables[-1].source += line[1:]
            else:
                tables.append(Table(line[2:]))
            is_heading = True
            continue
        is_heading = False
        if not line:
            continue
        if not tables:
            raise BadRows(f"{place}: there is no title above it")
        try:
            tables[-1].rows.append(Row(place, parsed(line)))
        except ValueError as fault:
            raise BadRows(f"{place}: {fault}") from fault
    for table in tables:
        if not table.rows:
            raise BadRows(f"{name}: the table `{table.title}` has no rows")
        if not table.source.strip():
            raise BadRows(f"{name}: the table `{table.title}` has no source")
    if not tables:
        raise BadRows(f"{name}: there are no rows")
    return tables


def generated(tables: Iterable[tuple[str, Iterable[Any]]]) -> list[Table]:
    """Tables of titles and rows that a function made."""
    found = []
    for title, rows in tables:
        table = Table(title)
        table.rows = [Row(f"{title}, row {number}", row) for number, row in enumerate(rows, 1)]
        found.append(table)
    if not found or not all(table.rows for table in found):
        raise BadRows("there are no rows")
    return found


def of_file(name: str) -> list[Table]:
    """The tables of a file below `rows`."""
    with open(os.path.join(TOP, "rows", name), encoding="utf-8", newline="\n") as text:
        return tables_in(text.read(), f"rows/{name}")


def answers(command: Sequence[str], lines: Sequence[str], **more: Any) -> list[Any]:
    """Runs a program on these lines, and gives its answer to each."""
    with tempfile.TemporaryFile() as asked:
        asked.write("".join(line + "\n" for line in lines).encode())
        asked.seek(0)
        done = subprocess.run(command, stdin=asked, stdout=subprocess.PIPE, stderr=subprocess.PIPE,
                              timeout=LIMIT, **more)
    told = done.stdout.decode().splitlines()
    if done.returncode or len(told) != len(lines):
        raise BadRows(f"{' '.join(command)}: {len(told)} answers to {len(lines)} rows, then status {done.returncode}\n"
                      f"{done.stderr.decode(errors='replace')}")
    return [json.loads(line) for line in told]


def faults(tables: list[Table], command: Sequence[str] = (PROBE,)) -> dict[str, str]:
    """Asks all rows of these tables in one run, and gives what is to be told of the answers, by the tables' titles."""
    told = answers(command, [line for table in tables for line in table.lines()])
    found = {}
    for table in tables:
        many = len(table.rows) + 1
        here, told = table.faults(told[:many]), told[many:]
        if here:
            shown = "\n".join(here[:SHOWN_ROWS])
            found[table.title] = f"{table.title}: {len(here)} of {len(table.rows)} rows are answered otherwise\n{shown}"
    return found
