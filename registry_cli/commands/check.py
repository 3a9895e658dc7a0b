"""`registry check`: which request lines would be refused for what they say, and what was probably meant."""
from __future__ import annotations

import contextlib
import sys

from registryd_lines.fault import placed
from registryd_lines.judging import faults

from ..failures import DONE, REFUSED, Failed, one_line
from ..limits import MOST_LINE_BYTES
from ..shapes import BinaryIO, Fault, Iterator, Options, Output


def run(options: Options, out: Output) -> int:
    name = "<stdin>" if options.file == "-" else options.file
    found: list[dict[str, object]] = []
    wrong, count = 0, 0
    for count, line in enumerate(lines_of(options.file), 1):
        of_line = faults(line)
        wrong += bool(of_line)
        for it in of_line:
            if out.is_json:
                found.append(as_json(count, it))
            else:
                out.give(None, [placed(name, count, it, out.style)])
    if out.is_json:
        out.give({"faults": found, "file": name, "lines": count, "refused": wrong}, [])
    lines = f"{count:,} line{'' if count == 1 else 's'}"
    out.note(f"{name}: {wrong:,} of {lines} would be refused" if wrong else f"{name}: {lines}, and no errors")
    return REFUSED if wrong else DONE


def lines_of(path: str) -> Iterator[bytes]:
    """The lines of a file, of those that are too long a beginning that is too long as well."""
    try:
        with contextlib.ExitStack() as held:
            file: BinaryIO = sys.stdin.buffer if path == "-" else held.enter_context(open(path, "rb"))
            while line := file.readline(MOST_LINE_BYTES + 1):
                rest = line
                while rest and not rest.endswith(b"\n"):
                    rest = file.readline(MOST_LINE_BYTES)
                yield line.removesuffix(b"\n")
    except OSError as fault:
        raise Failed(one_line(fault)) from None


def as_json(line: int, fault: Fault) -> dict[str, object]:
    return {"column": fault.place + 1, "error": fault.number, "line": line, "meant": fault.meant, "name": fault.name,
            "what": fault.what}
