"""Where answers go: lines for people, wrapped and in colour on a terminal, or JSON; and standard error."""
from __future__ import annotations

import os
import sys
import time
from collections import namedtuple

from .shapes import Failure, Iterable, Options, TextIO

STYLES = {"bold": "1", "faint": "2", "red": "31", "green": "32", "yellow": "33"}
# stands for the beginning of a colour's code until a line is printed: no text has it by chance
MARK = os.urandom(8).hex()
STYLED = f"{MARK}[0-9;]+m"
INDENT = r" *(?:registry: |\([0-9]+\) +)?"  # further rows of a line are indented as far as this
NARROWEST = 20  # columns that wrapped text has


class Choice(namedtuple("Choice", "color is_quiet is_verbose seconds begun", defaults=["", False, False, 0, 0])):
    """The options of a command line. A search with its explanation may take `seconds`, since it was read at `begun`."""
    color: str
    is_quiet: bool
    is_verbose: bool
    seconds: int
    begun: float


usual = chosen = Choice()  # of the shell that obeys a command line, and of that line


def choose(options: Options | None = None) -> None:
    """Obeys these options, and where they say nothing those of the shell."""
    global chosen
    chosen = Choice(options.color or usual.color, options.quiet or usual.is_quiet, options.verbose or usual.is_verbose,
                    getattr(options, "limit", 0), time.monotonic()) if options else usual


def keep_choice(kept: Choice) -> Choice:
    """Has the command lines of a shell begin with these options; answers those of before."""
    global usual, chosen
    before, usual, chosen = usual, kept, kept
    return before


def is_coloured(stream: TextIO | None) -> bool:
    """As --color says, else only to a terminal that knows it, and not against https://no-color.org."""
    if stream is None or chosen.color in ("always", "never"):
        return stream is not None and chosen.color == "always"
    return stream.isatty() and not os.environ.get("NO_COLOR") and os.environ.get("TERM") != "dumb"


def size(stream: TextIO) -> tuple[int, int]:
    """The columns and lines of a terminal; 0 of what is none, or does not say."""
    try:
        return os.get_terminal_size(stream.fileno()) if stream.isatty() else (0, 0)
    except (OSError, ValueError):
        return 0, 0


def visible(text: str) -> str:
    """A text with nothing in it that a terminal obeys or nobody sees: such characters are told by their numbers."""
    return text if text.isprintable() else "".join(it if it.isprintable() else numbered(ord(it)) for it in text)


def numbered(code: int) -> str:
    return f"\\x{code:02x}" if code < 0x100 else f"\\u{code:04x}" if code < 0x10000 else f"\\U{code:08x}"


def wrapped(line: str, columns: int) -> str:
    if not columns:
        return line
    import re
    plain = re.sub(STYLED, "", line)
    indent = re.match(INDENT, plain).end()  # type: ignore[union-attr]  # it matches any text
    if len(plain) <= columns or columns - indent < NARROWEST:
        return line
    parts, at = [], 0
    for word in re.findall(" *[^ ]+", line):
        wide = len(re.sub(STYLED, "", word))
        if at > indent and at + wide > columns:
            parts.append("\n" + " " * indent)
            word, wide, at = word.lstrip(" "), wide - len(word) + len(word.lstrip(" ")), indent
        parts.append(word)
        at += wide
    return "".join(parts)


def style(text: str, stream: TextIO | None, *styles: str) -> str:
    """A text in some of the STYLES, plain where there is no colour."""
    return f"{MARK}{';'.join(STYLES[it] for it in styles)}m{text}{MARK}0m" if text and is_coloured(stream) else text


def write(stream: TextIO, lines: Iterable[str]) -> None:
    columns, _ = size(stream)
    for it in lines:
        print(wrapped(visible(it), columns).replace(MARK, "\x1b["), file=stream, flush=stream is sys.stderr)


def say(*lines: str) -> None:
    write(sys.stderr, lines)


def aside(*lines: str) -> None:
    """Lines on standard error beside an answer, where --quiet does not leave them out."""
    if not chosen.is_quiet:
        sys.stdout.flush()
        say(*lines)


def fail(text: str) -> None:
    """One line on standard error: why what was asked for is not done."""
    say(f"{style('registry:', sys.stderr, 'bold', 'red')} {text}")


def detail(text: str) -> None:
    """One line on standard error, where --verbose asks for it: what is done."""
    if chosen.is_verbose:
        Output.note(text)


class Output:
    def __init__(self, is_json: bool = False) -> None:
        self.is_json, self.has_answered = is_json, False

    def give(self, value: object, lines: Iterable[str]) -> None:
        """An answer: the value as one line of JSON where that is wanted, else these lines."""
        if self.is_json:
            from registryd_lines.fault import as_json
            self.has_answered = True
            print(as_json(value))
        else:
            write(sys.stdout, lines)

    def style(self, text: str, *styles: str) -> str:
        return text if self.is_json else style(text, sys.stdout, *styles)

    def fail(self, fault: Failure) -> None:
        """On standard error and, in place of an answer in JSON, on standard output."""
        sys.stdout.flush()
        fail(str(fault))
        if self.is_json and not self.has_answered:
            value: dict[str, object] = {"error": fault.kind, "message": str(fault), **fault.members}
            self.give(value, [])
            sys.stdout.flush()

    @staticmethod
    def note(text: str) -> None:
        aside(f"{style('registry:', sys.stderr, 'bold')} {text}")

    @staticmethod
    def ask(question: str) -> bool | None:
        """Whether a person at a terminal says yes; none where nobody can be asked."""
        if not (sys.stdin and sys.stdin.isatty() and sys.stderr and sys.stderr.isatty()):
            return None
        print(f"{visible(question)} [y/N] ", end="", file=sys.stderr, flush=True)
        return sys.stdin.readline().strip().lower() in ("y", "yes")
