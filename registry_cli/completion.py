"""What may stand at the end of a command line of `registry`, by the table, or of `registryd`."""
from __future__ import annotations

import os

from .command_line import split
from .failures import Failure
from .shapes import Iterable, Sequence, Subcommand, Takes, Word
from .table import COMMON, FILE, FOLDER, NEED, PACKAGE, SUBCOMMANDS, VERSION

# Each script asks `registry --complete WORD ..`, of the program's words with `registryd` before them: the first line
# answered says what may stand there, the others are words.
SHELLS = ("bash", "zsh", "fish")
# the words of the program: the options of each command with what they take
PROGRAM: dict[str, dict[str, Takes | None]] = {
    "serve": {"--workers": tuple("1 2 4 8 16 32 64".split()), "--journal": FILE, "--load": FILE, "--save": FILE,
              "--budget": tuple("100 1000 10000 100000".split()), "--newest": None},
    "race": {"--newest": None},
    "help": {},
}
GENERAL = ("--help", "--version")
UNBOUNDED = 10 ** 9  # words that an option takes


def script(shell: str) -> str:
    """The lines of a shell that ask for completions."""
    path = os.path.join(os.path.dirname(os.path.abspath(__file__)), "completions", f"registry.{shell}")
    with open(path, encoding="utf-8") as file:
        return file.read()


def complete(words: Sequence[str]) -> list[str]:
    """`file`, `folder`, or `words` and some of these, for words of which the last one is being typed."""
    is_program = words[:1] == ["registryd"]
    *before, current = words[is_program:] or [""]
    before = [it for it in before if it != "="]  # bash takes the sign of --option=VALUE for a word
    flag, sign, value = current.rpartition("=" if current.startswith("-") or current == "=" else "\n")
    kind, offered = (of_program if is_program else candidates)([*before, flag] if flag else before, value)
    whole = flag + sign if flag else ""
    return [kind, *sorted({whole + it for it in offered if it.startswith(value)})]


def of_program(before: list[str], current: str) -> tuple[str, Sequence[str]]:
    of = next((it for it in before if it in PROGRAM), None)
    if of is None:
        return "words", [*PROGRAM, *GENERAL]
    takes = PROGRAM[of].get(before[-1])
    if takes:
        return of_kind(takes, before, None)
    if of == "race" and not current.startswith("-"):
        return FILE, []
    return "words", [*(it for it in PROGRAM[of] if it not in before), "--help"] if PROGRAM[of] else ["serve", "race"]


def candidates(before: list[str], current: str) -> tuple[str, Sequence[str]]:
    before = before[before[:1] == ["help"]:]
    valued = {it.flag: it for it in COMMON if it.names}
    if before and before[-1] in valued:
        return of_kind(valued[before[-1]].takes, before, None)
    try:
        subcommand, rest = split(before)
    except Failure:
        told = (it for place, it in enumerate(before) if not it.startswith("-") and before[place - 1] not in valued)
        first = " ".join(told)
        return "words", [it.name.split(" ")[1] for it in SUBCOMMANDS if it.name.startswith(first + " ")]
    if subcommand is None:
        return "words", [*(it.name.split(" ")[0] for it in SUBCOMMANDS), "help", *flags(COMMON), *GENERAL]
    if current.startswith("-"):
        return "words", [*flags(subcommand.words), *flags(COMMON), "--help"]
    takes, last = awaited(subcommand, rest)
    return of_kind(takes, before, last) if takes else ("words", [])


def flags(words: Iterable[Word]) -> list[str]:
    return [it.flag for it in words if it.flag]


def awaited(subcommand: Subcommand, rest: Sequence[str]) -> tuple[Takes | None, str | None]:
    """What the word or option takes whose value comes next, nothing where no more is taken; and the word before it."""
    options = {it.flag: it for it in (*subcommand.words, *COMMON) if it.flag}
    places, taken, left = [it for it in subcommand.words if not it.flag], 0, 0
    open_option: Word | None = None
    for it in rest:
        if it in options:
            open_option = options[it]
            left = UNBOUNDED if open_option.many in ("*", "+") else len(open_option.names)
        elif left:
            left -= 1
        else:
            taken += 1
    before = rest[-1] if rest else None
    if left and open_option:
        is_version = left == 1 and open_option.names[-1] == "VERSION"
        return VERSION if is_version else open_option.takes, before
    if taken < len(places) or (places and places[-1].many in ("*", "+")):
        return places[min(taken, len(places) - 1)].takes, before
    return None, before


def of_kind(takes: Takes, before: Sequence[str], last: str | None) -> tuple[str, Sequence[str]]:
    if isinstance(takes, tuple):
        return "words", takes
    if takes in (FILE, FOLDER):
        return str(takes), []
    if takes in (PACKAGE, NEED, VERSION):
        return "words", published(before, last if takes == VERSION else None)
    return "words", []


def published(before: Sequence[str], name: str | None) -> list[str]:
    """The packages, or the versions of one; nothing where no journal can be read and no service answers."""
    from types import SimpleNamespace

    from .refusals import listed
    from .session import reading
    named = {flag: value for flag, value in zip(before, before[1:])}
    try:
        with reading(SimpleNamespace(journal=named.get("--journal"), connect=named.get("--connect"))) as session:
            packages = listed(session)
    except Failure:
        return []
    return list(packages) if name is None else [text for text, _ in packages.get(name, [])]
