"""Reads the words of a command line by argparse, which tells what is wrong with them and has the help."""
from __future__ import annotations

import argparse
import os
import sys
import textwrap
from functools import partial

from registryd_lines.nearest import nearest

from .command_line import flags, number
from .failures import Usage
from .shapes import Any, Callable, NoReturn, Sequence, Subcommand, Word
from .table import COMMON, SUBCOMMANDS

WIDE = 78  # of sentences in the help
UNKNOWN = 80  # columns of what is no terminal
# options that have other names elsewhere; what is needed is a word here
OPTIONS_ELSEWHERE = {"frozen": "locked", "frozen-lockfile": "locked", "immutable": "locked", "timeout": "seconds",
                     "output": "write", "lockfile": "lock"}
WORDS_ELSEWHERE = ("need", "needs", "dep", "deps", "dependency", "dependencies", "package", "packages")


class Parser(argparse.ArgumentParser):
    def error(self, message: str) -> NoReturn:
        option = message.partition("--")[2].partition(" ")[0].partition("=")[0].rstrip(":")
        known = self._option_string_actions
        meant = "--" + (OPTIONS_ELSEWHERE.get(option) or nearest(option, [it[2:] for it in known]) or "")
        hint = ": see"
        if "--" + option in known:
            names = known["--" + option].metavar
            hint = f", {' and '.join(names)}: see" if isinstance(names, tuple) else hint
        elif meant in known:
            hint = f"; did you mean {meant}? See"
        elif option in WORDS_ELSEWHERE and any(it.dest == "need" for it in self._actions):
            hint = "; what is needed stands without an option, as app@^1. See"
        raise Usage(f"{message}{hint} `{self.prog} --help`")


def layout() -> partial[argparse.RawDescriptionHelpFormatter]:
    """How a parser lays out its help. It is told the width, since it would load what packs archives to learn that."""
    try:
        columns = int(os.environ.get("COLUMNS", 0))
        # an AttributeError where there is none
        columns = columns or os.get_terminal_size(sys.__stdout__.fileno()).columns
    except (AttributeError, ValueError, OSError):
        columns = 0
    return partial(argparse.RawDescriptionHelpFormatter, width=(columns or UNKNOWN) - 2)


def reader(subcommand: Subcommand) -> Parser:
    about = "\n\n".join(textwrap.fill(it, WIDE) for it in (subcommand.summary + ".", subcommand.more) if it)
    parser = Parser(prog=f"registry {subcommand.name}", description=about, epilog=shown(subcommand.examples),
                    formatter_class=layout(), allow_abbrev=False)
    for it in (*subcommand.words, *COMMON):
        add(parser, it)
    return parser


def shown(examples: Sequence[str]) -> str:
    return "\n".join(["examples:" if len(examples) > 1 else "example:", *("  " + it for it in examples)])


def add(parser: Parser, word: Word) -> None:
    settings: dict[str, Any] = {"help": word.about.replace("%", "%%")}  # of which each has a type of its own
    if word.flag:
        settings["dest"] = word.member
    if word.flag and not word.names:
        parser.add_argument(*flags(word), action="store_true", **settings)
        return
    if isinstance(word.takes, tuple):
        settings["choices"] = word.takes
    if isinstance(word.takes, range):
        settings["type"] = number_in(word.takes)
    if word.many or len(word.names) > 1:
        settings["nargs"] = word.many or len(word.names)
    if word.default is not None or word.many == "*" and not word.flag:
        settings["default"] = word.default  # said where there is none, so that the word isn't told as missing
    settings["metavar"] = word.names if len(word.names) > 1 else word.names[0]
    parser.add_argument(word.flag or word.member, **settings)


def number_in(numbers: range) -> Callable[[str], int]:
    def read(text: str) -> int:
        try:
            return number(text, numbers)
        except ValueError:
            raise argparse.ArgumentTypeError(f"{text} is no number from {numbers[0]} to {numbers[-1]}") from None
    return read


def overview() -> str:
    wide = max(len(it.name) for it in SUBCOMMANDS)
    parser = Parser(prog="registry", usage="registry SUBCOMMAND ..", add_help=False, formatter_class=layout(),
                    description="A package registry with a version solver, over one file.\n\nsubcommands:\n"
                    + "\n".join(f"  {it.name.ljust(wide)}  {it.summary}" for it in SUBCOMMANDS),
                    epilog=shown(("registry publish log 1.3.0", "registry publish app 1.0.0 log@^1.2",
                                  "registry resolve app"))
                    + "\n\n`registry help SUBCOMMAND` shows its arguments, options and examples.")
    for it in COMMON:
        add(parser, it)
    parser.add_argument("-V", "--version", action="store_true", help="the version of the program")
    return parser.format_help()
