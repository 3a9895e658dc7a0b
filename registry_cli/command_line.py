"""Reads the words of a command line, by the table."""
from __future__ import annotations

from types import SimpleNamespace

from .failures import Usage
from .shapes import Options, Sequence, Subcommand, Word
from .table import COMMON, SUBCOMMANDS, subcommand

HELP = "`registry --help`"
GENERAL = ("--help", "-h", "--version", "-V", "--manual", "--completion", "--complete")
# subcommands that have other names elsewhere
ELSEWHERE = {"add": "publish", "release": "publish", "remove": "yank", "delete": "yank", "unpublish": "yank",
             "install": "resolve", "solve": "resolve", "update": "upgrade", "info": "show", "view": "show",
             "ls": "list", "find": "search", "explain": "why", "version": "--version"}


def asked_help(words: list[str]) -> list[str]:
    """A command line in which `help` stands before a subcommand, as one that has `--help` behind it."""
    return [*asked_help(words[1:]), "--help"] if words[:1] == ["help"] else words


def split(words: list[str]) -> tuple[Subcommand | None, list[str]]:
    """The subcommand of a command line, none where it names none, and the other words."""
    valued = {flag: bool(it.names) for it in COMMON for flag in flags(it)}
    at = 0
    while at < len(words) and words[at].startswith("-") and words[at] not in GENERAL:
        known = words[at].partition("=")[0]
        if known not in valued:
            raise Usage(f"there is no option {known} before a subcommand: see {HELP}")
        at += 2 if valued[known] and known == words[at] else 1
    if at >= len(words) or words[at] in GENERAL:
        return None, words
    for length in (2, 1):
        found = subcommand(" ".join(words[at:at + length]))
        if found:
            return found, parted(found, words[:at] + words[at + length:])
    raise Usage(unknown(words[at], words[at + 1:at + 2]))


def flags(word: Word) -> list[str]:
    return [it for it in (word.short, word.flag) if it]


def unknown(first: str, following: Sequence[str]) -> str:
    below = [it.name.split(" ")[1] for it in SUBCOMMANDS if it.name.startswith(first + " ")]
    if below:
        some = "one of " * (len(below) > 1) + ", ".join(below)
        return f"{first} needs {some}" + (f", not {following[0]}" if following else "") + f": see {HELP}"
    from registryd_lines.nearest import nearest
    near = ELSEWHERE.get(first) or nearest(first, dict.fromkeys(it.name.split(" ")[0] for it in SUBCOMMANDS))
    return f"there is no subcommand {first}" + (f"; did you mean {near}? See {HELP}" if near else f": see {HELP}")


def parted(found: Subcommand, words: Sequence[str]) -> list[str]:
    """The words of a subcommand, a package and its version apart where they stand in one word, as `log@1.0.0`."""
    options = {flag: it for it in (*found.words, *COMMON) for flag in flags(it)}
    made: list[str] = []
    awaited: list[str] = []
    places = [it.names[0] for it in found.words if not it.flag]
    for it in words:
        if it in options:
            awaited = list(options[it].names)
        elif not it.startswith("-"):
            row = awaited or places
            at = it.find("@", 1) if row[1:2] == ["VERSION"] else -1  # a name of npm may begin with one
            both = [it] if at < 0 else [it[:at], it[at + 1:]]
            del row[:len(both)]
            made += both
            continue
        made.append(it)
    return made


def read(found: Subcommand, words: Sequence[str]) -> Options:
    """To load argparse takes longer than most subcommands: it reads help, rare ways to write, and what is wrong."""
    try:
        return SimpleNamespace(**plain(found, words))
    except ValueError:
        from .parsing import reader
        return reader(found).parse_intermixed_args(words)


def plain(found: Subcommand, words: Sequence[str]) -> dict[str, object]:
    """The same of words that are written as the table has them; a ValueError where others are among them."""
    options = {flag: it for it in (*found.words, *COMMON) for flag in flags(it)}
    values: dict[str, object] = {it.member: it.default if it.names else False for it in (*found.words, *COMMON)}
    free, rest = [], iter(words)
    for text in rest:
        option = options.get(text)
        if option is None:
            free.append(text)
        else:
            values[option.member] = value(option, [next(rest, "-") for _ in option.names])
    for word in found.words:
        if word.many == "*" and not word.flag:
            values[word.member], free = [value(word, [text]) for text in free], []
        elif not word.flag and (free or not word.many):
            values[word.member], free = value(word, free[:1]), free[1:]
    if free:
        raise ValueError(free)
    return values


def value(word: Word, texts: list[str]) -> bool | int | str | list[str]:
    """What a word or an option makes of texts; a ValueError where it does not take them, or however many there are."""
    if not word.names:
        return True
    if not texts or any(it.startswith("-") for it in texts) or word.flag and word.many:
        raise ValueError(texts)
    if isinstance(word.takes, range):
        return number(texts[0], word.takes)
    if isinstance(word.takes, tuple) and texts[0] not in word.takes:
        raise ValueError(texts)
    return texts if len(word.names) > 1 else texts[0]


def number(text: str, numbers: range) -> int:
    if not (text.isascii() and text.isdigit() and int(text) in numbers):
        raise ValueError(text)
    return int(text)
