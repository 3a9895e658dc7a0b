"""The manual page registry.1, made of the table."""
from .command_line import flags
from .shapes import Sequence, Subcommand, Word
from .table import COMMON, SUBCOMMANDS

ABOUT = ("`registry` is what people type to a package registry with a version solver. It keeps packages, their "
         "versions and what those need in one file, the journal, and selects versions that fit together. What is "
         "accepted and what is selected is decided by the program registryd(1), which is proved correct.")
STATUSES = ((0, "What was asked for is done."),
            (1, "The registry refuses it, no selection meets the request, what was asked for is not there, what is "
                "checked has a fault, or there is a difference that --locked forbids or --exit-status asks for."),
            (2, "The words are wrong."),
            (3, "A file can't be read or written, a journal is in use or damaged, or the program failed."),
            (130, "A key interrupted it."), (143, "A signal ended it."),
            (141, "Its reader ended before all was written."))
VARIABLES = (("REGISTRY_JOURNAL", "The journal, where --journal does not name one."),
             ("REGISTRY_CONNECT", "The service to ask, where neither --connect nor --journal is given."),
             ("REGISTRY_PROGRAM", "The program that is asked, in place of registryd."),
             ("NO_COLOR", "No colour, also on a terminal, where it is set and not empty and --color is not always."))
FILES = (("registry.journal", "The journal, in the folder where the command is given, where nothing names another."),
         ("registry.lock", "The lock file, in that folder, of subcommands that need one: what is selected, a name and "
                           "a version a line, and the needs and the revision that it was made for."),
         ("registry.needs", "What the lock file was made for, beside it under its name with .needs for .lock: a name "
                            "and a requirement a line."))


def escaped(text: str) -> str:
    for letter, roff in (("\\", "\\e"), ("-", "\\-"), ("^", "\\(ha"), ("~", "\\(ti"), ("`", "\\(ga")):
        text = text.replace(letter, roff)
    return "\\&" + text if text[:1] in (".", "'") else text


def usage(subcommand: Subcommand) -> str:
    pieces = []
    for it in subcommand.words:
        named = " ".join(f"\\fI{escaped(name)}\\fR" for name in it.names) + {"*": " ..", "+": " .."}.get(it.many, "")
        if it.flag:
            pieces.append(f"[\\fB{escaped(it.flag)}\\fR{' ' + named if named else ''}]")
        else:
            pieces.append(f"[{named}]" if it.many in ("?", "*") else named)
    return " ".join([f"\\fB{escaped(subcommand.name)}\\fR", *pieces])


def item(head: str, text: str) -> list[str]:
    return [".TP", head, escaped(text)]


def flagged(word: Word) -> str:
    written = ", ".join(f"\\fB{escaped(flag)}\\fR" for flag in flags(word)) or f"\\fI{escaped(word.names[0])}\\fR"
    return written + "".join(f" \\fI{escaped(name)}\\fR" for name in word.names if word.flag)


def sentence(text: str) -> str:
    return text[:1].upper() + text[1:] + "."


def page(version: str = "") -> str:
    lines = [f'.TH REGISTRY 1 "" "{version or "registryd"}"',
             ".SH NAME", "registry \\- a package registry with a version solver",
             ".SH SYNOPSIS",
             "\\fBregistry\\fR [\\fB\\-\\-journal\\fR \\fIFILE\\fR | \\fB\\-\\-connect\\fR \\fIADDRESS\\fR] "
             "[\\fB\\-\\-json\\fR] \\fISUBCOMMAND\\fR ..",
             ".SH DESCRIPTION", escaped(ABOUT), ".SH OPTIONS"]
    for it in COMMON:
        lines += item(flagged(it), sentence(it.about))
    lines += [*item("\\fB\\-\\-help\\fR", "The words and examples of a subcommand."), ".SH SUBCOMMANDS"]
    for subcommand in SUBCOMMANDS:
        about = f"{subcommand.summary}. {subcommand.more}".strip()
        lines += [f".SS {escaped(subcommand.name)}", usage(subcommand), ".PP", escaped(about)]
        for it in subcommand.words:
            lines += item(flagged(it), sentence(it.about))
        lines.append(".PP")
        for example in subcommand.examples:
            lines += [".nf", f".RS\n{escaped(example)}\n.RE", ".fi"]
    sections: list[tuple[str, Sequence[tuple[object, str]]]] = [
        ("EXIT STATUS", STATUSES), ("ENVIRONMENT", VARIABLES), ("FILES", FILES)]
    for head, rows in sections:
        lines.append(f".SH {head}")
        for name, text in rows:
            lines += item(f"\\fB{escaped(str(name))}\\fR", text)
    return "\n".join([*lines, ".SH SEE ALSO", "registryd(1)"]) + "\n"
