"""The table of subcommands and what reads words by it: values, the edges of numbers, what is before a subcommand."""
import json

import pytest

from registry_cli import command_line, parsing
from registry_cli.failures import Usage
from registry_cli.table import SUBCOMMANDS
from tests.support.program import data_rows

NONE = {"journal": None, "connect": None, "json": False, "color": None, "quiet": False, "verbose": False}
READ, EDGES = data_rows("words_read.txt"), data_rows("words_edges.txt")


def read(line):
    """The values of a line's words: the same as argparse reads, which has all those that are at fault."""
    found, rest = command_line.split(line.split())
    values = vars(parsing.reader(found).parse_intermixed_args(rest))
    assert vars(command_line.read(found, rest)) == values, line
    return values


class TestWords:
    def test_values(self):
        for line, _, wanted in (it.partition(" => ") for it in READ):
            assert read(line) == {**NONE, **json.loads(wanted)}, line
        named = {command_line.split(line.partition(" => ")[0].split())[0].name for line in READ}
        assert named == {it.name for it in SUBCOMMANDS}

    def test_numbers(self):
        for line, least, most in (it.rsplit(" ", 2) for it in EDGES):
            member = line.rpartition(" --")[2].replace("-", "_")
            # the seconds of a search are limited by those of a service
            member, least, most = "limit" if member == "seconds" and most == "86400" else member, int(least), int(most)
            for value in (least, most):
                assert read(f"{line} {value}")[member] == value, line
            for value in (least - 1, most + 1, "x", "1.0", "\u0663", "1_0"):
                told = f"{line.split()[-1]}: {value} is no number from {least} to {most}: see `registry .* --help`"
                with pytest.raises(Usage, match=rf"\Aargument {told}\Z" if value != -1 else "argument"):
                    read(f"{line} {value}")

    def test_options_before_a_subcommand(self):
        for words, name, rest in ((["--journal", "list", "show", "x"], "show", ["--journal", "list", "x"]),
                                  (["--journal=list", "show", "x"], "show", ["--journal=list", "x"]),
                                  (["--json", "journal", "verify", "x"], "journal verify", ["--json", "x"]),
                                  (["--connect", "a", "--json", "list"], "list", ["--connect", "a", "--json"])):
            found, others = command_line.split(words)
            assert (found.name, others) == (name, rest)
        for words in ([], ["--json"], ["--journal"], ["--journal", "x"], ["--help"], ["-h", "list"],
                      ["--json", "--version"], ["--manual"], ["--complete", "list"], ["--completion", "bash"]):
            assert command_line.split(words) == (None, words)

    def test_help_before_a_subcommand(self):
        for words, wanted in ((["help", "journal", "verify"], ["journal", "verify", "--help"]),
                              (["help"], ["--help"]), (["help", "help"], ["--help", "--help"]),
                              (["show", "help"], ["show", "help"]), ([], [])):
            assert command_line.asked_help(words) == wanted
