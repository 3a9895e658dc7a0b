"""The manual page registry.1: for a small table as roff that was written by hand, and what it says of statuses and
variables against the modules that have them and the pages of docs."""
import re
import signal
from unittest import mock

from registry_cli import failures, manual, program, session
from registry_cli.table import FILE, NEED, PACKAGE, Subcommand, Word, flag, option, word
from tests.support.program import read

SMALL = (
    Subcommand("list", "listing", "List ~all", (), ("registry list",)),
    Subcommand("journal cut", "cut", "Cut a\\b off", (word("FILE", "a journal", FILE),
                                                      word("NEED", "what stays, as a@^1", NEED, "*"),
                                                      word("LAST", "the last one", many="?"),
                                                      option("--lock-file", "FILE", "lock files", FILE, "+"),
                                                      Word(("NAME", "VERSION"), "not this", PACKAGE, "--not"),
                                                      flag("--yes", "no question")),
               ("registry journal cut `x`", ".cut -a"), "It's short."),
)
PAGE = read("tests/support/data/small_manual.1")


class TestPage:
    def test_of_a_small_table(self):
        small = {"SUBCOMMANDS": SMALL, "COMMON": (option("--journal", "FILE", "the journal", FILE),),
                 "ABOUT": "What it is.", "STATUSES": ((0, "Done."),), "FILES": (("a-b", "A file."),),
                 "VARIABLES": (("A_B", "'Some' variable."),)}
        with mock.patch.multiple(manual, **small):
            assert manual.page("registryd 1.2") == PAGE.replace("{version}", "registryd 1.2")
            assert manual.page() == PAGE.replace("{version}", "registryd")


class TestSaid:
    def test_each_status_as_the_page_of_the_command_has_it(self):
        ends = {failures.DONE, failures.REFUSED, failures.USAGE, failures.FAILED, failures.INTERRUPTED,
                failures.NO_READER, 128 + signal.SIGTERM}
        assert {status for status, _ in manual.STATUSES} == ends
        assert self.rows("Status") == {str(it) for it in ends}

    def test_each_variable(self):
        names = {session.VARIABLE, session.SERVICE, program.VARIABLE, "NO_COLOR"}
        assert {name for name, _ in manual.VARIABLES} == names
        assert self.rows("Variable") == {f"`{it}`" for it in names}

    def test_each_file(self):
        assert [name for name, _ in manual.FILES] == [session.DEFAULT, "registry.lock", "registry.needs"]

    def rows(self, head):
        """What stands first in the rows of a table of docs/REGISTRY_COMMAND.md."""
        table = read("docs/REGISTRY_COMMAND.md").partition(f"| {head} |")[2].partition("\n\n")[0]
        return {part for row in table.splitlines()[2:] for part in re.split(", ", row.split(" | ")[0].lstrip("| "))}
