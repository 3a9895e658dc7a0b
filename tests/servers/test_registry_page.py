"""What docs/REGISTRY_COMMAND.md has typed prints what it says; it tells of each subcommand, status and variable."""
import re
import tempfile

from registry_cli import manual, table
from tests.program.test_readme import answers, blocks, page

PAGE = "docs/REGISTRY_COMMAND.md"


class TestPage:
    LONGEST = 300  # each command of the page starts Python, one after the other

    def test_what_is_typed_prints_what_is_told(self):
        shown = blocks(PAGE)
        assert len(shown) == 18
        with tempfile.TemporaryDirectory() as folder:
            for typed, told in zip(shown[::2], shown[1::2]):
                assert answers(folder, ["exec 2>&1", *typed])[0] == told

    def test_it_tells_of_all(self):
        text = page(PAGE)
        for it in table.SUBCOMMANDS:
            first = it.name.split(" ")[0]
            assert re.search(rf"registry {first}\b|`{first}\b",
                             text) or "IMPORTING.md" in text and first == "import", it.name
        for status, _ in manual.STATUSES:
            assert re.search(rf"(?m)^\| (?:\d+, )?{status}(?:, \d+)? \|", text)
        for name, _ in manual.VARIABLES:
            assert f"| `{name}` |" in text
