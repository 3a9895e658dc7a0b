"""The number of a version stands in the file VERSION; each other place that states it has the same."""
import re
import tomllib

from tests.support.program import read

VERSION = read("VERSION")
# what Keep a Changelog has above the changes of a version
HEADING = re.compile(r"^## \[(\d+\.\d+\.\d+)\] - (\d{4}-\d{2}-\d{2})$", re.M)
# its kinds of changes
KINDS = ["Added", "Changed", "Deprecated", "Removed", "Fixed", "Security"]


class TestVersions:
    def test_it_is_one_line_of_semantic_versioning(self):
        assert re.search(r"\A(0|[1-9]\d*)(\.(0|[1-9]\d*)){2}\n\Z", VERSION)

    def test_the_changelog_begins_with_it(self):
        numbers = [number for number, _ in HEADING.findall(read("CHANGELOG.md"))]
        assert numbers[0] == VERSION.strip()
        assert numbers == sorted(numbers, key=lambda it: tuple(map(int, it.split("."))), reverse=True)

    def test_the_changelog_is_of_its_form(self):
        for title in re.findall("^## (.*)$", read("CHANGELOG.md"), re.M):
            assert HEADING.match(f"## {title}") or title in ("[Unreleased]", "Before 0.3.0"), title
        kinds = re.findall("^### (.*)$", read("CHANGELOG.md"), re.M)
        assert set(kinds) <= set(KINDS)
        assert len(kinds) > 0

    def test_the_client_in_rust_has_it(self):
        assert tomllib.loads(read("clients", "rust", "Cargo.toml"))["package"]["version"] == VERSION.strip()
        (locked,) = tomllib.loads(read("clients", "rust", "Cargo.lock"))["package"]
        assert locked["version"] == VERSION.strip()

    def test_the_client_in_python_has_it(self):
        assert re.findall('^__version__ = "(.*)"$', read("clients", "python", "registryd", "__init__.py"),
                          re.M) == [VERSION.strip()]

    def test_the_page_on_installing_has_it(self):
        numbers = re.findall(r"\bregistryd[ _](\d+\.\d+\.\d+)", read("docs", "INSTALLING.md"))
        assert len(numbers) > 1
        assert {*numbers} == {VERSION.strip()}
