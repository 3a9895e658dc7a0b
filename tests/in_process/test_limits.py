"""A limit is the same wherever it is stated: in docs/REGISTRY.md, in `registry_cli/limits.py`, in the program, in the
schema of lines, in the clients, and in the other pages that say it."""
import re
import unittest
from pathlib import Path

from registry_cli import check_derivation, limits
from registry_etcd import front
from tests.support import lines_schema
from tests.support.program import TOP, data_rows, read

ROW = re.compile(r"^\| ([^|]+) \| ([\d,]+) ([^|]+) \| \[`(\w+)`\]\(\.\./(crates/[\w/.]+)\) \| `(\w+)` \|$", re.M)
# What the program's libraries export beside: how many requests are answered together, how much is read at once, the
# seats, one more than there are files, the bytes of a lock, which is a line, the package of the request, the bits of a
# word, and what a search and a reader make room for.
OTHERS = {"MOST_CONFLICTS", "THREAD", "BATCH_LIMIT", "READ_SIZE", "SEAT_LIMIT", "LOCK_BYTES", "ROOT",
          "FAR", "MOST_CHOICES", "MOST_NEEDS_IN_ONE_PASS", "NEEDS_ROOM"}
MORE_THAN_A_PAIR = 2


def number(text):
    return int(text.replace(",", "").replace("_", ""))


def constants(path, mark=r"(?:pub )?"):
    """The whole numbers that a source of the program names; those for other crates, where that mark is told."""
    return {name: number(value) for name, value in re.findall(rf"(?m)^{mark}const (\w+): \w+ = ([\d_]+);$", read(path))}


def listed():
    """Each limit of the file in Python."""
    return {name: value for name, value in vars(limits).items() if name.startswith("MOST_")}


def bounds(form, place=""):
    """What a schema says of the most of anything, by its place there: pairs and what is longer by nature aside."""
    items = form.items() if isinstance(form, dict) else enumerate(form) if isinstance(form, list) else []
    for name, value in items:
        if name in ("maxItems", "maxLength", "maximum") and value > MORE_THAN_A_PAIR:
            yield f"{place}/{name}", value
        yield from bounds(value, f"{place}/{name}")


class Limits(unittest.TestCase):
    def test_the_page_has_each_limit(self):
        rows = [row.groups() for row in ROW.finditer(read("docs/REGISTRY.md").partition("## Limits")[2])]
        assert {name: number(most) for _, most, _, _, _, name in rows} == listed()
        assert len(rows) == len(listed())

    def test_the_program_has_each_limit(self):
        told = {(path, constant): name for _, _, _, constant, path, name in ROW.findall(read("docs/REGISTRY.md"))}
        assert len(told) == len(listed())
        for (path, constant), name in told.items():
            assert constants(path).get(constant) == getattr(limits, name), f"{path}: {constant} and {name}"

    def test_no_limit_of_the_program_is_left_out(self):
        told = {(path, constant) for _, _, _, constant, path, _ in ROW.findall(read("docs/REGISTRY.md"))}
        tests = ("probe", "rows")
        sources = [path.relative_to(TOP).as_posix() for path in Path(TOP, "crates").glob("*/src/**/*.rt")
                   if not path.relative_to(TOP).parts[1].startswith(tests)]
        found = {(path, name) for path in sources for name in constants(path, "pub ")}
        assert len(found & told) > len(told) - 2
        assert {(path, name) for path, name in found - told if name not in OTHERS} == set()

    def test_the_schema_has_each_limit(self):
        wanted = {"/releases/maxItems": limits.MOST_VERSIONS, "/published/properties/needs/maxItems": limits.MOST_NEEDS,
                  "/learnt/properties/derivation/maxItems": limits.MOST_DERIVATION_LINES,
                  "/revision/maximum": limits.MOST_CELLS, "/place/maximum": limits.MOST_CELLS,
                  "/seat/maximum": limits.MOST_FILES, "/version/maxLength": limits.MOST_VERSION_BYTES,
                  "/requirement/maxLength": limits.MOST_REQUIREMENT_BYTES, "/number/maximum": 2 ** 32 - 1}
        assert dict(bounds(lines_schema.KINDS)) == wanted
        for name in ("name", "nameOrRequest"):
            assert "{0,%d}" % (limits.MOST_NAME_BYTES - 1) in lines_schema.KINDS[name]["pattern"]

    def test_each_place_that_states_a_limit_by_hand(self):
        for row in data_rows("limits_stated.txt"):
            name, path, pattern = row.split(" ", 2)
            found = re.findall(pattern, read(path))
            assert found and {number(it) for it in found} == {getattr(limits, name)}, row

    def test_the_checker_that_stands_alone(self):
        assert check_derivation.MOST_BYTES == limits.MOST_VERSION_BYTES
        assert check_derivation.MOST_BYTES == limits.MOST_REQUIREMENT_BYTES
        for length, is_name in ((limits.MOST_NAME_BYTES, True), (limits.MOST_NAME_BYTES + 1, False)):
            assert bool(check_derivation.NAME.fullmatch("a" * length)) == is_name

    def test_no_command_is_longer_than_an_entry_in_etcd(self):
        # a publication with as many dependencies as may be, each text as long as it may be, and what JSON has between
        pair = limits.MOST_NAME_BYTES + limits.MOST_REQUIREMENT_BYTES + len('["",""],')
        most = (limits.MOST_NEEDS * pair + limits.MOST_NAME_BYTES + limits.MOST_VERSION_BYTES
                + len('{"name":"","needs":[],"op":"publish","version":""}'))
        assert most < front.MOST_ENTERED
