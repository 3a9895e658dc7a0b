"""What the plain registries and searches take for versions, requirements and refusals. `test_newest.py` has what they
select, and `rows/lies.rows` what they refuse, worked by hand."""
import re

from tests.support.plain_search import key, matches
from tests.support.program import read
from tests.support.reference import REFUSALS

# https://semver.org, section 11: the example of rising precedence, with numbers before it and behind it
RISING = ["0.9.9", "1.0.0-0", "1.0.0-2", "1.0.0-10", "1.0.0-alpha", "1.0.0-alpha.1", "1.0.0-alpha.beta",
          "1.0.0-beta", "1.0.0-beta.2", "1.0.0-beta.11", "1.0.0-rc.1", "1.0.0", "1.0.1-rc.1", "1.0.1", "1.1.0",
          "1.10.0", "2.0.0", "2.1.0", "2.1.1", "10.0.0"]


class TestVersions:
    def test_precedence(self):
        assert sorted(reversed(RISING), key=key) == RISING
        assert all(key(low) < key(high) for low, high in zip(RISING, RISING[1:]))
        assert key("1.0.0-rc.1+x") == key("1.0.0-rc.1+y.2")

    def test_requirements(self):
        table = read("tests/support/data/requirements.txt")
        full_versions = table.split("\n# ")[0].splitlines()[1:]
        for requirement, met, unmet in (row.split(" | ") for row in full_versions):
            for version in [*met.split(" "), *unmet.split(" ")]:
                assert matches(requirement, version) == (version in met.split(" ")), (requirement, version)


def test_names_of_refusals():
    page = read("docs", "REGISTRY.md")
    names = {int(number): name for number, name in re.findall(r"^\| (\d+) \| (\w+) \|", page, re.M)}
    assert REFUSALS == {number: names[number] for number in REFUSALS}
    assert {*range(1, 14), 18, 19} <= REFUSALS.keys()
