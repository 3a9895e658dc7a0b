"""What `registry` says of a refusal by number, and of what there is instead: each sentence, worked by hand."""
import json
import re

from registry_cli.refusals import english, there_are, unmatched, unpublished, versions_told
from tests.support.program import data_rows

PACKAGES = {"serde": [["1.0.0", False], ["1.10.0", False], ["1.9.0", True], ["1.2.0", False], ["0.9.0", False]],
            "old": [["1.0.0", True]], "log": [["0.4.0", False]]}


class TestRefusals:
    def test_each_number(self):
        rows = data_rows("refusals_said.txt")
        for number, request, said in (re.fullmatch("([0-9]+) (.*) => (.*)", row).groups() for row in rows):
            # what is published is not asked for
            assert english(json.loads(request), {"error": int(number), "name": "BadLine"}, None) == said

    def test_what_is_not_there(self):
        for name, said in (("serde", "serde 2.0.0 is not published; there are 1.10.0, 1.2.0 and 2 more"),
                           ("old", "old 2.0.0 is not published; there is 1.0.0, yanked"),
                           ("serda", "no version of serda is published; did you mean serde?"),
                           ("zed", "no version of zed is published"),
                           # of so short a name any other would be near
                           ("lo", "no version of lo is published")):
            assert english({"op": "yank", "name": name, "version": "2.0.0"},
                           {"error": 11, "name": "NoSuchVersion"}, lambda: PACKAGES) == said
        assert unpublished("lgo", PACKAGES) == "no version of lgo is published; did you mean log?"
        assert unmatched("log", "^9", PACKAGES["log"]) == "no version of log matches ^9; there is 0.4.0"

    def test_how_many_are_named(self):
        for count, said in ((0, "there is none"), (1, "there is v0"), (2, "there are v0 and v1"),
                            (3, "there are v0, v1 and v2"), (4, "there are v0, v1 and 2 more"),
                            (9, "there are v0, v1 and 7 more")):
            assert there_are([f"v{number}" for number in range(count)]) == said
        some = [["1.0.0-rc.1", False], ["1.0.0", True], ["0.2.0", False]]
        assert versions_told(some) == "there are 1.0.0-rc.1 and 0.2.0"
        assert versions_told([["0.2.0", True], ["1.0.0", True]]) == "there are 1.0.0, yanked and 0.2.0, yanked"
