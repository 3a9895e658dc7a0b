"""Every wrong body can still be put in its place, also those that only `./test --edits` has the prover try."""
import contextlib
import io
import os
import re
import tempfile
import unittest
from pathlib import Path
from unittest import mock

import pytest

from dev.edits import try_edits, try_rounds
from dev.edits.edit_files import CRATES, EDITS, Edit, Function, changes, edits_of, functions_of, put_in_place
from dev.edits.try_rounds import (
    BAD, BY_CLAUSE, BY_NAME, BY_PROOF, NOT_REFUSED, judged, judged_alone, listed, try_in_rounds)

# An edit of a limit's number, which is refused by the law that says what it is.
OF_A_LIMIT = "limits_in_numbers-"
# How many each run of the tests tries.
LISTED = 87
# Errors as the prover words them: with values against what is wanted, and without.
LATER = ("./proofs/a/late/Answers.antt:3:7: error: `returns`: `omega`: the goal does not follow from what it read. "
         "All of that holds, and the goal fails, at `length c.result.now` = 0")
UNFIT = ("./proofs/a/late/Answers.antt:3:7: error: `returns-clause-good`: as printed, the two types differ only where "
         "one has `c.args.line.causes.1`",
         "  (expected), right after `IsGood`, and the other has `c.args.line.causes.0` (found)")
GONE = "./proofs/a/late/Answers.antt:3:7: error: `returns`: record `G` has no field `in-Some`"
OTHER = "./proofs/Lemmas.antt:3:7: error: `lemma`: as printed, the two types differ"
RETURNS = "it is not proved that what the function ensures holds when it returns (`returns`);"
IN_SOURCE = f"note: src/a.rt:12:1: {RETURNS} the facts known there allow values at which this goal is false"
UNPROVED = f"note: src/a.rt:22:1: {RETURNS} `search` gave up at one of its limits"
LATE, EARLY = Function("a::late", 20, 30), Function("a::Room::early", 10, 15)
LATE_STANDS = "fn crate::a::late: depends on a hole in `a`"
EARLY_STANDS = "fn crate::a::Room::early: no holes"


class Edits(unittest.TestCase):
    def test_each_can_be_applied(self):
        count = 0
        for crate in sorted(os.listdir(EDITS)):
            for file in sorted(os.listdir(os.path.join(EDITS, crate))):
                with self.subTest(f"{crate}/{file}"):
                    assert re.search(r"^[a-z0-9_]+-[a-z0-9_]+\.edit$", file)
                    self.apply(os.path.join(CRATES, crate), Path(EDITS, crate, file).read_text(encoding="utf-8"),
                               may_change_constants=file.startswith(OF_A_LIMIT))
                    count += 1
        assert count > 100
        print(f"({count} edits) ", end="")

    def apply(self, crate, text, may_change_constants):
        texts = {}
        for path, old, new in changes(text):
            if path not in texts:
                texts[path] = Path(crate, path).read_text(encoding="utf-8")
            assert texts[path].count(old) == 1, f"{path}: {old}"
            assert old != new
            assert path.startswith("src/"), "an edit of a contract or a proof shows nothing"
            if not may_change_constants:
                assert not re.search(r"\bconst [A-Z]",
                                     old), "a definition may cite the constant, and then changes with it"
            texts[path] = texts[path].replace(old, new)
        assert texts, "an edit has a file, what stands there, and what is to stand there"

    def test_each_that_every_run_tries_names_the_function_that_it_changes(self):
        found = [edit for edits in listed() for edit in edits]
        assert len(found) == LISTED
        for edit in found:
            assert [function.path for _, function in functions_of(edit)] == [edit.only], edit.file

    def test_all_but_a_few_change_one_function(self):
        others = [edit.file for name in os.listdir(EDITS) for edit in edits_of(name)
                  if len(functions_of(edit)) != 1 and not edit.file.startswith(OF_A_LIMIT)]
        assert others == ["number-of_a_full_journal.edit"]

    def test_the_gate_of_the_kit_tries_none(self):
        assert [name for name in os.listdir(CRATES) if os.path.exists(os.path.join(CRATES, name, "must-fail"))] == []

    def test_each_folder_is_of_a_crate(self):
        for name in os.listdir(EDITS):
            assert os.path.isdir(os.path.join(CRATES, name, "src")), name


class TestPlaces:
    """Several edits of a file go to where their texts stand before any of them is put there."""

    def put(self, *pairs):
        with tempfile.TemporaryDirectory() as folder:
            path = os.path.join(folder, "a.rt")
            Path(path).write_text("one; two; three; two two", encoding="utf-8")
            put_in_place([Edit("crate", f"{number}.edit", None, (("a.rt", *pair),)) for number,
                          pair in enumerate(pairs)], folder)
            return Path(path).read_text(encoding="utf-8")

    def test_a_text_that_does_not_stand_once_and_one_in_another(self):
        for pairs in ([("two", "2")], [("four", "4")], [("one; two;", "1"), ("two; three", "2")]):
            with pytest.raises(ValueError):
                self.put(*pairs)


class TestVerdicts:
    def among(self, lines, function=LATE):
        return judged([*lines, "only=2 holes=1"], "crate", "src/a.rt", function)

    def alone(self, *lines):
        return judged_alone(lines, "crate", "src/a.rt", LATE)

    def test_an_error_at_the_function_refuses_its_edit(self):
        lines = [LATER,
                 IN_SOURCE, "fn crate::a::late: not proved; it calls `crate::a::Room::early`, which is not proved"]
        assert self.among(lines) == (BY_CLAUSE, LATER)
        assert self.among(lines, EARLY) == (BY_CLAUSE, IN_SOURCE)
        of_a_cycle = LATER.replace("late", "+late")
        assert self.among([of_a_cycle]) == (BY_CLAUSE, of_a_cycle)

    def test_only_values_show_that_a_clause_refuses_it(self):
        number = (LATER.partition("`omega`")[0]
                  + "the two types first differ where one has %s (expected) and the other has %s (found)")
        for lines in ([LATER], [number % ("`1`", "`5`")], [IN_SOURCE.replace(":12:", ":22:")], [*UNFIT, LATER]):
            assert self.among(lines)[0] == BY_CLAUSE, lines
            assert self.alone(*lines, "only=1 holes=1")[0] == BY_CLAUSE, lines
        for lines in ([UNPROVED], [*UNFIT], [number % ("`1`", "`c.args.count`")], [IN_SOURCE, UNPROVED]):
            assert self.among(lines)[0] == BY_PROOF, lines

    def test_a_harmless_one_is_seen_beside_one_that_is_refused(self):
        assert self.among([LATER, "fn crate::a::late: not proved", EARLY_STANDS], EARLY)[0] == NOT_REFUSED
        assert self.among([IN_SOURCE, "fn crate::a::Room::early: no proof", LATE_STANDS])[0] == NOT_REFUSED

    def test_what_is_said_of_the_only_one(self):
        last = "only=1 holes=1"
        assert self.alone(LATER, GONE, last) == (BY_CLAUSE, LATER)
        assert self.alone(GONE, last) == (BY_NAME, GONE)
        assert self.alone(OTHER, GONE, last) == (BY_PROOF, OTHER)
        assert self.alone(LATE_STANDS, last)[0] == NOT_REFUSED
        for line in ("src/f.rt:1:1: error: no such name", "rattle: no verdict", "", last):
            assert self.alone(line)[0] == BAD


class Rounds(unittest.TestCase):
    """Edits are tried together as far as they can be; the prover is a table of answers here."""

    def setUp(self):
        self.asked = []
        self.enterContext(mock.patch.multiple(try_rounds, asked_with=self.ask, functions_of=lambda edit: {
            ("src/a.rt", LATE if edit.file.startswith("late") else EARLY)}))

    def ask(self, edits, paths, room):
        files = sorted(edit.file for edit in edits)
        self.asked.append(files)
        said = {"early": [IN_SOURCE], "early_harmless": [EARLY_STANDS], "late": [LATER], "late_harmless": [LATE_STANDS],
                "late_gone": [GONE], "late_bad": []}
        if "late_bad" in files:
            return ["src/a.rt:1:1: error: no such name"]
        return [*(line for file in files for line in said[file]), "only=2 holes=1"]

    def kinds(self, *files):
        edits = [Edit("crate", file, None, ()) for file in files]
        return {edit.file: kind for edit, (kind, _) in try_in_rounds(edits, "")}

    def test_those_of_functions_that_differ_go_together(self):
        assert self.kinds("early", "late") == {"early": BY_CLAUSE, "late": BY_CLAUSE}
        assert self.kinds("early", "late_harmless") == {"early": BY_CLAUSE, "late_harmless": NOT_REFUSED}
        assert self.asked == [["early", "late"], ["early", "late_harmless"]]

    def test_one_of_which_nothing_is_said_is_tried_alone(self):
        assert self.kinds("early", "late_gone") == {"early": BY_CLAUSE, "late_gone": BY_NAME}
        assert self.asked == [["early", "late_gone"], ["late_gone"]]


class TestByTheKit:
    """What the kit tells of the edits of whole crates; it is a script here."""

    def test_each_kind_by_its_words(self):
        values = "src/a.rt:1:1: not proved; the facts known there allow values at which this goal is false"
        proof = "./proofs/a/Answers.antt:1:1: error: as printed, the two types differ"
        told = {"values": (f"refused, as it must be: {values}", BY_CLAUSE),
                "proof": (f"refused, as it must be: {proof}", BY_PROOF),
                "nothing": ("refused, as it must be", BY_PROOF),
                "name": (try_edits.WORDS[BY_NAME] + " names what is gone)", BY_NAME),
                "limit": (try_edits.WORDS[try_edits.BY_LIMIT] + " of the prover)", try_edits.BY_LIMIT),
                "not": ("NOT REFUSED: it is proved", NOT_REFUSED), "bad": ("BAD EDIT: no", BAD),
                "untried": ("NOT TRIED: no", try_edits.NOT_TRIED), "silent": (None, try_edits.NOT_TRIED)}
        with tempfile.TemporaryDirectory() as folder:
            script = os.path.join(folder, "rt")
            lines = "".join(f"rt: must-fail crate/{name}: {said}\n" for name, (said, _) in told.items() if said)
            Path(script).write_text(f"#!/bin/sh\ncat <<'END'\n{lines}END\n", encoding="utf-8")
            os.chmod(script, 0o755)
            with mock.patch.dict(os.environ, PATH=f"{folder}:{os.environ['PATH']}"), \
                    mock.patch.object(try_edits, "copy_with_edits"), contextlib.redirect_stdout(io.StringIO()):
                kinds = try_edits.try_whole([Edit("crate", name, None, ()) for name in told])
        assert {name: kinds["crate", name] for name in told} == {name: kind for name, (_, kind) in told.items()}
