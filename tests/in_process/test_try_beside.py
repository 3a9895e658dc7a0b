"""Wrong bodies are tried, and the static library built, beside the gate over what is proved; the prover is a stub."""
import contextlib
import io
import os
import tempfile
import unittest
from pathlib import Path
from unittest import mock

from dev.edits import try_beside, try_rounds
from dev.edits.edit_files import Edit
from dev.edits.try_rounds import BAD, BY_CLAUSE, BY_NAME, BY_PROOF, NOT_REFUSED

# low and side stand on nothing, mid on low, high on mid and side; top is the static library
CRATES = {"low": ["std"], "side": [], "mid": ["low"], "high": ["mid", "side"], "top": ["high"]}
EDITED = ("low", "mid", "high")


class Beside(unittest.TestCase):
    def setUp(self):
        self.folder = self.enterContext(tempfile.TemporaryDirectory())
        self.begun, self.built, self.static = [], [], []
        listed = [[Edit(name, f"{name}-{number}.edit", None, ()) for number in range(2)] for name in EDITED]
        for module, name, stub in ((try_beside, "stands_on", lambda: CRATES), (try_beside, "listed", lambda: listed),
                                   (try_beside, "library", self.library), (try_rounds, "library", self.library),
                                   (try_beside, "build_below", self.build_below),
                                   (try_beside, "try_in_rounds", self.in_rounds),
                                   (try_beside.prove_library, "build", self.build_static)):
            self.enterContext(mock.patch.object(module, name, stub))

    def library(self, name):
        return os.path.join(self.folder, name, "out", "rlib", f"{name}.rlib")

    def build(self, name, text="by the gate"):
        os.makedirs(self.library(name), exist_ok=True)
        Path(self.library(name), "text").write_text(text, encoding="utf-8")

    def build_below(self, names):
        below = {"low", "mid", "side"}
        for name in below:
            self.built.append(name)
            os.makedirs(self.library(name), exist_ok=True)
        return below

    def build_static(self, name, room):
        self.static.append((name, sorted(os.listdir(room))))
        return True, ""

    def in_rounds(self, edits, room):
        name = edits[0].crate
        self.begun.append(name)
        for below in try_beside.reached(CRATES, name):
            assert os.path.isdir(os.path.join(room, f"{below}.rlib")), f"{below} below {name}"
        return [(edit, (BY_CLAUSE if edit.file.endswith("-0.edit") else NOT_REFUSED, "")) for edit in edits]

    def prove(self, tries, name):
        if name != "top":
            self.build(name)
        tries.tell(name, True)
        for of in tries.tried:
            of.result()

    def counts(self, tries, is_well=True):
        with contextlib.redirect_stdout(io.StringIO()):
            return tries.end(is_well)

    def test_none_begins_while_proofs_have_all_processors(self):
        with try_beside.Tries(2, "top") as tries:
            for name in ("low", "side"):
                self.prove(tries, name)
                # mid and side, then mid, are being proved; of two processors one is idle then
                assert self.begun == ([] if name == "low" else ["low"])
            for name in ("mid", "high", "top"):
                self.prove(tries, name)
            assert self.begun == ["low", "mid", "high"]
            assert self.counts(tries) == (3, 3)
        assert self.built == []

    def test_the_static_library_is_built_once_all_below_it_is_proved(self):
        with try_beside.Tries(2, "top") as tries:
            for name in ("low", "side", "mid", "high"):
                assert self.static == []
                self.prove(tries, name)
            # it is begun beside its own proof, and once
            assert (tries.built.result(), tries.build_library()) == ((True, ""), tries.built)
            assert self.static == [("top", ["high.rlib", "low.rlib", "mid.rlib", "side.rlib"])]

    def test_what_they_came_to_is_told_and_counted_by_kinds(self):
        kinds = [BY_CLAUSE, BY_PROOF, BY_PROOF, BY_NAME, NOT_REFUSED, BAD]
        listed = [[Edit("low", f"{number}.edit", None, ()) for number in range(6)]]
        with mock.patch.multiple(try_beside, listed=lambda: listed, try_in_rounds=lambda edits, room: [
                (edit, (kinds[int(edit.file[0])], "")) for edit in edits]), \
                try_beside.Tries(4, "top") as tries, contextlib.redirect_stdout(io.StringIO()) as said:
            self.prove(tries, "low")
            assert tries.end(True) == (3, 3)
        *each, last = said.getvalue().splitlines()
        assert [line.split(": ")[1] for line in each] == kinds
        assert sorted(last.removeprefix("wrong bodies: ").split(", ")) == [
            "1 bad", "1 not refused", "1 refused by a clause", "1 refused only because a name is gone",
            "2 refused only because a proof no longer fits"]

    def test_no_edit_of_a_crate_that_failed_or_stands_on_one_is_tried(self):
        with try_beside.Tries(4, "top") as tries:
            for name in ("low", "side"):
                self.prove(tries, name)
            for name in ("mid", "high", "top"):
                tries.tell(name, False)
            assert self.counts(tries, False) == (1, 1)
        assert self.begun == ["low"]
