"""Which program is taken of those that the gate keeps. The kit is a stub here, with its way to name what it keeps."""
import hashlib
import json
import os
import tempfile
import unittest
from pathlib import Path
from types import SimpleNamespace
from unittest import mock

from dev.building import kept_program
from dev.building.kept_program import take, taken


def sum_of(file):
    return hashlib.sha256(Path(file).read_bytes()).hexdigest()


class Crate:
    def __init__(self, name, below=()):
        self.name, self.libraries, self.folder = name, [*below], os.path.join("top", "crates", name)

    def below(self):
        return self.libraries


class Store:
    """Keeps what it is given by a name that says of which text, over which libraries."""

    def __init__(self, at, texts):
        self.at, self.texts, self.rlibs = at, texts, {}

    def key(self, crate):
        said = self.texts[crate.name], [self.rlibs.get(it.name) for it in crate.below()]
        return hashlib.sha256(repr(said).encode()).hexdigest()

    def place(self, crate, tests, key):
        assert tests is False, "a program is kept beside its tests"
        return os.path.join(self.at, f"{crate.name}-{key}")

    def keep(self, crate, path, data):
        at = self.place(crate, False, self.key(crate))
        os.makedirs(at)
        Path(at, "0").write_bytes(data)
        made = [(path, sum_of(os.path.join(at, "0")))]
        with open(os.path.join(at, "made.json"), "w", encoding="utf-8") as file:
            json.dump({"files": made}, file)
        self.rlibs[crate.name] = hashlib.sha256(repr(made).encode()).hexdigest()
        return os.path.join(at, "0")


class Taken(unittest.TestCase):
    def setUp(self):
        self.room = self.enterContext(tempfile.TemporaryDirectory())
        self.low = Crate("low")
        self.top = Crate("top", [self.low])
        store = Store(self.room, {"low": "a", "top": "b"})
        store.keep(self.low, "rlib/low.rlib/format", b"library")
        self.kept = store.keep(self.top, "top", b"program")
        self.to = os.path.join(self.room, "out", "top")

    def kit(self, **texts):
        self.store = Store(self.room, {"low": "a", "top": "b", **texts})
        rtlib = SimpleNamespace(sum_of=sum_of, Crate=lambda *given: self.asked.append(given) or self.top)
        return SimpleNamespace(Crate=SimpleNamespace(), handles_of=lambda root: f"handles of {root}",
                               Kept=lambda crates: self.store, rtlib=rtlib)

    def take(self, **texts):
        self.asked, kit = [], self.kit(**texts)
        found = take(kit, self.top, self.to)
        # the kit reads what crates may use before it names what it keeps
        assert kit.Crate.allowed == "handles of top"
        return found

    def test_the_program_of_the_same_files(self):
        # the second time its folder is there
        for _ in range(2):
            assert self.take()
            assert Path(self.to).read_bytes() == b"program"
            assert os.access(self.to, os.X_OK)

    def test_none_where_a_file_differs(self):
        for changed in ({"top": "c"}, {"low": "c"}):
            assert not self.take(**changed)
            assert not os.path.exists(self.to)

    def test_none_whose_bytes_are_not_those_that_were_kept(self):
        Path(self.kept).write_bytes(b"another")
        assert not self.take()
        assert os.listdir(os.path.dirname(self.to)) == []

    def test_what_is_asked_of_the_kit(self):
        self.asked = []
        folder = os.path.join(self.room, "taken")
        with mock.patch.object(kept_program.kit_commands, "load", lambda: self.kit()):
            assert taken(Path("/a top"), "top", folder) == Path(folder, "top")
        assert self.asked == [("/a top/crates/top", "/a top", {})]
        assert Path(folder, "top").read_bytes() == b"program"
        with mock.patch.object(kept_program.kit_commands, "load", lambda: self.kit(top="c")):
            assert taken(Path("/a top"), "top", os.path.join(self.room, "other")) is None
        for fault in (SystemExit(1), ValueError("no")):
            with mock.patch.object(kept_program.kit_commands, "load", side_effect=fault):
                assert taken(Path("/a top"), "top", folder) is None
