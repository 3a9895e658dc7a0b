"""What `./test` counts and measures. `transcripts/tools/tested.t` shows how it ends."""
import os

import pytest

from dev import measured
from dev.testing.counts import Counts


@pytest.mark.parametrize("before, took, names, wanted", [
    # c takes six times as long as was noted beside the others, and d some seconds more
    ({"a": 100, "b": 100, "c": 95, "d": 1, "e": 30}, {"a": 95, "b": 100, "c": 617, "d": 4, "e": 30}, "abcde",
     {"a": 100, "b": 100, "c": 617, "d": 1, "e": 30}),
    # on a slower machine, where one is new and one is gone
    ({"a": 100, "b": 40, "c": 7}, {"a": 200, "new": 60}, ["new", "a", "c"], {"new": 30, "a": 100, "c": 7})])
def test_what_is_measured_is_noted_where_it_is_far_from_what_stands(before, took, names, wanted, tmp_path):
    path = tmp_path / "seconds.txt"
    path.write_text("".join(["# what it is\n", *(f"{name} {seconds}\n" for name, seconds in before.items())]))
    measured.note(path, took, names)
    assert path.read_text().startswith("# what it is\n")
    assert measured.read(path) == wanted


def test_the_proof_of_a_crate_begins_when_the_gate_tells_of_one_before_it(tmp_path, monkeypatch):
    moments = iter([0, 10, 25])
    monkeypatch.setattr(measured.time, "monotonic", lambda: next(moments))
    proofs = measured.Proofs({name: os.path.join(tmp_path, name) for name in "ab"})
    for name in "ab":  # b waits for a processor until a is proved
        os.makedirs(tmp_path / name / "out")
        proofs.tell(name)
    assert proofs.took == {"a": 10, "b": 15}


def test_counts_of_parts_are_added():
    whole = Counts(2, 0, (("a", "no etcd"),)) + Counts(3, 1, told=("this",))
    whole += Counts(0, 0, (("b", "no cargo"),), ("more",))
    assert whole.lines() == ["skipped: a: no etcd", "skipped: b: no cargo", "this",
                             "more", "5 passed, 1 failed, 2 skipped"]
