"""What a long proof says of how far it is."""
import io
import os
import tempfile
import unittest
from pathlib import Path
from unittest import mock

from dev.building import progress as progress_module
from dev.building.progress import crates_below, jobs, seconds_of


class Lines(unittest.TestCase):
    def test_what_a_crate_takes(self):
        with tempfile.TemporaryDirectory() as top, mock.patch.object(progress_module, "TOP", top):
            for name, text in (("crates.txt", "# crates\nlow: std\nhigh: low std # more\nnext:\n"),
                               ("dev/building/proof_seconds.txt", "# measured\nlow 12.5 # s\n"),
                               ("crates/high/src/a/b.rt", "x" * 2_000), ("crates/high/specs/c.antt", "x" * 500),
                               ("crates/high/proofs/d", "x" * 500), ("crates/high/out/e", "x" * 9_000)):
                path = os.path.join(top, name)
                os.makedirs(os.path.dirname(path), exist_ok=True)
                Path(path).write_text(text, encoding="ascii")
            # as measured, else a second for each thousand bytes of its text
            assert (seconds_of("low"), seconds_of("high"), seconds_of("next")) == (12.5, 3.0, 0)
            below = crates_below(), crates_below("high"), crates_below("next")
            assert below == (["low", "high", "next"], ["low", "high"], ["next"])

    def test_how_many_checks_run_at_once(self):
        for free, processors, wanted in ((20_000_000, 4, 4), (11_999_999, 4, 2), (100, 4, 1), (90_000_000, 2, 2)):
            text = f"MemTotal:       99000000 kB\nMemFree:  1 kB\nMemAvailable:   {free} kB\nBuffers: 7 kB\n"
            with mock.patch("builtins.open", lambda *_, **__: io.StringIO(text)), \
                    mock.patch.object(os, "sched_getaffinity", lambda _: set(range(processors))):
                assert jobs() == wanted

    def test_crates_come_after_those_below_them(self):
        crates = crates_below()
        assert len(crates) == len(set(crates))
        assert crates.index("versions") < crates.index("registry")
        assert crates.index("solver") < crates.index("registryd")
