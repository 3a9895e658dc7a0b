"""Transcripts of the tools that build and test, over a small checkout with a kit of scripts, which `fake_tree.sh` makes
beside them: they ask for no program under test."""
import os
from pathlib import Path

import pytest

from tests.support.program import TOP

cram = pytest.importorskip("cram", reason="there is no cram (Debian: python3-cram)")
TRANSCRIPTS = sorted(Path(TOP, "tests", "transcripts", "tools").glob("*.t"))


class TestTools:
    LONGEST = 900  # each begins a hundred processes, beside those that prove the program

    @pytest.mark.parametrize("transcript", TRANSCRIPTS, ids=lambda path: path.stem)
    def test_transcript(self, transcript, tmp_path, monkeypatch):
        monkeypatch.chdir(tmp_path)
        _, _, difference = cram.testfile(os.fsencode(transcript), shell="/bin/bash")
        assert not b"".join(difference).decode()
