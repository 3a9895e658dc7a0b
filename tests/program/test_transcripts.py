"""Each transcript of a shell under tests/transcripts: its commands print what stands below them, and end with the
status in brackets, which is 0 where none stands. What a `.t` file may have besides, cram's manual says."""
import os
from pathlib import Path

import pytest

from tests.support.program import PROGRAM, TOP

cram = pytest.importorskip("cram", reason="there is no cram (Debian: python3-cram)")
TRANSCRIPTS = sorted(Path(TOP, "tests", "transcripts").glob("*.t"))


@pytest.fixture
def shell(tmp_path, monkeypatch):
    """An empty folder, and a path with the commands of this repository, over the program under test."""
    (tmp_path / "bin").mkdir()
    (tmp_path / "bin" / "registryd").symlink_to(PROGRAM)
    (tmp_path / "work").mkdir()
    monkeypatch.chdir(tmp_path / "work")
    monkeypatch.setenv("PATH", os.pathsep.join([str(tmp_path / "bin"), TOP, os.environ["PATH"]]))
    monkeypatch.setenv("REGISTRY_PROGRAM", PROGRAM)
    for name in ("REGISTRY_JOURNAL", "REGISTRY_CONNECT"):
        monkeypatch.delenv(name, raising=False)


class TestTranscripts:
    LONGEST = 300  # some begin a hundred processes

    @pytest.mark.parametrize("transcript", TRANSCRIPTS, ids=lambda path: path.stem)
    def test_transcript(self, shell, transcript):
        _, said, difference = cram.testfile(os.fsencode(transcript), shell="/bin/bash")
        if said is None:  # it ended with 80
            pytest.skip("there is not what it is about")
        assert not b"".join(difference).decode()
