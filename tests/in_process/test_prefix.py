"""How files are put below a prefix and removed: what is written where, in which order, and what a failure leaves."""
import os
import tempfile
import unittest
from pathlib import Path
from unittest import mock

import pytest

from dev.installing import prefix
from dev.installing.installed import Piece
from dev.installing.prefix import Refused, install, listed, remove

LIST = "lib/registryd/installed"
PIECES = [Piece("bin/run", b"run", 0o755), Piece("share/registryd/a/text", b"text"),
          Piece("share/man/page", link="other")]
LISTED = ["./", "bin/", "bin/run", "lib/", "lib/registryd/", LIST, "share/", "share/man/",
          "share/man/page", "share/registryd/", "share/registryd/a/", "share/registryd/a/text"]


def below(folder):
    """Each path below a folder: a folder's ends in a slash, a file has its bytes and mode, a link where it leads."""
    found = {}
    for path in sorted(folder.rglob("*")):
        name = str(path.relative_to(folder))
        if path.is_symlink():
            found[name] = os.readlink(path)
        elif path.is_dir():
            found[name + "/"] = oct(path.stat().st_mode & 0o777)
        else:
            found[name] = path.read_bytes(), oct(path.stat().st_mode & 0o777)
    return found


class Case(unittest.TestCase):
    def setUp(self):
        self.folder = Path(self.enterContext(tempfile.TemporaryDirectory()))
        self.prefix = self.folder / "prefix"
        self.addCleanup(os.umask, os.umask(0o077))

    def refused(self, told, do, *more):
        with pytest.raises(Refused) as caught:
            do(self.prefix, *more)
        assert str(caught.value) == told

    def failing(self, at, fault, what="replace"):
        """Has a call of the system fail, the one of this number."""
        real, calls = getattr(os, what), []

        def call(*given):
            calls.append(given)
            if len(calls) == at:
                raise fault
            real(*given)
        return mock.patch.object(os, what, call)


class Installing(Case):
    def test_what_stands_where(self):
        install(self.prefix, PIECES)
        text = "".join(f"{line}\n" for line in LISTED).encode()
        folders = dict.fromkeys((it for it in LISTED[1:] if it.endswith("/")), "0o755")
        assert below(self.prefix) == {**folders, "bin/run": (b"run", "0o755"),
                                      "share/registryd/a/text": (b"text", "0o644"), "share/man/page": "other",
                                      LIST: (text, "0o644")}
        assert (oct(self.prefix.stat().st_mode & 0o777), listed(self.prefix),
                os.listdir(self.folder)) == ("0o755", LISTED, ["prefix"])

    def test_what_another_install_put_there(self):
        install(self.prefix, [Piece("bin/run", b"old", 0o644), Piece("bin/more", b"more"), Piece("old/a/b", b"")])
        (self.prefix / prefix.NEW).mkdir()
        (self.prefix / prefix.NEW / "7").touch()
        install(self.prefix, PIECES)
        # its folders are listed so long as they may be there
        assert listed(self.prefix) == sorted([*LISTED, "old/", "old/a/"])
        there, wanted = ({it for it in paths if not it.endswith("/")} for paths in (below(self.prefix), LISTED))
        assert there == wanted
        assert below(self.prefix)["bin/run"] == (b"run", "0o755")
        assert (remove(self.prefix), self.prefix.exists()) == ([], False)

    def test_what_nobody_may_replace(self):
        (self.prefix / "share/man").mkdir(parents=True)
        (self.prefix / "share/man/page").symlink_to("nowhere")
        before = below(self.prefix)
        self.refused(f"{self.prefix}/share/man/page is there already, and no install put "
                     f"it there: move it away, or name another prefix", install, PIECES)
        assert below(self.prefix) == before

    def test_it_fails_amid_the_files(self):
        # the list is written first, then come three files, and the list again
        for at, there in ((2, []), (3, ["bin/run"]), (5, ["bin/run", "share/man/page", "share/registryd/a/text"])):
            with self.failing(at, OSError(5, "Input/output error", "it")):
                self.refused("it: Input/output error; what is installed is not whole: install it again, or remove it",
                             install, PIECES)
            assert [it for it in below(self.prefix) if it in ("bin/run", "share/man/page",
                                                              "share/registryd/a/text")] == there
            assert listed(self.prefix) == LISTED
            assert (remove(self.prefix), self.prefix.exists()) == ([], False)
        # where an earlier install is replaced, both are listed
        install(self.prefix, [Piece("bin/old", b"")])
        with self.failing(2, KeyboardInterrupt()):
            self.refused("it was broken off; what is installed is not whole: install it again, or remove it",
                         install, PIECES)
        assert listed(self.prefix) == sorted([*LISTED, "bin/old"])
        install(self.prefix, PIECES)
        assert listed(self.prefix) == LISTED


class Removing(Case):
    def test_what_was_not_installed_stays(self):
        install(self.prefix, PIECES)
        for name in ("share/man/mine", "bin/__pycache__/mine"):
            (self.prefix / name).parent.mkdir(exist_ok=True)
            (self.prefix / name).write_text("mine", encoding="ascii")
        # beside its own modules, what Python keeps
        for name in ("share/registryd/a/__pycache__/kept", "lib/registryd/__pycache__/kept", f"{prefix.NEW}/3"):
            (self.prefix / name).parent.mkdir()
            (self.prefix / name).touch()
        kept = ["share/man", "share", "bin", "."]
        assert [str(it.relative_to(self.prefix)) for it in remove(self.prefix)] == kept
        assert set(below(self.prefix)) == {"share/", "share/man/", "share/man/mine", "bin/",
                                           "bin/__pycache__/", "bin/__pycache__/mine"}

    def test_a_list_that_names_what_is_elsewhere(self):
        install(self.prefix, PIECES)
        for line in ("/etc/passwd", "../other", "bin/../../other", ".."):
            (self.prefix / LIST).write_text(f"bin/run\n{line}\n", encoding="utf-8")
            for do, more in ((remove, ()), (install, (PIECES,))):
                self.refused(f"{self.prefix}/{LIST} is not as it was written: it names what is not below {self.prefix}",
                             do, *more)
        assert "bin/run" in below(self.prefix)
        (self.prefix / LIST).write_text("bin/run\n..a/b..\n", encoding="utf-8")
        assert listed(self.prefix) == ["bin/run", "..a/b.."]
