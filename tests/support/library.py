"""The library for C under test, and callers that are compiled against it."""
import functools
import os
import subprocess
import tempfile
import unittest
from collections.abc import Iterable
from pathlib import Path

from dev.building import c_library
from tests.support.program import TOP

CLIENT = os.path.join(TOP, "clients", "c")
TESTS = os.path.join(TOP, "tests", "support", "c")
STRICT = ["-std=c11", "-Wall", "-Wextra", "-Wpedantic", "-Werror", "-O1", "-I", CLIENT]


def folder_for_tests() -> tuple[Path | None, str]:
    """The folder of the library: that of the file which the environment names (`REGISTRYD_LIBRARY`), else where it is
    built; or why it can't be."""
    named = os.environ.get("REGISTRYD_LIBRARY")
    try:
        return Path(named).resolve().parent if named else c_library.built().folder, ""
    except (c_library.Unbuilt, OSError) as why:
        return None, str(why)


FOLDER, LACKING = folder_for_tests()
# The path of libregistryd.so, or none.
LIBRARY = str(FOLDER / "libregistryd.so") if FOLDER else None
needs_library = unittest.skipUnless(FOLDER, LACKING)


def compiled(words: Iterable[object]) -> None:
    done = subprocess.run(["cc", *map(str, words)], stdout=subprocess.PIPE, stderr=subprocess.STDOUT, check=False)
    assert done.returncode == 0, done.stdout.decode(errors="replace")


def linked(to: str | Path, source: str | Path, *more: str) -> str:
    """Compiles a caller against the library, as its users do."""
    compiled([*STRICT, *more, source, "-L", FOLDER, "-l:libregistryd.a", "-lpthread", "-o", to])
    return str(to)


@functools.cache
def sources_compiled(more: tuple[str, ...]) -> list[str]:
    """The library's sources, compiled with these words of the compiler, once for all callers of a file of tests."""
    folder = tempfile.TemporaryDirectory()
    for cleanup in (folder.cleanup, sources_compiled.cache_clear):
        unittest.addModuleCleanup(cleanup)
    sources = sorted(it for it in Path(CLIENT).glob("*.c") if not it.name.startswith("example"))
    objects = [os.path.join(folder.name, f"{it.stem}.o") for it in sources]
    for source, to in zip(sources, objects):
        compiled([*STRICT, *more, "-c", source, "-o", to])
    return objects


def linked_with_sources(to: str | Path, source: str | Path, *more: str) -> str:
    """Compiles a caller together with the library's sources, all with the same words of the compiler."""
    compiled([*STRICT, *more, source, *sources_compiled(more), c_library.archive()[0], c_library.heap(),
              "-lpthread", "-o", to])
    return str(to)


class Caller(unittest.TestCase):
    """A test with a folder, in which its caller of the library is compiled."""

    def setUp(self) -> None:
        self.folder = self.enterContext(tempfile.TemporaryDirectory())
        self.caller = os.path.join(self.folder, "caller")


def serving(case: type[unittest.TestCase], *words: str, source: str = "embedded_serve.c") -> str:
    """A program that serves lines as the program under test does, over a session in process, or races files, by seats;
    it is compiled with these words, and lasts as long as a class of tests."""
    if not FOLDER:
        raise unittest.SkipTest(LACKING)
    folder = case.enterClassContext(tempfile.TemporaryDirectory())
    return linked(os.path.join(folder, "serve"), os.path.join(TESTS, source), *words)
