"""What the library for C shows of itself, how it is built and installed, and how callers find it."""
import os
import re
import shutil
import subprocess
import tempfile
import unittest
from pathlib import Path
from unittest import mock

import pytest

from dev.building import build_library, c_library
from dev.building.c_library import Library
from dev.building.programs import COMPILED, PROVED, Program
from dev.installing import install, installed, package, prefix
from tests.program.test_c_client import check_example
from tests.program.test_readme import blocks
from tests.support.called import called
from tests.support.library import CLIENT, FOLDER, STRICT, needs_library
from tests.support.program import PROGRAM, TOP, skip_without

pytestmark = pytest.mark.not_quick("the static library")
EXAMPLE = os.path.join(CLIENT, "example.c")
VERSION = Path(TOP, "VERSION").read_text(encoding="ascii").strip()
UNPROVED = Program(Path(PROGRAM), COMPILED, "")


def said(*words, **more):
    done = subprocess.run(list(map(str, words)), stdout=subprocess.PIPE, stderr=subprocess.STDOUT, text=True, **more)
    assert done.returncode == 0, done.stdout
    return done.stdout


def declared():
    return sorted(re.findall(r"^(?:int |const char \*)(registryd_\w+)\(",
                             Path(CLIENT, "registryd.h").read_text(encoding="utf-8"), re.M))


@needs_library
class Names(unittest.TestCase):
    def names(self, *words):
        """The names that a linker finds, and what kind each is."""
        return dict(line.split()[-1:-3:-1] for line in said("nm", "--defined-only", *words).splitlines()
                    if len(line.split()) == 3)

    def test_a_linker_finds_the_calls_of_the_header_and_nothing_else(self):
        self.assertGreater(len(declared()), 8)
        self.assertEqual(Path(CLIENT, "exports.txt").read_text(encoding="ascii").split(), declared())
        for words in (["-g", FOLDER / "libregistryd.a"], ["-D", FOLDER / "libregistryd.so"]):
            self.assertEqual(self.names(*words), dict.fromkeys(declared(), "T"))

    def test_it_asks_for_the_c_library_alone(self):
        needed = re.findall(r"\(NEEDED\).*\[(.*)\]", said("readelf", "-d", FOLDER / "libregistryd.so"))
        self.assertEqual(needed, ["libc.so.6"])

    def test_each_call_of_the_header_is_tried_by_a_test(self):
        tried = "".join(path.read_text(encoding="utf-8") for path in Path(TOP, "tests", "support", "c").glob("*.[ch]"))
        self.assertEqual([it for it in declared() if f"{it}(" not in tried], [])


@needs_library
class Page(unittest.TestCase):
    """What the page shows can be typed."""

    def test_the_example(self):
        page = Path(CLIENT, "README.md").read_text(encoding="utf-8")
        shown = re.search(r"This is \[example.c\]\(example.c\):\n\n((?:    .*\n|\n)+)", page)[1]
        self.assertEqual(re.sub("^    ", "", shown, flags=re.M).strip("\n") + "\n",
                         Path(EXAMPLE).read_text(encoding="utf-8"))
        (build, *typed), told = blocks(os.path.join("clients", "c", "README.md"))[:2]
        self.assertEqual(build, "tools/build_library")
        with tempfile.TemporaryDirectory() as folder:
            script = "\n".join(typed).replace("clients/c", CLIENT).replace("out/library", str(FOLDER))
            self.assertEqual(said("sh", "-e", "-c", script, cwd=folder).splitlines(), told)


@needs_library
class Built(unittest.TestCase):
    LONGEST = 300  # the library is built

    def setUp(self):
        # what is built here is not run
        self.enterContext(mock.patch.dict(os.environ, CFLAGS="-O0"))

    def test_it_is_built_anew_where_anything_has_changed(self):
        over, kind = c_library.archive()
        with tempfile.TemporaryDirectory() as folder:
            sources, made = Path(folder, "c"), Path(folder, "library")
            shutil.copytree(CLIENT, sources)
            with mock.patch.multiple(c_library, SOURCES=sources, FOLDER=made):
                self.assertIsNone(c_library.standing())
                self.assertEqual(c_library.built().folder, made)
                first = (made / "libregistryd.a").stat().st_mtime_ns
                self.assertEqual((c_library.built(), c_library.standing()), (Library(made, kind),) * 2)
                self.assertEqual((made / "libregistryd.a").stat().st_mtime_ns, first)
                with mock.patch.object(c_library, "make") as make:
                    for changed in (sources / "fault.c", made / "libregistryd.a", made / "libregistryd.so.0"):
                        with open(changed, "ab") as file:
                            file.write(b"\n")
                        self.assertIsNone(c_library.standing(), changed)
                        c_library.built()
                        self.assertIsNotNone(c_library.standing(), changed)
                    self.assertEqual(make.mock_calls, [mock.call(made, over, "-B")] * 3)
                (sources / "fault.c").write_text("no C\n", encoding="ascii")
                self.assertRaisesRegex(c_library.Unbuilt, "^make fails in clients/c: .*fault.c", c_library.built)
                self.assertIsNone(c_library.standing())

    def test_the_same_files_give_the_same_bytes(self):
        over, _ = c_library.archive()
        with tempfile.TemporaryDirectory() as folder:
            found = []
            for name in ("one", "another"):
                c_library.make(Path(folder, name), over)
                found.append([Path(folder, name, file).read_bytes() for file in c_library.FILES])
            self.assertEqual(found[0], found[1])

    def test_what_is_not_there(self):
        with mock.patch.object(c_library.shutil, "which", lambda name: None):
            self.assertRaisesRegex(c_library.Unbuilt, "^there is no make ", c_library.make, Path("nowhere"), "archive")
        with mock.patch.dict(os.environ), mock.patch.object(c_library.programs, "current", lambda _: None):
            os.environ.pop("EMBEDDED", None)
            self.assertRaisesRegex(c_library.Unbuilt, "run tools/build_library first$", c_library.built)
            os.environ["EMBEDDED"] = ""
            self.assertRaisesRegex(c_library.Unbuilt, "^./test --quick leaves the library for C to ./test$",
                                   c_library.built)

    def test_of_which_kind_it_is(self):
        with mock.patch.dict(os.environ), mock.patch.object(c_library.programs, "current",
                                                            lambda _: Program(Path("standing"), PROVED, "")):
            os.environ.pop("EMBEDDED", None)
            self.assertEqual(c_library.archive(), (Path("standing"), PROVED))
            # nobody knows what one that is named was made from
            os.environ["EMBEDDED"] = "named"
            self.assertEqual(c_library.archive(), (Path("named"), COMPILED))

    def test_the_command(self):
        self.assertEqual(called(build_library, "more")[0], 2)
        for built, wanted in ({"return_value": Library(Path("here"), PROVED)}, (0, "here\n", "")), (
                {"side_effect": c_library.Unbuilt("why")}, (1, "", "tools/build_library: why\n")):
            with (mock.patch.object(c_library.programs, "current", lambda _: True),
                  mock.patch.object(c_library, "built", **built)):
                self.assertEqual(called(build_library), wanted)


@needs_library
class Installed(unittest.TestCase):
    """An install with the library, which callers find by pkg-config."""

    def setUp(self):
        self.folder = Path(self.enterContext(tempfile.TemporaryDirectory()))
        self.prefix = self.folder / "the prefix"
        self.env = {**os.environ, "PKG_CONFIG_PATH": str(self.prefix / "lib/pkgconfig")}

    def install(self, kind=COMPILED):
        prefix.install(self.prefix, installed.pieces(UNPROVED, library=Library(FOLDER, kind)))

    def flags(self, *words):
        return said("pkg-config", *words, "registryd", env=self.env)

    def check_example(self, env=None):
        check_example([self.folder / "example"], self.folder / "a.journal", env=env)

    @skip_without("pkg-config", "pkg-config")
    def test_callers_find_it(self):
        self.install()
        moved = self.folder / "moved"
        self.prefix.rename(moved)
        self.env["PKG_CONFIG_PATH"] = str(moved / "lib/pkgconfig")
        shared = self.flags("--cflags", "--libs").split()
        said("cc", *STRICT[:-2], EXAMPLE, *shared, "-o", self.folder / "example")
        self.check_example({**os.environ, "LD_LIBRARY_PATH": str(moved / "lib")})
        static = [it for it in self.flags("--static", "--cflags", "--libs").split() if it != "-lregistryd"]
        said("cc", *STRICT[:-2], EXAMPLE, *static, "-l:libregistryd.a", "-lpthread", "-o", self.folder / "example")
        shutil.rmtree(moved)
        self.check_example()

    @skip_without("pkg-config", "pkg-config")
    def test_it_tells_its_version_and_whether_it_is_proved(self):
        for kind, is_proved in ((COMPILED, "no"), (PROVED, "yes")):
            self.install(kind)
            self.assertEqual(self.flags("--modversion"), f"{VERSION}\n")
            self.assertEqual(self.flags("--variable=proved"), f"{is_proved}\n")

    def test_which_library_is_taken(self):
        for program, library, is_taken in ((PROVED, PROVED, True), (PROVED, COMPILED, False),
                                           (COMPILED, COMPILED, True), (COMPILED, PROVED, True)):
            with mock.patch.object(c_library, "standing", lambda of=library: Library(FOLDER, of)):
                found = installed.library(Program(Path(PROGRAM), program, ""))
                self.assertEqual(found, Library(FOLDER, library) if is_taken else None)
        with mock.patch.object(c_library, "standing", lambda: None):
            self.assertIsNone(installed.library(UNPROVED))

    def test_the_command_says_of_it(self):
        library = Library(FOLDER, COMPILED)
        none = "the library for C is not installed, since none stands that may be: tools/build_library builds it\n"
        there = f"{self.prefix}/lib/libregistryd.so.0 is installed, and has code that is not proved\n"
        for found, told in ((library, there), (None, none)):
            with (mock.patch.object(installed.programs, "made", lambda _, kind: {COMPILED: UNPROVED}.get(kind)),
                  mock.patch.object(c_library, "standing", lambda of=found: of)):
                status, out, error = called(install, "--unproved", str(self.prefix))
            self.assertEqual((status, error), (0, ""))
            self.assertIn(told, out)
            self.assertEqual((self.prefix / "lib/libregistryd.a").exists(), found is not None)

    @skip_without("dh", "debhelper")
    def test_the_package_has_it(self):
        with mock.patch.dict(os.environ, DPKG_DEB_COMPRESSOR_LEVEL="0"):
            made = package.build(UNPROVED, self.folder, Library(FOLDER, COMPILED))
        there = said("dpkg-deb", "-c", made)
        for name in ("lib/libregistryd.a", "lib/libregistryd.so.0", "include/registryd.h",
                     "lib/pkgconfig/registryd.pc"):
            self.assertRegex(there, rf"-rw-r--r-- root/root .* \./usr/{re.escape(name)}\n")
        self.assertIn("./usr/lib/libregistryd.so -> libregistryd.so.0\n", there)
        self.assertIn("\nactivate-noawait ldconfig\n", said("dpkg-deb", "-I", made, "triggers"))
        said("dpkg-deb", "-x", made, self.folder / "tree")
        for name in ("libregistryd.a", "libregistryd.so.0"):
            self.assertEqual((self.folder / "tree/usr/lib" / name).read_bytes(), (FOLDER / name).read_bytes())
