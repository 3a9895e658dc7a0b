"""The Debian package: what stands in it, that it is the same whenever it is made, and that it is installed, runs and
goes again."""
import contextlib
import fcntl
import gzip
import os
import re
import shutil
import subprocess
import tempfile
import time
import unittest
from pathlib import Path
from unittest import mock

import pytest

from dev.building.programs import COMPILED, PROVED, Program
from dev.installing import installed, package
from dev.installing.prefix import Refused
from tests.program.test_install import below, run
from tests.support.called import called
from tests.support.program import PROGRAM, TOP, skip_without

pytestmark = pytest.mark.not_quick("packages")
VERSION = Path(TOP, "VERSION").read_text(encoding="ascii").strip()
SESSION = ('{"op":"publish","name":"a","version":"1.0.0","needs":[]}\n{"op":"resolve","needs":[["a","^1"]]}\n',
           '{"ok":true,"revision":1}\n{"revision":1,"selected":[["a","1.0.0"]]}\n')
# how many seconds another run of dpkg is waited for, and dpkg itself, which must not be broken off
PATIENCE, MOST_SECONDS = 120, 1200


@contextlib.contextmanager
def alone():
    """Meanwhile no other test of this kind on this machine installs the package."""
    with open(os.path.join(tempfile.gettempdir(), "registryd-package.lock"), "w", encoding="ascii") as file:
        fcntl.flock(file, fcntl.LOCK_EX)
        yield


def dpkg(*words):
    """Runs dpkg, which another run of it holds up."""
    until = time.monotonic() + PATIENCE
    while True:
        done = run(["dpkg", *words], patience=MOST_SECONDS,
                   env={**os.environ, "DEBIAN_FRONTEND": "noninteractive", "LC_ALL": "C.UTF-8"})
        if "lock" not in done.stderr or not done.returncode or time.monotonic() > until:
            return done
        time.sleep(1)


def is_known():
    return "Status: " in run(["dpkg", "-s", "registryd"]).stdout


@skip_without("dh", "debhelper")
class Made(unittest.TestCase):
    LONGEST = PATIENCE + MOST_SECONDS  # dpkg must not be broken off

    @classmethod
    def setUpClass(cls):
        cls.enterClassContext(mock.patch.dict(os.environ, DPKG_DEB_COMPRESSOR_LEVEL="0"))
        cls.folder = Path(cls.enterClassContext(tempfile.TemporaryDirectory()))
        cls.folder.chmod(0o755)
        cls.program = Program(Path(PROGRAM), COMPILED, "")
        cls.package = package.build(cls.program, cls.folder)
        cls.tree = cls.folder / "tree"
        run(["dpkg-deb", "-x", cls.package, cls.tree])
        cls.usr = cls.tree / "usr"

    def field(self, name):
        return run(["dpkg-deb", "-f", self.package, name]).stdout.strip()

    def test_its_name_and_fields(self):
        self.assertEqual(self.package.name, f"registryd_{VERSION}~unproved-1_amd64.deb")
        for name, value in (("Package", "registryd"), ("Version", f"{VERSION}~unproved-1"), ("Architecture", "amd64"),
                            ("Recommends", "python3 (>= 3.11)")):
            self.assertEqual(self.field(name), value)
        self.assertIn("It is not proved.", self.field("Description"))

    def test_it_needs_nothing_but_the_c_library_that_the_program_asks_for(self):
        told = run(["ldd", "-v", PROGRAM]).stdout.split(f"{PROGRAM}:")[1].split(":\n")[0]
        asked = max((int(one), int(two)) for one, two in re.findall(r"\(GLIBC_(\d+)\.(\d+)", told))
        (found,) = re.findall(r"^libc6 \(>= (\d+)\.(\d+)\)$", self.field("Depends"))
        self.assertGreaterEqual(tuple(map(int, found)), asked)

    def test_a_proved_one_counts_as_later(self):
        proved = package.version(Program(self.program.path, PROVED, ""))
        self.assertEqual(proved, f"{VERSION}-1")
        self.assertEqual(run(["dpkg", "--compare-versions", package.version(self.program), "lt", proved]).returncode, 0)

    def test_it_has_what_is_installed(self):
        wanted = {f"usr/{it.path}" for it in installed.pieces(self.program)} - {"usr/share/doc/registryd/CHANGELOG.md"}
        wanted = {f"{it}.gz" if it.startswith("usr/share/man/") else it for it in wanted}
        wanted = {it.replace("zsh/site-functions", "zsh/vendor-completions") for it in wanted}
        more = {"etc/registryd/registryd.conf", "usr/share/lintian/overrides/registryd",
                *(f"usr/share/doc/registryd/{it}" for it in ("changelog.gz", "changelog.Debian.gz", "copyright"))}
        there = {re.sub("^lib/", "usr/lib/", it) for it in below(self.tree) if not it.endswith("/")}
        self.assertEqual(there, wanted | more)
        # the bytes are those that were built, and what the operator has written stays
        self.assertEqual((self.usr / "lib/registryd/registryd").read_bytes(), Path(PROGRAM).read_bytes())
        self.assertEqual(run(["dpkg-deb", "-I", self.package, "conffiles"]).stdout, "/etc/registryd/registryd.conf\n")

    def test_all_is_roots_and_can_be_read(self):
        lines = run(["dpkg-deb", "-c", self.package]).stdout.splitlines()
        for line in lines:
            can_be_run = "/bin/" in line or line.endswith("lib/registryd/registryd")
            may = {"d": "drwxr-xr-x", "l": "lrwxrwxrwx"}.get(line[0], "-rwxr-xr-x" if can_be_run else "-rw-r--r--")
            self.assertEqual(line.split()[:2], [may, "root/root"], line)
        self.assertGreater(len(lines), 50)

    def script(self, name, *words, runs=True, stands=("systemctl", "deb-systemd-invoke", "systemd-sysusers")):
        """What a script of the package calls, where systemd runs."""
        with tempfile.TemporaryDirectory() as folder:
            for it in (*stands, "deb-systemd-helper"):
                path, noted = Path(folder, it), f'echo {it} "$@" >> {folder}/called' if it in stands else "exit 1"
                path.write_text(f"#!/bin/sh\n{noted}\n", encoding="ascii")
                path.chmod(0o755)
            text = run(["dpkg-deb", "-I", self.package, name]).stdout
            text = text.replace("/run/systemd/system", folder if runs else f"{folder}/none")
            done = run(["/bin/sh", "-c", text, name, *words], env={"PATH": folder, "DPKG_ROOT": ""})
            self.assertEqual((done.returncode, done.stderr), (0, ""))
            told = Path(folder, "called")
            return told.read_text(encoding="ascii").splitlines() if told.exists() else []

    def test_a_user_is_made_and_a_service_that_runs_is_restarted(self):
        made, told = ["systemd-sysusers registryd.conf"], ["systemctl --system daemon-reload"]
        restarted = [*told, "deb-systemd-invoke try-restart registryd.service"]
        self.assertEqual(self.script("postinst", "configure", ""), made + told)
        self.assertEqual(self.script("postinst", "configure", "0.3.0-1"), made + restarted)
        self.assertEqual(self.script("postinst", "configure", "0.3.0-1", runs=False), made)
        self.assertEqual(self.script("postinst", "configure", "", runs=False, stands=()), [])
        self.assertEqual(self.script("prerm", "remove"), ["systemctl disable --now registryd.service"])
        for words, runs in ((["upgrade", "0.4.0-1"], True), (["remove"], False)):
            self.assertEqual(self.script("prerm", *words, runs=runs), [])

    def test_no_script_comes_to_the_journal(self):
        for name in ("postinst", "prerm", "postrm"):
            text = run(["dpkg-deb", "-I", self.package, name]).stdout
            self.assertTrue(text)
            self.assertNotIn("/var/lib/registryd", text)

    def test_the_changelog_and_manual_pages(self):
        def unpacked(name):
            return gzip.decompress((self.usr / name).read_bytes()).decode()
        first = unpacked("share/doc/registryd/changelog.Debian.gz").splitlines()[0]
        self.assertEqual(first, f"registryd ({VERSION}~unproved-1) unstable; urgency=medium")
        self.assertIn(f"## [{VERSION}]", unpacked("share/doc/registryd/changelog.gz"))
        for name in os.listdir(self.usr / "bin"):
            self.assertRegex(unpacked(f"share/man/man1/{name}.1.gz"), r"(?mi)^\.sh NAME$")

    def test_the_same_whenever_and_wherever_it_is_made_and_by_whom(self):
        other, begin = self.folder / "another folder", subprocess.run

        def as_nobody(words, cwd=None, **more):
            """debhelper is called by one who is not root."""
            if os.geteuid() or not cwd:
                return begin(words, cwd=cwd, **more)
            begin(["chown", "-R", "nobody", cwd.parent], check=True)
            return begin(words, cwd=cwd, user="nobody", **more)
        mask = os.umask(0o077)
        try:
            with mock.patch.dict(os.environ, TZ="Asia/Kathmandu", LC_ALL="C"), mock.patch("subprocess.run", as_nobody):
                again = package.build(self.program, other)
        finally:
            os.umask(mask)
        self.assertEqual(again.read_bytes(), self.package.read_bytes())

    @unittest.skipUnless(os.geteuid() == 0, "only root may run dpkg")
    def test_it_is_installed_below_a_root_and_goes_again(self):
        root = self.folder / "root"
        (root / "var/lib/dpkg/updates").mkdir(parents=True)
        (root / "var/lib/dpkg/info").mkdir()
        (root / "var/lib/dpkg/status").touch()
        journal = root / "var/lib/registryd/registry.journal"
        # whatever this machine leaves out of packages
        words = (f"--root={root}", "--path-include=*", "--force-depends", "--force-script-chrootless")
        for it in range(2):  # the second time it is upgraded
            done = dpkg(*words, "-i", self.package)
            self.assertEqual(done.returncode, 0, done.stderr)
            said = run([root / "usr/bin/registryd", "serve", "--workers", "1"], SESSION[0]).stdout
            self.assertEqual(said, SESSION[1])
            self.assertEqual(dpkg(f"--root={root}", "--verify", "registryd").stdout, "")
            journal.parent.mkdir(exist_ok=True)
            journal.write_text("kept", encoding="ascii") if not it else None
        self.assertEqual(dpkg(*words, "-P", "registryd").returncode, 0)
        self.assertEqual({it for it in below(root) if not it.startswith("var/")}, set())
        self.assertEqual(journal.read_text(encoding="ascii"), "kept")

    @unittest.skipUnless(os.geteuid() == 0, "only root may run dpkg")
    def test_it_is_installed_on_this_machine_and_goes_again(self):
        with alone():
            files = [f"/usr/{it}" for it in below(self.usr) if not it.endswith("/")]
            if is_known() or any(os.path.lexists(it) for it in files):
                self.skipTest("registryd is installed on this machine")
            if run(["id", "registryd"]).returncode:
                self.addCleanup(run, ["userdel", "registryd"])
            self.addCleanup(dpkg, "-P", "registryd")
            done = dpkg("-i", self.package)
            self.assertEqual(done.returncode, 0, done.stderr)
            self.assertEqual(run(["/usr/bin/registryd", "serve", "--workers", "1"], SESSION[0]).stdout, SESSION[1])
            self.assertIn("It is not proved.", run(["/usr/bin/registryd", "--version"]).stdout)
            self.assertEqual(run(["/usr/bin/registry", "--help"]).returncode, 0)
            if shutil.which("systemd-sysusers"):
                self.assertEqual(run(["id", "-gn", "registryd"]).stdout, "registryd\n")
            self.assertEqual(dpkg("-r", "registryd").returncode, 0)
            self.assertEqual([it for it in files if os.path.lexists(it)], [])
            self.assertEqual(dpkg("-P", "registryd").returncode, 0)
            self.assertFalse(is_known())


class Words(unittest.TestCase):
    LONGEST = MOST_SECONDS  # debhelper is called twice

    def called(self, *words, **stands):
        # none of these words asks which library for C stands here
        with mock.patch.object(installed.programs, "made", lambda name, kind: stands.get(kind)), \
                mock.patch.object(installed.c_library, "standing", lambda: None):
            return called(package, *map(str, words))

    def test_what_has_to_be_there_first(self):
        status, said, error = self.called("--output", "/nowhere")
        self.assertEqual((status, said, error.count("\n")), (1, "", 1))
        self.assertIn("run ./test or tools/build --proved first", error)
        with mock.patch.object(shutil, "which", lambda name: None):
            status, said, error = self.called(proved=Program(Path(PROGRAM), PROVED, ""))
        self.assertEqual((status, said, error.splitlines()[1:]),
                         (1, "", ["tools/package: dh is not there; Debian has it in its package debhelper"]))

    def test_when_it_counts_as_made(self):
        folder = Path(self.enterContext(tempfile.TemporaryDirectory()))
        self.enterContext(mock.patch.dict(os.environ, PATH="/none"))
        os.environ.pop("SOURCE_DATE_EPOCH", None)
        with mock.patch.object(package, "TOP", folder):
            self.assertEqual(package.seconds(), 0)
            (folder / ".git").touch()  # there is no git that reads it
            self.assertEqual(package.seconds(), 0)

    def test_a_license_is_not_denied(self):
        folder = Path(self.enterContext(tempfile.TemporaryDirectory()))
        (folder / "LICENSE").touch()
        with mock.patch.object(package, "TOP", folder), self.assertRaisesRegex(Refused, "LICENSE states a license"):
            package.write(folder / "tree", Program(Path(PROGRAM), PROVED, ""), None)

    @skip_without("dh", "debhelper")
    def test_it_says_where_the_package_is_or_why_there_is_none(self):
        folder, proved = self.enterContext(tempfile.TemporaryDirectory()), Program(Path(PROGRAM), PROVED, "")
        told = ("tools/package: it has no library for C, since none stands that may be packed: "
                "tools/build_library builds it\n")
        path = f"{folder}/registryd_{VERSION}-1_amd64.deb"
        with mock.patch.dict(os.environ, SOURCE_DATE_EPOCH="1000000000"):
            self.assertEqual(self.called("--output", folder, proved=proved), (0, f"{path}\n", told))
        listed = run(["dpkg-deb", "-c", path], env={**os.environ, "TZ": "UTC"}).stdout.splitlines()
        self.assertEqual({line.split()[3] for line in listed}, {"2001-09-09"})
        os.remove(path)
        with mock.patch.object(package, "write", lambda tree, *_: (tree / "debian").mkdir(parents=True)):
            self.assertRaises(OSError, package.build, proved, Path(folder))
        with mock.patch.object(package, "CHANGELOG", "no changelog"), \
                self.assertRaisesRegex(Refused, "debhelper could not"):
            package.build(proved, Path(folder))
        self.assertEqual(os.listdir(folder), [])
