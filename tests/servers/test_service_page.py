"""What docs/SERVICE.md tells can be done as it says: what is typed, the unit of systemd, an upgrade."""
import configparser
import os
import re
import shlex
import signal
import socket
import subprocess
import tempfile
import unittest
from pathlib import Path

from dev.building.programs import COMPILED, Program
from dev.installing.installed import pieces
from dev.installing.prefix import install
from registry_service import client, disk, http, ops, readers, service, watching
from tests.program.test_readme import answers, blocks, page
from tests.support.program import LIST, PROGRAM, TOP, heed_signals, publish, skip_without
from tests.support.services import LONG, Client, is_free, wait_for

PAGE = "docs/SERVICE.md"
BLOCKS = blocks(PAGE)


class TestTyped:
    def test_the_first_service(self):
        with tempfile.TemporaryDirectory() as folder:
            assert answers(folder, BLOCKS[0]) == (BLOCKS[1], 0)
            assert Path(folder, "team.journal").read_text().endswith("\nend 2\n")

    def test_its_numbers_are_those_of_the_service(self):
        text = page(PAGE)
        for said in (f"or {client.MOST_ASKED} commands are without a reply",
                     f"disconnects it after {client.STALLED} seconds", "for a quarter of a second",
                     f"more than {ops.LONG:,} bytes", f"A request over HTTP has {http.PATIENCE} seconds"):
            assert said in text
        assert (readers.PATIENCE, watching.SLOW, http.MOST_COPIES, disk.LOOKS) == (0.25, 1.0, 4, (1, 60))


class Unit(unittest.TestCase):
    """The service as it is installed, begun by the words of its unit where no systemd runs."""

    def setUp(self):
        self.folder = Path(self.enterContext(tempfile.TemporaryDirectory()))
        self.prefix = self.folder / "the prefix"
        self.install()
        self.unit = configparser.RawConfigParser(strict=True)
        self.unit.optionxform = str
        self.unit.read_string((self.prefix / "lib/systemd/system/registryd.service").read_text())

    def install(self):
        install(self.prefix, pieces(Program(Path(PROGRAM), COMPILED, ""), str(self.prefix)))

    def begin(self, options=""):
        """Begins it as systemd does: with its folders, with these options, and told where it says that it is ready."""
        said = self.unit["Service"]
        words = [it for word in shlex.split(said["ExecStart"].replace("%%", "%"))
                 for it in (options.split() if word == "$REGISTRYD_OPTIONS" else [word])]
        for name in ("State", "Runtime"):
            assert said[f"{name}Directory"] == "registryd"
        for there, name in (("/run/registryd", "run"), ("/var/lib/registryd", "lib")):
            (self.folder / name).mkdir(exist_ok=True)
            words = [it.replace(there, str(self.folder / name)) for it in words]
        heard = socket.socket(socket.AF_UNIX, socket.SOCK_DGRAM)
        path = self.folder / "notify"
        path.unlink(missing_ok=True)
        heard.bind(str(path))
        heard.settimeout(30)
        running = subprocess.Popen(words, stdin=subprocess.DEVNULL, stdout=subprocess.PIPE, stderr=subprocess.PIPE,
                                   text=True, umask=int(said["UMask"], 8), preexec_fn=heed_signals,
                                   env={"PATH": os.environ["PATH"], "NOTIFY_SOCKET": str(path)})
        self.addCleanup(running.communicate)
        self.addCleanup(running.kill)
        with heard:
            assert heard.recv(100) == b"READY=1"
        return running

    @staticmethod
    def ran(*words, **variables):
        done = subprocess.run(words, stdin=subprocess.DEVNULL, stdout=subprocess.PIPE, stderr=subprocess.STDOUT,
                              text=True, timeout=60, env={**os.environ, **variables})
        return done.returncode, done.stdout

    def test_it_is_begun_used_upgraded_and_nothing_is_lost(self):
        first = self.begin()
        with Client(str(self.folder / "run/socket")) as client:
            assert client.ask(publish("log", "1.3.0")) == [{"ok": True, "revision": 1}]
        assert (self.folder / "run/socket").stat().st_mode & 0o777 == 0o660
        assert (self.folder / "lib/registry.journal").stat().st_mode & 0o777 == 0o600
        self.install()  # a newer one, while it runs
        with Client(str(self.folder / "run/socket")) as client:
            assert client.ask(publish("log", "1.4.0")) == [{"ok": True, "revision": 2}]
        first.send_signal(signal.SIGTERM)
        assert (first.wait(30), LONG.sub("", first.stderr.read())) == (0, "")
        second = self.begin()
        with Client(str(self.folder / "run/socket")) as client:
            assert client.ask(LIST) == [{"packages": [["log", [["1.3.0", False], ["1.4.0", False]]]], "revision": 2}]
        second.kill()
        second.wait()
        wait_for(lambda: is_free(self.folder / "lib/registry.journal"))  # its program ends with it, a moment later
        self.begin()
        with Client(str(self.folder / "run/socket")) as client:
            assert client.ask(publish("log", "1.5.0")) == [{"ok": True, "revision": 3}]

    def test_its_options_are_those_of_its_file(self):
        assert self.unit["Service"]["EnvironmentFile"] == "-/etc/registryd/registryd.conf"
        *remarks, setting = Path(TOP, "dev/installing/systemd/registryd.conf").read_text().splitlines()
        assert ({it[0] for it in remarks}, setting) == ({"#"}, "REGISTRYD_OPTIONS=")
        self.begin("--mode 666 --clients 1")
        assert (self.folder / "run/socket").stat().st_mode & 0o777 == 0o666
        with Client(str(self.folder / "run/socket")) as client, Client(str(self.folder / "run/socket")) as other:
            client.ask(LIST)
            other.send(LIST)
            assert b"TooManyClients" in other.rest()

    def test_what_it_may_do(self):
        said = self.unit["Service"]
        found = said["Type"], said["KillMode"], said["User"], said["Restart"]
        assert found == ("notify", "mixed", "registryd", "on-failure")
        for name in ("NoNewPrivileges", "ProtectHome", "PrivateTmp", "PrivateDevices",
                     "RestrictSUIDSGID", "MemoryDenyWriteExecute"):
            assert said[name] == "yes"
        assert (said["ProtectSystem"], said["CapabilityBoundingSet"], said["IPAddressDeny"]) == ("strict", "", "any")
        # a service that is told to stop has that long, and needs less
        assert int(said["TimeoutStopSec"]) > service.GRACE + service.ENDING + service.READING
        users = (self.prefix / "lib/sysusers.d/registryd.conf").read_text()
        assert re.search(rf"(?m)^u {said['User']} - ", users)

    @skip_without("systemd-analyze", "systemd")
    def test_systemd_reads_it(self):
        path = self.prefix / "lib/systemd/system/registryd.service"
        assert self.ran("systemd-analyze", "verify", path, MANPATH=str(self.prefix / "share/man")) == (0, "")
        status, told = self.ran("systemd-analyze", "security", "--offline=yes", "--threshold=20", path)
        assert status == 0, told[-300:]

    @skip_without("systemd-sysusers", "systemd")
    def test_its_user_is_made(self):
        root = self.folder / "root"
        (root / "etc").mkdir(parents=True)
        status, told = self.ran("systemd-sysusers", f"--root={root}", self.prefix / "lib/sysusers.d/registryd.conf")
        assert status == 0, told
        assert re.search("(?m)^registryd:", (root / "etc/passwd").read_text())
        assert re.search("(?m)^registryd:", (root / "etc/group").read_text())
