"""A service behind nginx, as docs/SERVICE.md tells: the certificates that are typed there, the configuration, and the
tunnel of a client. Who has no certificate of the team is let in by nothing."""
import os
import pwd
import re
import shutil
import socket
import ssl
import subprocess
import tempfile
import unittest
from pathlib import Path

from tests.program.test_readme import answers, blocks
from tests.support.ports import free_ports
from tests.support.program import LIST, publish, resolve, skip_without, tied
from tests.support.registry_folder import pigeons
from tests.support.services import Case, Client, wait_for

BLOCKS = blocks("docs/SERVICE.md")
NAME, PORT = "registry.example", "7443"


def block(mark):
    """The lines of the page's block with a mark."""
    return next(it for it in BLOCKS if any(mark in line for line in it))


@skip_without("nginx", "nginx-light")
@skip_without("openssl", "openssl")
@unittest.skipUnless(any(Path("/etc/nginx/modules-enabled").glob("*-mod-stream.conf")),
                     "nginx has no module stream (Debian: libnginx-mod-stream)")
class Behind(Case):
    @classmethod
    def setUpClass(cls):
        """Makes the certificates once, as typed, and one of another authority: openssl takes long to find primes."""
        super().setUpClass()
        cls.made = cls.enterClassContext(tempfile.TemporaryDirectory())
        typed = [f"{line} 2>&1" if line.startswith("openssl") else line for line in block("openssl req")]
        for lines in typed, ["openssl req -x509 -newkey rsa:2048 -nodes -subj /CN=alice -keyout "
                             "other.key -out other.crt 2>&1; cat other.crt other.key > other.pem"]:
            said, status = answers(cls.made, lines)
            assert status == 0, said

    def setUp(self):
        super().setUp()
        (self.port,), self.service = free_ports(1), self.begin("--seconds", 2)
        shutil.copytree(self.made, self.folder, dirs_exist_ok=True)
        self.begin_proxy()

    def begin_proxy(self):
        """nginx with the page's block, which names this service, a free port here, and the files that were made."""
        text = "\n".join(block("proxy_pass")).replace("/etc/registryd",
                                                      self.folder).replace("/run/registryd/socket", self.service.socket)
        text = text.replace(f"listen {PORT} ", f"listen 127.0.0.1:{self.port} ")
        conf, user = Path(self.folder, "nginx.conf"), pwd.getpwuid(os.getuid()).pw_name
        conf.write_text(f"include /etc/nginx/modules-enabled/*.conf;\nuser {user};\ndaemon "
                        f"off;\nmaster_process off;\npid {self.folder}/nginx.pid;\n"
                        f"error_log {self.folder}/nginx.log;\nevents {{}}\n{text}\n")
        self.follow([shutil.which("nginx"), "-e", f"{self.folder}/nginx.log", "-c", str(conf)])
        wait_for(lambda: self.is_listened_at(socket.AF_INET, ("127.0.0.1", self.port)))

    def follow(self, words):
        running = self.enterContext(tied.Tied(words, stdin=subprocess.DEVNULL, stdout=subprocess.DEVNULL,
                                              stderr=subprocess.DEVNULL, cwd=self.folder))
        self.addCleanup(running.kill)

    @staticmethod
    def is_listened_at(family, address):
        with socket.socket(family) as trying:
            return trying.connect_ex(address) == 0

    def client(self, certificate=None):
        """A connection through the proxy, which shows this certificate and trusts that of the server alone."""
        trusted = ssl.create_default_context(cafile=os.path.join(self.folder, "server.crt"))
        if certificate:
            trusted.load_cert_chain(os.path.join(self.folder, certificate))
        made = Client(("127.0.0.1", self.port))
        made.socket = trusted.wrap_socket(made.socket, server_hostname=NAME)
        return made

    def test_a_member_is_let_in(self):
        with self.client("alice.pem") as client:
            assert [it["revision"] for it in client.ask(publish("log", "1.0.0"), LIST)] == [1, 1]

    def test_nobody_else_is(self):
        """One without a certificate, and one with a certificate that says the same and is of another authority."""
        for certificate in (None, "other.pem"):
            told = b""
            try:
                with self.client(certificate) as client:
                    client.send(publish("log", "1.0.0"))
                    told = client.rest()
            except (ssl.SSLError, ConnectionError):
                pass
            assert told == b"", certificate
        assert self.service.end()[0] == 0
        assert self.service.commands() == []

    def begin_tunnel(self):
        """The page's tunnel to this proxy; answers the path of its socket."""
        tunnel = block("socat ")[0]
        words = tunnel.removesuffix(" &").replace(f"{NAME}:{PORT}", f"localhost:{self.port}").split(" ")
        self.follow([*words[:-1], f"{words[-1]},commonname={NAME}"])
        path = Path(self.folder, re.search("LISTEN:([^,]+)", tunnel)[1])
        wait_for(lambda: self.is_listened_at(socket.AF_UNIX, str(path)))
        return path

    @skip_without("socat", "socat")
    def test_the_tunnel_of_a_client(self):
        path = self.begin_tunnel()
        assert path.stat().st_mode & 0o777 == 0o600
        with Client(str(path)) as client:
            assert client.ask(publish("log", "1.0.0")) == [{"ok": True, "revision": 1}]
        assert answers(self.folder, [f"./{block('socat ')[1]}"]) == (["log  1.0.0  1 version"], 0)

    @skip_without("socat", "socat")
    def test_who_sends_no_more_is_answered(self):
        """The reply to a search that takes its two seconds comes after the client has ended its side."""
        lines, needs = pigeons(15)
        with self.service.client() as client:
            client.ask(*lines)
        with Client(str(self.begin_tunnel())) as client:
            told = client.finish(resolve(*(f"{it} *" for it in needs)).encode() + b"\n")
        assert told == b'{"error":22,"name":"BudgetSpent","revision":%d}\n' % len(lines)
