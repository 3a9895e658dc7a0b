"""What is seen of a service from outside: counts, whether it is well, and what systemd is told.
`tests/transcripts/watching.t` has the journal, the log, and what it says as it begins."""
import math
import os
import re
import signal
import socket
import sys
from pathlib import Path

from tests.support.program import LIST, publish, resolve, yank
from tests.support.services import Case, Client, wait_for

SAMPLE = re.compile(r'([a-zA-Z_:][a-zA-Z0-9_:]*)(?:\{((?:[a-zA-Z_][a-zA-Z0-9_]*="(?:[^"'
                    r'\\\n]|\\["\\n])*",?)*)\})? (\S+)')


def read_metrics(text):
    """The samples of a text in Prometheus' form (https://prometheus.io/docs/instrumenting/exposition_formats): by name
    and labels. Each family has one HELP and one TYPE before its samples, which stand together."""
    assert text.endswith("\n")
    kinds, samples, current = {}, {}, None
    for line in text.splitlines():
        if line.startswith("# HELP "):
            current = line.split(" ")[2]
            assert current not in kinds, f"{current} appears twice"
        elif line.startswith("# TYPE "):
            _, _, name, kind = line.split(" ")
            assert name == current and kind in ("counter", "gauge", "histogram"), line
            kinds[name] = kind
        else:
            name, labels, value = SAMPLE.fullmatch(line).groups()
            family = re.sub("_(bucket|sum|count)$", "", name) if kinds.get(current) == "histogram" else name
            assert family == current, f"{line} stands below {current}"
            assert kinds[family] != "counter" or name.endswith("_total"), line
            key = name, tuple(sorted(re.findall(r'(\w+)="((?:[^"\\]|\\.)*)"', labels or "")))
            assert key not in samples, f"{line} appears twice"
            samples[key] = float(value.replace("Inf", "inf"))
    return samples


class Watching(Case):
    def test_metrics(self):
        service = self.begin()
        with service.client() as client:
            client.ask(publish("log", "1.0.0"), publish("log", "1.0.0"), yank("log", "2.0.0"), resolve("log *"),
                       resolve("app *"), "", "x", LIST)
            text = service.get("/metrics")[1]
        samples = read_metrics(text)
        assert "\n# TYPE registryd_commit_seconds histogram\n" in text  # a command that is accepted waits for the disk

        def value(family, **labels):
            return samples["registryd_" + family, tuple(sorted(labels.items()))]

        assert (value("commands_accepted_total"), value("revision"), value("clients"), value("readers"),
                value("keeper_up")) == (1, 1, 1, 2, 1)
        for number, name, count in ((7, "AlreadyPublished", 1), (11, "NoSuchVersion", 1), (19, "BadLine", 2)):
            assert value("refused_total", number=str(number), name=name) == count
        assert (value("budgets_spent_total"), value("restarts_total"), value("lines_waiting")) == (0, 0, 0)
        assert value("commit_seconds_count") == 1
        assert value("commit_seconds_sum") > 0
        assert value("disk_free_bytes") > 0
        keepers, readers = service.programs()
        processes = [("service", service.running.pid), ("keeper", *keepers), *(("reader", it) for it in readers)]
        assert all(value("resident_bytes", program=role, process=str(process)) > 1_000_000 for role,
                   process in processes)
        assert [value for (name, _), value in samples.items() if name == "registryd_build_info"] == [1]
        assert value("journal_bytes") == service.journal.stat().st_size
        for op, count in (("publish", 2), ("yank", 1), ("resolve", 2), ("other", 2), ("list", 1)):
            assert value("request_seconds_count", op=op) == count
            assert value("request_seconds_sum", op=op) > 0
            buckets = sorted((float(dict(labels)["le"].replace("Inf", "inf")), count) for (name, labels),
                             count in samples.items() if name == "registryd_request_seconds_bucket"
                             and dict(labels)["op"] == op)
            assert buckets[-1] == (math.inf, count)
            assert [it for _, it in buckets] == sorted(it for _, it in buckets)
            assert len(buckets) > 8

    def test_health_and_what_else_is_asked_over_http(self):
        service = self.begin("--metrics-port", 0)
        [(_, port)] = self.listening(service)
        for address in (service.address(), ("127.0.0.1", port)):
            assert service.get("/health", address=address) == (200, "ok\n")
            assert service.get("/", address=address)[0] == 404
            assert service.get("/journal", "POST", address)[0] == 405
        with Client(("127.0.0.1", port)) as client:
            # no lines are answered there
            client.socket.sendall(f"{publish('log', '1.0.0')}\r\n\r\n".encode())
            assert b"400 Bad Request" in client.rest()
            # nor is a page that another name leads here
        for host, status in (("127.0.0.1:80", 200), ("LOCALHOST", 200), ("evil.example", 421),
                             ("evil.example:80", 421)):
            assert service.get("/metrics", address=("127.0.0.1", port), host=host)[0] == status
        # while nothing keeps the journal, that is told
        keeper = service.keeper()
        os.chmod(service.journal, 0o400)
        os.rename(service.journal, f"{service.journal}.away")
        os.mkdir(service.journal)
        os.kill(keeper, signal.SIGKILL)
        wait_for(lambda: service.get("/health")[0] == 503)
        with service.client() as client:
            assert client.ask(publish("log", "1.0.0"))[0]["error"] == 503
            assert client.ask(resolve("log *"))[0] == {"refused": True, "revision": 0}
        os.rmdir(service.journal)
        os.rename(f"{service.journal}.away", service.journal)
        os.chmod(service.journal, 0o600)
        wait_for(lambda: service.get("/health") == (200, "ok\n"))
        with service.client() as client:
            assert client.ask(publish("log", "1.0.0"))[0] == {"ok": True, "revision": 1}

    @staticmethod
    def listening(service):
        """The addresses and ports on which the service listens, as the system has them."""
        numbers = {os.readlink(it)[8:-1] for it in Path(f"/proc/{service.running.pid}/fd").iterdir()
                   if os.readlink(it).startswith("socket:")}
        for family in ("tcp", "tcp6"):
            for line in Path("/proc/net", family).read_text().splitlines()[1:]:
                _, local, _, state, *rest = line.split()
                if state == "0A" and rest[5] in numbers:
                    address, port = local.split(":")
                    yield address, int(port, 16)

    def test_ports_are_of_this_machine_alone(self):
        service = self.begin("--port", 0, "--metrics-port", 0)
        here = f"{int.from_bytes(socket.inet_aton('127.0.0.1'), sys.byteorder):08X}"
        assert [address for address, _ in self.listening(service)] == [here, here]
        assert service.address()[1] in [port for _, port in self.listening(service)]

    def test_systemd_is_told(self):
        path = os.path.join(self.folder, "notify")
        with socket.socket(socket.AF_UNIX, socket.SOCK_DGRAM) as heard:
            heard.bind(path)
            heard.settimeout(30)
            os.environ["NOTIFY_SOCKET"] = path
            self.addCleanup(os.environ.pop, "NOTIFY_SOCKET")
            service = self.begin()
            assert heard.recv(100) == b"READY=1"
            assert service.end() == (0, "")
            assert heard.recv(100) == b"STOPPING=1"
