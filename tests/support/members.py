"""Members of etcd on this machine, which may be killed, held up and cut off from each other."""
from __future__ import annotations

import json
import os
import shutil
import signal
import subprocess
import tempfile
import threading
import time
import urllib.error
import urllib.request
from collections.abc import Callable, Iterator
from typing import Any

from registry_cli import tied
from tests.support.fake_etcd import Drop
from tests.support.ports import free_ports

NETS = 100  # as many runs may have members in namespaces at a time
MEMORY = "/dev/shm"
BEGINS = 100  # seconds in which a member answers, on a busy machine too


def is_installed() -> bool:
    return shutil.which("etcd") is not None


def may_divide() -> bool:
    """Whether this machine lets us make namespaces of the network."""
    name = f"reg-try-{os.getpid()}"
    done = subprocess.run(["ip", "netns", "add", name], capture_output=True) if shutil.which("ip") else None
    return done is not None and done.returncode == 0 and subprocess.run(["ip", "netns", "del", name],
                                                                        capture_output=True).returncode == 0


def ip(*words: str) -> None:
    done = subprocess.run(["ip", *words], capture_output=True, text=True)
    assert done.returncode == 0, f"ip {' '.join(words)}: {done.stderr.strip()}"


def own_bridge() -> tuple[str, str]:
    """Makes a bridge that no other run has; answers its name and the first three numbers of its addresses."""
    for number in range(1, NETS + 1):
        name = f"reg-etcd-{number}"
        if subprocess.run(["ip", "link", "add", name, "type", "bridge"], capture_output=True).returncode == 0:
            return name, f"10.77.{number}"
    raise AssertionError(f"no bridge can be made: there are {NETS}, or this machine lets us make none")


class Members:
    """So many members, on loopback, or each in a namespace of its own behind one bridge."""

    def __init__(self, count: int, divided: bool = False, folder: str = MEMORY) -> None:
        # in memory where that may be: what is tested loses processes, not the machine, and others may use the disk
        self.folder = tempfile.mkdtemp(prefix="etcd-members-", dir=folder if os.path.isdir(folder) else None)
        self.divided = divided
        self.children: list[Any] = [None] * count
        # none begins again once they are ended, whoever still disturbs them
        self.beginning, self.are_ended = threading.Lock(), False
        self.hosts = ["127.0.0.1"] * count
        if divided:
            self.divide()
        ports = [2379] * count + [2380] * count if divided else free_ports(2 * count)
        urls = [f"http://{host}:{port}" for host, port in zip(2 * self.hosts, ports)]
        self.clients, self.peers = urls[:count], urls[count:]
        for number in range(count):
            self.start(number)
        self.wait()

    def divide(self) -> None:
        self.bridge, net = own_bridge()
        self.hosts = [f"{net}.{number + 1}" for number in range(len(self.hosts))]
        ip("addr", "add", f"{net}.254/24", "dev", self.bridge)
        ip("link", "set", self.bridge, "up")
        for number, host in enumerate(self.hosts):
            name = self.namespace(number)
            ip("netns", "add", name)
            ip("link", "add", name, "type", "veth", "peer", "name", "eth0", "netns", name)
            ip("link", "set", name, "master", self.bridge, "up")
            ip("-n", name, "addr", "add", f"{host}/24", "dev", "eth0")
            ip("-n", name, "link", "set", "eth0", "up")
            ip("-n", name, "link", "set", "lo", "up")

    def namespace(self, number: int) -> str:
        """What a member's namespace is called, and the bridge's end of its link."""
        return f"{self.bridge}-{number}"

    def start(self, number: int) -> None:
        name, client, peer = f"m{number}", self.clients[number], self.peers[number]
        words = ["etcd", "--name", name, "--data-dir", os.path.join(self.folder, name), "--listen-client-urls", client,
                 "--advertise-client-urls", client, "--listen-peer-urls", peer, "--initial-advertise-peer-urls", peer,
                 "--initial-cluster", ",".join(f"m{n}={url}" for n, url in enumerate(self.peers)),
                 "--log-level", "error"]
        within = ["ip", "netns", "exec", self.namespace(number)] if self.divided else []
        with self.beginning:
            if not self.are_ended:
                self.children[number] = tied.Tied([*within, *words], stdout=subprocess.DEVNULL,
                                                  stderr=subprocess.DEVNULL)

    def wait(self) -> None:
        """Returns when each member answers."""
        for url in self.clients:
            self.until_healthy(url)

    @staticmethod
    def until_healthy(url: str) -> None:
        until = time.monotonic() + BEGINS
        while time.monotonic() < until:
            try:
                with urllib.request.urlopen(url + "/health", timeout=1) as told:
                    if json.loads(told.read())["health"] == "true":
                        return
            except (OSError, ValueError):
                pass
            time.sleep(0.05)
        raise AssertionError(f"no member at {url}")

    def behind(self) -> list[Member]:
        """What gates pass calls on to."""
        return [Member(url) for url in self.clients]

    def troubles(self) -> list[tuple[Callable[[int, float], None], str]]:
        """What can be done to a member, and how it is called."""
        dividing = [(self.cut_off, "member cut off"),
                    (self.part, "member parted from the others")] if self.divided else []
        return [(self.kill, "member killed"), (self.pause, "member held up"), *dividing]

    def kill(self, number: int, seconds: float) -> None:
        """Kills a member, and begins it again after a while."""
        self.children[number].kill()
        self.children[number].wait()
        time.sleep(seconds)
        self.start(number)
        self.until_healthy(self.clients[number])

    def pause(self, number: int, seconds: float) -> None:
        pause(self.children[number], seconds)

    def cut_off(self, number: int, seconds: float) -> None:
        """For a while a member hears nothing from anyone, and nobody from it."""
        ip("link", "set", self.namespace(number), "down")
        time.sleep(seconds)
        ip("link", "set", self.namespace(number), "up")
        self.until_healthy(self.clients[number])

    def part(self, number: int, seconds: float) -> None:
        """For a while a member and the others do not hear each other; whoever asks it reaches it."""
        for change in ("add", "del"):
            for other, host in enumerate(self.hosts):
                if other != number:
                    ip("-n", self.namespace(number), "route", change, "blackhole", f"{host}/32")
            if change == "add":
                time.sleep(seconds)
        self.until_healthy(self.clients[number])

    def close(self) -> None:
        with self.beginning:
            self.are_ended = True
        for child in (it for it in self.children if it):
            child.kill()
            child.wait()
        if self.divided:
            for number in range(len(self.hosts)):
                ip("link", "del", self.namespace(number))  # at once, where a namespace may go a while later
                ip("netns", "del", self.namespace(number))
            ip("link", "del", self.bridge)
        shutil.rmtree(self.folder)


def pause(child: tied.Tied, seconds: float) -> None:
    """Holds a process up for a while."""
    child.send_signal(signal.SIGSTOP)
    time.sleep(seconds)
    child.send_signal(signal.SIGCONT)


class Member:
    """A member behind a gate: what a gate passes on to it."""

    def __init__(self, url: str) -> None:
        self.url = url

    def ask(self, path: str, asked: Any, timeout: float | None) -> Any:
        data = json.dumps(asked).encode()
        return urllib.request.urlopen(urllib.request.Request(self.url + path, data), timeout=timeout)

    def answer(self, path: str, asked: Any) -> tuple[int, Any]:
        try:
            with self.ask(path, asked, 5) as told:
                return 200, json.loads(told.read())
        except urllib.error.HTTPError as refused:
            return refused.code, json.loads(refused.read())
        except (OSError, ValueError) as lost:
            raise Drop from lost

    def watch(self, asked: Any) -> Iterator[Any]:
        try:
            with self.ask("/v3/watch", {"create_request": asked}, None) as told:
                for line in told:
                    yield json.loads(line)["result"]
        except (OSError, ValueError, KeyError):
            return
