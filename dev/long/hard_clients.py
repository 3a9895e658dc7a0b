"""Asks a service easy requests beside clients that ask hard ones without pause, and looks for an easy one that waits
too long.

    python3 -m dev.long.hard_clients --minutes 60 [--seconds 10] [--pigeons 13] [--readers 2]

The hard clients ask whether so many pigeons fit into one hole less, which takes a second or more: three that wait for
each reply, three that connect anew for each, one that sends 64 at once, and four that ask for what is never answered in
time. Each kind has a quarter of the minutes. Meanwhile a client asks an easy request, waits for its reply, and asks
again. For each kind its replies are told, the greatest wait for one, the hard requests that were answered and that were
told to have taken too long, and how often a reader was begun again. Status 1 where an easy request has another reply
than the right one, or none after the limit and a second."""
import argparse
import contextlib
import json
import re
import socket
import sys
import tempfile
import threading
import time
from collections.abc import Sequence
from typing import Any, Self

from tests.support.program import resolve
from tests.support.registry_folder import pigeons
from tests.support.services import Client, Service

EASY, PAUSE = resolve("hole-1 *"), 0.005  # seconds between a reply and the next easy request


class Hard:
    """Clients that ask this line until they are ended, so many at once, on one connection or on a new one for each."""

    def __init__(self, service: Service, line: str, clients: int = 1, depth: int = 1, is_new: bool = False) -> None:
        self.service, self.line, self.depth, self.is_new = service, line.encode() + b"\n", depth, is_new
        self.is_over, self.answered, self.spent = False, 0, 0
        self.clients: set[Client] = set()
        self.threads = [threading.Thread(target=self.run) for _ in range(clients)]

    def __enter__(self) -> Self:
        for thread in self.threads:
            thread.start()
        return self

    def __exit__(self, *_: object) -> None:
        self.is_over = True
        for client in list(self.clients):
            with contextlib.suppress(OSError):
                client.socket.shutdown(socket.SHUT_RDWR)
        for thread in self.threads:
            thread.join()

    def run(self) -> None:
        while not self.is_over:
            with contextlib.suppress(OSError), self.service.client() as client:
                self.clients.add(client)
                self.ask(client)
                self.clients.discard(client)

    def ask(self, client: Client) -> None:
        client.socket.sendall(self.line * self.depth)
        while not self.is_over and (reply := client.line()):
            is_spent = b"BudgetSpent" in reply
            self.answered, self.spent = self.answered + (not is_spent), self.spent + is_spent
            if self.is_new:
                return
            client.socket.sendall(self.line)


def easy(service: Service, seconds: float, limit: float, wanted: str = "hole-1") -> tuple[int, float, str | None]:
    """Asks an easy request again and again; answers how many were answered, the greatest wait, and a wrong reply."""
    until, count, greatest = time.monotonic() + seconds, 0, 0.0
    with service.client() as client:
        client.socket.settimeout(limit + 5)
        while (begun := time.monotonic()) < until:
            client.send(EASY)
            try:
                reply = client.line() or b"nothing"
            except TimeoutError:
                reply = b"nothing in time"
            count, greatest = count + 1, max(greatest, time.monotonic() - begun)
            if not reply.startswith(b"{") or json.loads(reply).get("selected", [[""]])[0][0] != wanted:
                return count, greatest, reply.decode()
            time.sleep(PAUSE)
    return count, greatest, None


def restarts(service: Service) -> int:
    found = re.search(r'restarts_total\{program="reader"\} ([0-9]+)', service.get("/metrics")[1])
    return int(found[1]) if found else 0


def tried(service: Service, name: str, seconds: float, limit: float, **hard: Any) -> bool:
    """One kind of hard clients; answers whether all easy requests were answered in time."""
    before = restarts(service)
    with Hard(service, **hard) as asking:
        count, greatest, wrong = easy(service, seconds, limit)
    print(f"{name:<34}{count:>9,} easy replies, the slowest after {greatest:.2f} s; "
          f"hard: {asking.answered:,} answered, {asking.spent:,} out of time; "
          f"{restarts(service) - before:,} restarts{'; wrong: ' + wrong if wrong else ''}", flush=True)
    return not wrong and greatest <= limit + 1


def main(words: Sequence[str]) -> int:
    parser = argparse.ArgumentParser(description=__doc__, formatter_class=argparse.RawDescriptionHelpFormatter)
    parser.add_argument("--minutes", type=float, default=4)
    for word, usual in (("--seconds", 10), ("--pigeons", 13), ("--readers", 2)):
        parser.add_argument(word, type=int, default=usual)
    chosen = parser.parse_args(words)
    lines, names = pigeons(16)
    hard = resolve(*(f"{name} <{chosen.pigeons - 1}.0.0" for name in names[:chosen.pigeons]))
    never = resolve(*(f"{name} *" for name in names[:16]))
    kinds = {"three that wait for each reply": {"line": hard, "clients": 3},
             "three that connect anew for each": {"line": hard, "clients": 3, "is_new": True},
             "one that sends 64 at once": {"line": hard, "depth": 64},
             "four that are never answered": {"line": never, "clients": 4}}
    with tempfile.TemporaryDirectory() as folder:
        service = Service(folder, "--seconds", chosen.seconds, "--readers", chosen.readers)
        try:
            with service.client() as client:
                client.ask(*lines)
            seconds = chosen.minutes * 60 / len(kinds)
            are_well = [tried(service, name, seconds, chosen.seconds, **kind) for name, kind in kinds.items()]
        finally:
            status, _ = service.end()
    return int(not all(are_well) or status != 0)


if __name__ == "__main__":
    sys.exit(main(sys.argv[1:]))
