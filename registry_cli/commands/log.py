"""`registry log`: the commands of a journal in order, each with the time when it was accepted, where that is known."""
import json
import sys
import time

from registry_service.times import UNKNOWN, now

from ..catalog import commands_in
from ..connected import PATIENCE, page_of_service
from ..failures import Failed
from ..session import journal_of, service_of, snapshot
from ..shapes import Options, Output, Request

PAUSE = 0.5  # seconds between two looks


class File:
    """A journal's file. Known are the times of what comes while it is followed: when that is seen."""

    def __init__(self, path: str) -> None:
        self.path, self.time = path, UNKNOWN

    def after(self, revision: int) -> list[tuple[str, bytes]]:
        commands = commands_in(snapshot(self.path))
        if len(commands) < revision:
            raise Failed(f"{self.path} is at revision {len(commands)}")
        at, self.time = self.time, now()
        return [(at, line) for line in commands[revision:]]


class Service:
    """A service knows the times of what it accepted itself. Once it has answered, it is waited for later on."""

    def __init__(self, address: str) -> None:
        self.address, self.patience = address, 0

    def after(self, revision: int) -> list[tuple[str, bytes]]:
        limit = time.monotonic() + self.patience
        while True:
            try:
                text = page_of_service(self.address, f"/log?after={revision}")
                break
            except Failed:
                if time.monotonic() >= limit:
                    raise
                time.sleep(PAUSE)
        self.patience = PATIENCE
        return [(at.decode(), line) for _, at, line in (it.split(b" ", 2) for it in text.splitlines())]


def run(options: Options, out: Output) -> None:
    service, revision = service_of(options), options.after or 0
    source: File | Service = Service(service) if service else File(journal_of(options))
    while True:
        for at, line in source.after(revision):
            revision += 1
            tell(revision, at, json.loads(line), out)
        sys.stdout.flush()
        if not options.follow:
            return
        time.sleep(PAUSE)


def tell(revision: int, at: str, command: Request, out: Output) -> None:
    needs = ["@".join(it) for it in command.get("needs", [])]
    value: dict[str, object] = {"revision": revision, "time": None if at == UNKNOWN else at, **command}
    out.give(value, [" ".join([str(revision), at, command["op"], command["name"], command["version"], *needs])])
