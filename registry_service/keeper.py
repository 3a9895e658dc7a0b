"""The one program that keeps the journal. It answers commands, and each line that is not for readers."""
import asyncio
import hashlib
import json
from collections.abc import Callable

from registry_cli.catalog import line_of

from .child import ACCEPTED, Child
from .client import Asked
from .disk import Disk
from .journal import commands_after
from .ops import COMMANDS
from .supervisor import Supervisor
from .watching import Watch


class Keeper(Supervisor[Child]):
    """`followers` are called with each accepted line, in order; `accepted` is the hash of them all. What is asked while
    the program is begun again waits for that. While the journal can't be written, commands are refused."""
    role = "keeper"

    def __init__(self, path: str, watch: Watch) -> None:
        super().__init__(path, watch)
        self.revision, self.accepted, self.disk = 0, hashlib.sha256(), Disk(self)
        self.followers: list[Callable[[bytes], object]] = []

    async def begin(self) -> None:
        """Goes on with the journal's file. What stands there and was told to nobody is accepted now."""
        self.child = Child(self.path, ["--workers=1", f"--journal={self.path}"])
        revision = await self.child.begin()
        for line in commands_after(self.path, self.revision, self.accepted):
            self.accept(line)
        self.begun(revision, self.revision)
        for asked in self.asked:
            self.child.ask(asked.line, self.answered)

    def accept(self, line: bytes) -> None:
        self.revision += 1
        self.accepted.update(line)
        for follow in self.followers:
            follow(line)

    def ask(self, asked: Asked) -> None:
        if self.disk.fault and asked.op in COMMANDS:
            asked.answer(self.disk.refusal())
            return
        self.asked.append(asked)
        if self.is_up:
            self.program.ask(asked.line, self.answered)

    def answered(self, reply: bytes) -> None:
        asked = self.asked.popleft()
        if reply.startswith(ACCEPTED):
            self.accept(line_of(json.loads(asked.line)))
        asked.answer(reply)

    def lost(self) -> None:
        """Tells that nothing is known of what was under way, unless it is certain that nothing of it is accepted."""
        is_certain = self.disk.judge(self.program.said)
        while self.asked:
            asked = self.asked.popleft()
            if is_certain and asked.op in COMMANDS:
                asked.answer(self.disk.refusal())
            else:
                asked.fail()

    async def end(self, seconds: float) -> bool:
        """Has the program answer what it has and end the journal; answers whether it did so in time."""
        self.leave()
        if self.is_up:
            self.program.end_input()
            await asyncio.wait([self.program.gone], timeout=seconds)
        self.program.kill()
        self.lost()
        return self.is_up and self.program.process.returncode == 0
