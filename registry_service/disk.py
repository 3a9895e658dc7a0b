"""What keeps the program from writing the journal, as a full disk does, and when it can again."""
from __future__ import annotations

import asyncio
import json
import os
import re
import tempfile
from typing import TYPE_CHECKING

from registry_cli.failures import Failed
from registry_cli.limits import MOST_LINE_BYTES

from .journal import commands_after

if TYPE_CHECKING:
    from .keeper import Keeper

SAID = re.compile(r"registryd: journal .*: (can't be \w+(?:: .*?)?)(?: \(os error [0-9]+\))?\n")
LOOKS = 1, 60  # seconds before it is looked whether the journal can be written again: at first, and at most


class Disk:
    """That of a keeper. `fault` is what is the matter with it, and empty where nothing is."""

    def __init__(self, keeper: Keeper) -> None:
        self.keeper, self.fault = keeper, ""
        self.looking: asyncio.Task[None] | None = None

    def judge(self, said: str) -> bool:
        """Takes what the program said as it ended. Answers whether no command that was under way is accepted, ever:
        nothing untold stands in the journal, and the next program cuts off what is no whole line."""
        found = SAID.fullmatch(said)
        self.fault = f"the journal {found[1]}" if found else ""
        if self.fault and not self.looking:
            self.looking = asyncio.create_task(self.look())
        try:
            return bool(self.fault) and not commands_after(self.keeper.path, self.keeper.revision, self.keeper.accepted)
        except (Failed, OSError):
            return False

    def refusal(self) -> bytes:
        reply = {"error": 503, "name": "DiskFault", "reason": self.fault, "revision": self.keeper.revision}
        return json.dumps(reply, separators=(",", ":")).encode()

    async def look(self) -> None:
        """Once there is room for a line the program is ended: where it can write the end, nothing is at fault."""
        pause, longest = LOOKS
        while self.fault:
            await asyncio.sleep(pause)
            if self.fault and self.keeper.is_up and await asyncio.to_thread(has_room, self.keeper.path):
                self.keeper.program.end_input()
                pause = min(2 * pause, longest)
        self.looking = None


def has_room(path: str) -> bool:
    """For a line of any length. Where no other file may be written, the program has to try."""
    try:
        with tempfile.TemporaryFile(dir=os.path.dirname(os.path.realpath(path))) as file:
            file.seek(os.path.getsize(path))
            file.write(bytes(MOST_LINE_BYTES))
            file.flush()
            os.fsync(file.fileno())
    except PermissionError:
        pass
    except OSError:
        return False
    return True
