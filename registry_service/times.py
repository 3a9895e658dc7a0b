"""When each command was accepted: not known of what stood in the journal before the service began."""
from __future__ import annotations

from datetime import datetime, timezone

from registry_cli import TYPE_CHECKING
from registry_cli.catalog import commands_in

from .journal import text_at

if TYPE_CHECKING:
    from .keeper import Keeper

UNKNOWN = "-"


def now() -> str:
    return datetime.now(timezone.utc).isoformat(timespec="milliseconds").removesuffix("+00:00") + "Z"


class Times:
    def __init__(self, keeper: Keeper) -> None:
        self.keeper = keeper
        self.known: dict[int, str] = {}
        keeper.followers.append(self.take)

    def take(self, _: bytes) -> None:
        """A command is accepted. What a program finds as it begins was accepted some time before."""
        if self.keeper.is_up:
            self.known[self.keeper.revision] = now()

    def text(self, path: str, after: int, last: int) -> bytes:
        """A line for each command after a revision: its own revision, its time, and what stands in the journal."""
        commands = commands_in(text_at(path, last))[after:]
        return b"".join(b"%d %s %s\n" % (at, self.known.get(at, UNKNOWN).encode(), line)
                        for at, line in enumerate(commands, after + 1))
