"""A program that is begun again whenever it ends."""
import asyncio
from collections import deque
from typing import Generic, Protocol, TypeVar

from registry_cli.failures import Failed

from .client import Asked
from .watching import Watch

PAUSES = 0.05, 5  # seconds before it is begun again: the first time, and at most


class Supervised(Protocol):
    """A child. `gone` has the reason why it has ended."""
    gone: asyncio.Future[str]

    def kill(self) -> object: ...


Program = TypeVar("Program", bound=Supervised)


class Supervisor(Generic[Program]):
    """Has one child at a time. Heirs say how it is begun (`begin`), and what becomes of its lines then (`lost`)."""
    role = ""

    def __init__(self, path: str, watch: Watch) -> None:
        self.path, self.watch, self.is_up = path, watch, False
        self.child: Program | None = None
        self.asked: deque[Asked] = deque()
        self.keeping: asyncio.Task[None] | None = None

    @property
    def program(self) -> Program:
        assert self.child is not None
        return self.child

    async def begin(self) -> None:
        raise NotImplementedError

    def lost(self) -> None:
        raise NotImplementedError

    async def start(self) -> None:
        """Begins it, and has it begun again from then on."""
        await self.begin()
        self.keeping = asyncio.create_task(self.keep())

    def leave(self) -> None:
        """Has it begun again no more."""
        if self.keeping:
            self.keeping.cancel()

    async def keep(self) -> None:
        why, (shortest, longest) = "", PAUSES
        pause: float = shortest
        while True:
            if not why:
                why, pause = await asyncio.shield(self.program.gone), shortest
            self.is_up = False
            self.lost()
            self.watch.restarted(self.role, why)
            await asyncio.sleep(pause)
            try:
                await self.begin()
                why = ""
            except (Failed, OSError) as fault:
                self.program.kill()
                why, pause = str(fault), min(2 * pause, longest)

    def begun(self, revision: int, wanted: int) -> None:
        """At the revision that was told, unless another program has changed the file."""
        if revision != wanted:
            raise Failed(f"{self.path} was changed by another program: {wanted} commands were accepted, "
                         f"and it has {revision}")
        self.is_up = True
