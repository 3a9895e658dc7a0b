"""Programs that follow the keeper: each is begun with the journal, is fed every accepted line, and answers requests.

No client can stop the others. Each has one request here at a time, and these wait in the order in which they came. The
last of several readers takes no request of a client whose last one was slow; and where one is slow there while others
wait, it is begun again and leaves that one to the other readers: so a request waits there at most a quarter of a
second, and the time in which a reader begins, for each before it, however long the others search. One that has no reply
at its limit is told so and its program ends, so no reply that nobody waits for stands before another."""
from __future__ import annotations

import asyncio
import select
from collections import deque
from collections.abc import Sequence
from itertools import islice

from registry_cli.session import shared
from registry_cli.shapes import Served

from .child import ACCEPTED, Child
from .client import UNAVAILABLE, Asked, Client
from .journal import text_at
from .keeper import Keeper
from .supervisor import Supervisor
from .watching import Watch

WINDOW = 4  # requests that the quick reader is asked at once
PATIENCE = 0.25  # seconds; a request is slow once a reader has been at it for longer,
EFFORT = 0.025  # and has had a processor for longer than this meanwhile: else it is the machine that is slow
MOST_TRIES = 2  # of a request with which readers ended by themselves
TICK = 0.05
SPENT = b'{"error":22,"name":"BudgetSpent","revision":%d}'


def has_left(client: Client) -> bool:
    """Whether nobody reads what it is answered. Who only sends no more may wait for replies."""
    if client.transport.is_closing():
        return True
    other_end = select.poll()
    # told is what is always told: that it hung up
    other_end.register(client.transport.get_extra_info("socket").fileno(), 0)
    return bool(other_end.poll(0))


def give_up(asked: Asked) -> None:
    asked.answer((SPENT if asked.op == "resolve" else UNAVAILABLE) % asked.revision)


class Reader(Supervisor[Child]):
    """`asked` has the requests that it is to answer, in order; `seen` was the first of these at the last look."""
    role = "reader"

    def __init__(self, pool: Readers, is_quick: bool) -> None:
        super().__init__(pool.path, pool.watch)
        self.pool, self.is_quick = pool, is_quick
        self.seen: Asked | None = None
        pool.keeper.followers.append(self.feed)

    async def begin(self) -> None:
        """Begins with the journal as it was told so far; from then on it is fed."""
        first = self.pool.keeper.revision
        with shared(text_at(self.path, first)) as file:
            self.child = Child(self.path, [*self.pool.words, f"--load=/dev/fd/{file.fileno()}"], [file.fileno()])
        self.begun(await self.child.begin(), first)
        self.pool.share()

    def feed(self, line: bytes) -> None:
        if self.child:
            self.child.ask(line, self.fed)

    def fed(self, reply: bytes) -> None:
        """One that has no memory for what was accepted is ended."""
        self.seen = None  # what is asked behind it has begun now
        if not reply.startswith(ACCEPTED):
            self.kill()

    def takes(self, asked: Asked) -> bool:
        return not (self.is_quick and asked.client.is_slow)

    def ask(self, requests: Sequence[Asked]) -> None:
        self.asked, self.seen = deque(requests), None
        for asked in requests:
            asked.revision = self.pool.keeper.revision
            self.program.ask(asked.line, self.answered)

    def answered(self, reply: bytes) -> None:
        asked = self.asked.popleft()
        asked.client.is_slow &= asked is self.seen
        asked.answer(reply)
        if not self.asked:
            self.pool.share()

    def kill(self) -> None:
        self.is_up = False
        self.program.kill()

    def look(self) -> None:
        """Ends a search that is at its limit, that nobody waits for, or for which others wait at the last reader."""
        if not self.is_up or not self.asked:
            return
        first, now, spent = self.asked[0], self.pool.now(), self.program.spent()
        if first is not self.seen:
            self.seen, self.since, self.before, first.client.is_slow = first, now, spent, False
        if now - self.since <= PATIENCE:
            return
        first.client.is_slow = spent - self.before > EFFORT
        if self.pool.is_over(first, self.pool.limit):
            give_up(self.asked.popleft())
            self.kill()
        elif self.is_quick and first.client.is_slow:
            if len(self.asked) > 1 or any(map(self.takes, self.pool.waiting)):
                self.kill()

    def lost(self) -> None:
        """What it had is asked of another one. A request with which two ended by themselves is given up."""
        if self.asked and not self.program.is_killed:
            self.asked[0].tries += 1
            if self.asked[0].tries == MOST_TRIES:
                self.asked.popleft().fail()
        self.pool.waiting.extendleft(reversed(self.asked))
        self.asked.clear()
        self.pool.share()


class Readers:
    """All of them. Requests wait here, one of each client, until a reader takes them."""

    def __init__(self, path: str, watch: Watch, keeper: Keeper, options: Served) -> None:
        self.path, self.watch, self.keeper, self.limit = path, watch, keeper, options.seconds
        self.words = [f"--workers={options.workers}"]
        if options.budget is not None:
            self.words.append(f"--budget={options.budget}")
        self.loop = asyncio.get_running_loop()
        self.waiting: deque[Asked] = deque()
        self.now = self.loop.time
        self.readers = [Reader(self, is_quick=0 < number == options.readers - 1) for number in range(options.readers)]

    async def start(self) -> None:
        await asyncio.gather(*(reader.start() for reader in self.readers))
        self.look()

    def look(self) -> None:
        """What waits has a little longer than a search: so it may be asked after one that took all of its time."""
        self.looking = self.loop.call_later(TICK, self.look)
        for reader in self.readers:
            reader.look()
        for asked in [asked for asked in self.waiting if self.is_over(asked, self.limit + PATIENCE)]:
            self.waiting.remove(asked)
            asked.client.is_slow = False  # its next request is asked of the last reader, too
            give_up(asked)

    def is_over(self, asked: Asked, limit: float) -> bool:
        """Whether a request has had its seconds, or nobody waits for it any more."""
        taken = self.now() - asked.since
        return taken > limit or taken > PATIENCE and has_left(asked.client)

    def ask(self, asked: Asked) -> None:
        self.waiting.append(asked)
        self.share()

    def share(self) -> None:
        """Hands out what waits to the readers that have nothing to do."""
        for reader in self.readers:
            if self.waiting and reader.is_up and not reader.asked:
                taken = [*islice(filter(reader.takes, self.waiting), WINDOW if reader.is_quick else 1)]
                for asked in taken:
                    self.waiting.remove(asked)
                reader.ask(taken)

    def end(self) -> None:
        """Ends all of them: what they had is told that it was not answered."""
        self.looking.cancel()
        for reader in self.readers:
            reader.leave()
            reader.kill()
            self.waiting.extend(reader.asked)
        while self.waiting:
            self.waiting.popleft().fail()

    def ready(self) -> int:
        return sum(reader.is_up for reader in self.readers)

    def are_late(self) -> bool:
        """Whether a request of a client that is not slow has waited for half of its limit."""
        return any(not asked.client.is_slow and self.now() - asked.since > self.limit / 2 for asked in self.waiting)
