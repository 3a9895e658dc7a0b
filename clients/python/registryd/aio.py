"""The session of this package for programs with asyncio: the same calls, which are awaited.

    async with await AsyncRegistry.open("./registryd", journal="python.journal") as registry:
        await registry.publish("log", "1.3.0")
        print((await registry.resolve({"log": "^1"})).selected)
"""
from __future__ import annotations

import asyncio
from typing import Any

from . import Registry
from .embedded import Embedded
from .replies import Listing, NoSelection, Selection, Verdict
from .requests import Check, Derivation, List, Pairs, Publish, Request, Resolve, Unyank, Yank


class AsyncRegistry:
    """A session whose calls are awaited. Requests of several tasks are on their way at once, in the order in which they
    were asked; a session in process answers them in other threads, one by one in any order. A task that is cancelled
    takes no command back."""

    def __init__(self, registry: Registry) -> None:
        self._registry = registry
        self._is_embedded = isinstance(registry._session, Embedded)

    @classmethod
    async def open(cls, *arguments: Any, **options: Any) -> AsyncRegistry:
        """A session with the arguments of `Registry`."""
        return cls(await asyncio.to_thread(Registry, *arguments, **options))

    async def ask(self, request: Request) -> Any:  # the reply of that request's kind
        """The reply to a request; raises what the call of `Registry` would."""
        ask = self._registry.ask
        return await asyncio.wrap_future(await asyncio.to_thread(ask, request) if self._is_embedded else ask(request))

    async def publish(self, name: str, version: str, needs: Pairs = ()) -> int:
        return int((await self.ask(Publish(name, version, needs))).revision)

    async def yank(self, name: str, version: str) -> int:
        return int((await self.ask(Yank(name, version))).revision)

    async def unyank(self, name: str, version: str) -> int:
        return int((await self.ask(Unyank(name, version))).revision)

    async def resolve(self, needs: Pairs, lock: Pairs = (), *, budget: int | None = None,
                      explain: bool = False) -> Selection | NoSelection:
        resolved: Selection | NoSelection = await self.ask(Resolve(needs, lock, budget, explain))
        return resolved

    async def check(self, needs: Pairs, derivation: Derivation, lock: Pairs = ()) -> bool:
        verdict: Verdict = await self.ask(Check(needs, derivation, lock))
        return verdict.follows

    async def list(self) -> Listing:
        listing: Listing = await self.ask(List())
        return listing

    async def close(self, seconds: float | None = None) -> None:
        await asyncio.to_thread(self._registry.close, seconds)

    def kill(self) -> None:
        self._registry.kill()

    async def __aenter__(self) -> AsyncRegistry:
        return self

    async def __aexit__(self, kind: type[BaseException] | None, *_: object) -> None:
        # one that is cancelled doesn't wait for a long search, as one that is interrupted does not
        is_cancelled = kind is not None and issubclass(kind, asyncio.CancelledError)
        await asyncio.to_thread(self._registry.__exit__, KeyboardInterrupt if is_cancelled else kind, None, None)
