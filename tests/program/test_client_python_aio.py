"""The client in Python with asyncio: the calls of a session, awaited, over a child and in process."""
import asyncio
import time
import unittest

import registryd
from registryd import AlreadyPublished, Ended, Listing, NoSelection, Publish, Registry, Resolve, Selection
from registryd.aio import AsyncRegistry
from registryd.tree import External
from tests.support.client_python import SOON, Case, pigeons
from tests.support.library import LIBRARY, needs_library
from tests.support.program import PROGRAM


class Calls:
    """What each session does, whichever way `open` opens it."""

    async def test_each_call(self):
        async with await self.open() as registry:
            self.assertEqual([await registry.publish("b", "1.0.0"), await registry.publish("a", "1.0.0", {"b": "^1"}),
                              await registry.yank("b", "1.0.0")], [1, 2, 3])
            refused = await registry.resolve({"a": "*"}, explain=True)
            self.assertEqual((type(refused), await registry.check({"a": "*"}, refused.derivation)), (NoSelection, True))
            self.assertIn(("need", "a"),
                          [(it.kind, it.target) for it in refused.tree().causes if isinstance(it, External)])
            self.assertEqual(await registry.resolve({"a": "*"}, {"b": "1.0.0"}, budget=0),
                             Selection(3, {"a": "1.0.0", "b": "1.0.0"}))
            self.assertEqual(await registry.unyank("b", "1.0.0"), 4)
            self.assertEqual(await registry.list(), Listing(4, {"a": (("1.0.0", False),), "b": (("1.0.0", False),)}))
            with self.assertRaisesRegex(AlreadyPublished, "b 1.0.0 is published already"):
                await registry.publish("b", "1.0.0")
            with self.assertRaisesRegex(TypeError, r"^needs\[0\] is a pair"):
                await registry.publish("c", "1.0.0", ["b"])
        with self.assertRaises(Ended):
            await registry.list()

    async def test_many_tasks_at_once(self):
        async with await self.open() as registry:
            revisions = await asyncio.gather(*(registry.publish(f"a{number}", "1.0.0") for number in range(50)))
            replies = await asyncio.gather(*(registry.ask(Resolve({f"a{number}": "*"})) for number in range(50)))
        self.assertEqual(sorted(revisions), [*range(1, 51)])
        self.assertEqual([it.selected for it in replies], [{f"a{number}": "1.0.0"} for number in range(50)])


class WithProgram(Calls, Case, unittest.IsolatedAsyncioTestCase):
    def open(self):
        return AsyncRegistry.open(PROGRAM)

    async def test_commands_are_carried_out_in_the_order_in_which_they_were_asked(self):
        async with await self.open() as registry:
            told = await asyncio.gather(*(registry.ask(Publish("a", f"{number}.0.0")) for number in range(100)))
        self.assertEqual([it.revision for it in told], [*range(1, 101)])

    async def test_other_tasks_run_during_a_search_and_a_cancelled_one_ends_it(self):
        plain, searching = Registry(PROGRAM), asyncio.Event()
        hopeless = pigeons(plain)

        async def search():
            async with AsyncRegistry(plain) as registry:
                searching.set()
                await registry.ask(hopeless)

        begun = time.monotonic()
        task = asyncio.create_task(search())
        await searching.wait()
        await asyncio.sleep(0)
        task.cancel()
        with self.assertRaises(asyncio.CancelledError):
            await task
        self.assertLess(time.monotonic() - begun, SOON)
        with self.assertRaises(Ended):
            plain.list()


@needs_library
class InProcess(Calls, Case, unittest.IsolatedAsyncioTestCase):
    def open(self):
        return AsyncRegistry.open(embedded=True, library=LIBRARY)


class Forms(unittest.TestCase):
    def test_it_has_the_calls_of_a_session(self):
        awaited = {it for it in vars(AsyncRegistry) if not it.startswith("_")} - {"open"}
        self.assertEqual(awaited, {it for it in vars(registryd.Registry) if not it.startswith("_")} - {"many"})
