"""Tests of fronts over a small etcd in memory: what they have in common."""
import json
import tempfile
import unittest
from collections.abc import Callable
from typing import Any

from tests.support import fronts, program
from tests.support.fake_etcd import Drop, Gate, SmallEtcd
from tests.support.program import publish

A1, A2, B1 = publish("a", "1.0.0"), publish("a", "2.0.0", ["b ^1"]), publish("b", "1.0.0")


def accepted(place: int, revision: int | None = None, seat: int = 1) -> str:
    return f'{{"ok":true,"place":{place},"revision":{revision or place},"seat":{seat}}}'


def refused(number: int, name: str, place: int, revision: int, seat: int = 1) -> str:
    return f'{{"error":{number},"name":"{name}","place":{place},"revision":{revision},"seat":{seat}}}'


def deaf(moment: str, path: str, asked: Any) -> None:
    """A hook by which a front hears no news."""
    if path == "/v3/watch":
        raise Drop


class Case(unittest.TestCase):
    founded: SmallEtcd

    @classmethod
    def setUpClass(cls) -> None:
        # a journal is founded once, and each test goes on from there
        cls.founded = SmallEtcd()
        gate = Gate(cls.founded)
        ended = fronts.run("found", [gate.url])
        gate.close()
        assert (ended.returncode, ended.stdout, ended.stderr) == (0, b"", b""), ended

    def setUp(self) -> None:
        self.enterContext(program.in_time(2 * program.PATIENCE))
        self.etcd = self.founded.copy()
        self.gate = self.opened()
        folder = tempfile.TemporaryDirectory()
        self.addCleanup(folder.cleanup)
        self.folder = folder.name

    def opened(self, hook: Callable[[str, str, Any], object] = lambda moment, path, asked: None) -> Gate:
        gate = Gate(self.etcd, hook)
        self.addCleanup(gate.close)
        return gate

    def done(self, what: str, *more: str, given: bytes = b"", gate: Gate | None = None) -> str:
        """What a run prints that ends as it should."""
        ended = fronts.run(what, [(gate or self.gate).url], *more, given=given)
        self.assertEqual((ended.returncode, ended.stderr), (0, b""))
        return str(ended.stdout.decode())

    def fails(self, what: str, *more: str) -> str:
        """What a run says that ends with status 1."""
        ended = fronts.run(what, [self.gate.url], *more)
        self.assertEqual(ended.returncode, 1)
        return str(ended.stderr.decode())

    def front(self, seat: int = 1, *more: str, hook: Callable[[str, str, Any], object] | None = None,
              gate: Gate | None = None, writer: str | None = None) -> fronts.Front:
        gate = gate or (self.opened(hook) if hook else self.gate)
        # nothing is lost but what a test loses
        front = fronts.Front([gate.url], seat, "--timeout", "60", *more, writer=writer)
        front.begin()
        self.addCleanup(self.ended, front)
        return front

    def ended(self, front: fronts.Front) -> None:
        if front.child.poll() is None:
            self.assertEqual(front.end(), (0, ""))

    def journal(self) -> str:
        return self.done("journal")

    def cells(self) -> dict[str, Any]:
        """The entries that stand, by their keys."""
        return {key.decode(): json.loads(value) for key,
                (_, _, _, value) in sorted(self.etcd.kept.items()) if b"/cells/" in key}

    def once(self, moment: str, do: Callable[[Any], object]) -> Callable[[str, str, Any], None]:
        """A hook that does this to the first transaction of a front that puts into cells, at this moment."""
        left = [do]

        def hook(at: str, path: str, asked: Any) -> None:
            if at == moment and path == "/v3/kv/txn" and left:
                left.pop()(asked)
        return hook

    def drop(self, asked: Any) -> None:
        raise Drop
