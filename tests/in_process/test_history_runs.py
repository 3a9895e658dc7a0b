"""How a history of fronts over etcd goes and what is told of it, over stand-ins of the fronts, members and commands."""
import itertools
import json
import os
import random
import sys
import threading
import time
from collections import Counter
from pathlib import Path
from types import SimpleNamespace
from unittest import mock

import pytest

from dev.long import etcd_histories
from tests.support.fronts import Told
from tests.support.over_small_etcd import A1, B1
from tests.support.program import LIST, journal_line, publish, yank
from tests.support.reference import Registry

LINES = [A1, yank("a", "1.0.0"), B1, LIST, publish("B", "1.0.0")]
URLS = ["http://one", "http://two", "http://three"]


class World:
    """What all stand-ins of a history share: one registry, its journal, and what was done, in order."""

    def __init__(self):
        self.registry, self.journal, self.done, self.lock = Registry(), [], [], threading.Lock()
        self.troubles, self.status = [], 0

    def history(self, seed=1, count=2):
        members = SimpleNamespace(clients=URLS, behind=lambda: ["one", "two", "three"], troubles=lambda: self.troubles)
        return etcd_histories.History(members, seed, count, 0.0, 4)

    def front(self, urls, seat, *words, **more):
        return StandIn(self, urls, seat, words, **more)

    def gate(self, behind, hook):
        return SimpleNamespace(url=f"http://{behind}", hook=hook, close=lambda: self.done.append(("closed", behind)))

    def run(self, what, endpoints, *words):
        self.done.append((what, endpoints, *words))
        lines = [journal_line(line) for line in self.journal]
        text = "\n".join(["registry-journal 1", *lines, f"end {len(lines)}", ""])
        return SimpleNamespace(returncode=self.status, stdout=text.encode(), stderr="no etcd")


class StandIn:
    """A front that answers as one registry would, at the place of its revision."""

    def __init__(self, world, urls, seat, words, writer, may_forget):
        self.world, self.urls, self.seat, self.words, self.may_forget = world, urls, seat, words, may_forget
        self.told, self.open, self.names, self.child, self.ending = [], [], 0, mock.Mock(), (0, "")

    def begin(self):
        self.world.done.append(("begun", self.seat))

    def ask(self, *lines):
        asked = time.monotonic()
        with self.world.lock:
            for line in lines:
                reply = self.world.registry.answer(json.loads(line), {">=1.0.0", "^1"})
                if '"ok"' in reply:
                    self.world.journal.append(line)
                revision = self.world.registry.revision
                stamped = f'"place":{revision},"revision":{revision},"seat":{self.seat}'
                reply = reply.replace(f'"revision":{revision}', stamped)
                self.told.append(Told(line, reply, asked, time.monotonic()))
            self.world.done.append(("asked", self.seat, *lines))

    def end(self):
        self.world.done.append(("ended", self.seat))
        return self.ending


@pytest.fixture
def world(tmp_path, monkeypatch):
    monkeypatch.chdir(tmp_path)
    made, rows = World(), itertools.cycle(LINES)
    monkeypatch.setattr(etcd_histories.fronts, "Front", made.front)
    monkeypatch.setattr(etcd_histories.fronts, "run", made.run)
    monkeypatch.setattr(etcd_histories, "Gate", made.gate)
    monkeypatch.setattr(etcd_histories, "made_lines", lambda _: [next(rows)])
    return made


def test_a_history_in_which_nothing_is_wrong(world):
    history = world.history()
    history.fronts[1].names = 2
    assert history.run() is None
    prefix = f"history-1-{os.getpid()}"
    # it is founded, then all fronts begin, then all are asked, and once more when nothing goes wrong any more
    assert world.done[:3] == [("found", URLS, "--prefix", prefix), ("begun", 1), ("begun", 2)]
    assert world.done[-11:] == [("asked", 1, LIST), ("asked", 2, LIST), ("ended", 1), ("ended", 2),
                                ("journal", URLS, "--prefix", prefix),
                                *[("closed", name) for name in ("one", "two", "three") * 2]]
    # of the lines above three change something, and each front has one of its own
    assert dict(history.done) == {"commands accepted": 5, "lines answered": 12, "replies no longer kept": 2}
    assert os.listdir() == []


def accepts_what_nobody_sent(world, history):
    line = publish("lost", "1.0.0")
    history.fronts[1].begin = lambda: (world.registry.apply(json.loads(line)), world.journal.append(line))


@pytest.mark.parametrize("change, told", [
    (lambda _, it: setattr(it.fronts[0], "ending", (3, "no memory")), "a front ended with 3 no memory"),
    (lambda _, it: setattr(it.fronts[1], "ask", mock.Mock(side_effect=AssertionError("the front ended by itself: 1"))),
     "AssertionError: the front ended by itself: 1"),
    (lambda it, _: setattr(it, "journal", mock.MagicMock(wraps=[], __iter__=lambda _: iter([]))),
     "0 entries, and commands were accepted at [1, 2, 3, 4, 5] .."),
    (accepts_what_nobody_sent, "6 entries, and commands were accepted at [1] ..")])
def test_what_is_wrong_is_told_and_kept(change, told, world):
    history = world.history(4)
    change(world, history)
    assert history.run() == told
    kept = json.loads(Path("history-4.json").read_text(encoding="utf-8"))
    assert (kept["wrong"], kept["printed"][:19]) == (told, "registry-journal 1\n")
    assert kept["told"] == [list(map(list, front.told)) for front in history.fronts]


def test_no_journal_is_founded(world):
    world.status = 1
    with pytest.raises(AssertionError, match="no etcd"):
        world.history().run()


@pytest.mark.parametrize("seed, killed, dropped", [(1, False, True), (2, True, True), (3, True, False)])
def test_what_goes_wrong_in_a_history(seed, killed, dropped, world, monkeypatch):
    kill, held = mock.Mock(), []
    world.troubles = [(kill, "member killed")]
    monkeypatch.setattr(etcd_histories, "pause", lambda *given: held.append(given))
    history, left = world.history(seed), [False] * 2_000 + [True]
    history.is_over = mock.Mock(**{"wait.side_effect": lambda seconds: left.pop(0)})
    history.disturb(random.Random(seed))
    kinds = {"front held up", "member killed", *["front killed"] * killed,
             *["cells dropped by hand"] * (killed and dropped)}
    assert {name for name, count in history.done.items() if count > 60} == kinds and history.done.total() == 2_000
    assert (kill.call_count, len(held)) == (history.done["member killed"], history.done["front held up"])
    assert sum(front.child.kill.call_count for front in history.fronts) == history.done["front killed"]
    assert sum(it[0] == "compact" for it in world.done) == history.done["cells dropped by hand"]
    assert {front.may_forget for front in history.fronts} == {killed and dropped}
    # and calls are lost, or their front is killed, but for those of a watch
    history.is_over = threading.Event()
    for number in range(2_000):
        try:
            history.gates[0].hook("before", "/v3/watch" if number % 2 else "/v3/kv/txn", {})
        except etcd_histories.Drop:
            assert not number % 2
    assert 10 < history.done["lost before a call"] < 100
    assert (history.done["front killed before a call"] > 0) == killed


@pytest.mark.parametrize("words, ends, status, told", [
    (["--histories", "2", "--seed", "7"], [None, None], 0,
     ["three members, each in a namespace of the network", "history 7: nothing wrong; {'lost': 2}",
      "history 8: nothing wrong; {'lost': 2}", "2 histories, 0 with something wrong; {'lost': 4}"]),
    (["--histories", "2", "--loopback", "--fronts", "2"], [None, "out of order"], 1,
     ["three members, on loopback", "history 1: nothing wrong; {'lost': 2}", "history 2: out of order; {'lost': 2}",
      "2 histories, 1 with something wrong; {'lost': 4}"])])
def test_what_is_printed(words, ends, status, told, monkeypatch, capsys):
    members, made = mock.Mock(), []

    def history(_, *given):
        made.append(given)
        return SimpleNamespace(run=lambda: ends[len(made) - 1], done=Counter(lost=2))
    for name, new in (("is_installed", lambda: True), ("may_divide", lambda: True), ("History", history),
                      ("Members", members)):
        monkeypatch.setattr(etcd_histories, name, new)
    monkeypatch.setattr(etcd_histories.signal, "signal", mock.Mock())
    monkeypatch.setattr(sys, "argv", ["etcd_histories.py", *words])
    assert etcd_histories.main() == status
    assert capsys.readouterr().out.splitlines() == told
    assert made == [(seed, 2, 5.0, 50) for seed in (1, 2)] if status else [(seed, 4, 5.0, 50) for seed in (7, 8)]
    members.assert_called_once_with(3, not status)
    members.return_value.close.assert_called_once_with()
