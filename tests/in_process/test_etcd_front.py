"""A front over etcd in one process, over a small etcd without a network and a replica that answers by a plain registry:
what no front that is begun as a program shows."""
import json
import queue
from base64 import b64encode
from types import SimpleNamespace
from unittest import mock

import pytest

from registry_etcd import front as module
from registry_etcd.cells import Behind, Cell, Cells, Entry
from registry_etcd.front import Front, follow, together
from registry_etcd.gateway import Fault, Unanswered
from registry_etcd.lines import Line
from registry_etcd.snapshot import Standing, read_journal
from tests.in_process.test_etcd_snapshot import Direct
from tests.support.fake_etcd import SmallEtcd
from tests.support.program import LIST, journal_line, publish, resolve, yank
from tests.support.reference import Registry

A1, A2, B1 = publish("a", "1.0.0"), publish("a", "2.0.0"), publish("b", "1.0.0")


class Plain:
    """A replica that answers by a plain registry, and each request by a lie."""
    lie = b'{"refused":true,"revision":0}'

    def __init__(self, program, workers, text, *_):
        self.registry, self.owed, self.end = Registry(), 0, lambda: None
        for line in read_journal(text):
            self.registry.apply(json.loads(line))

    def told(self, line):
        request = json.loads(line)
        return self.lie if request["op"] in ("list", "resolve") else self.registry.answer(request, ["*"]).encode()

    def send_ahead(self, lines):
        """None is asked before its place is known."""

    def replies(self):
        return iter(())

    def each(self, lines):
        yield [self.told(line) for line in lines]

    def answer(self, lines):
        return [self.told(line) for line in lines]


class Gateway(Direct):
    """Another connection shares what is asked; the watch is told by hand."""

    def another(self):
        return self

    def count_anew(self):
        """Every call is answered."""

    def stream(self, path, asked):
        yield from self.results.pop(0)
        raise Unanswered("no more")


def lines(*given, first=1):
    return [Line(number, line.encode()) for number, line in enumerate(given, first)]


def ok(place, revision=None, seat=7):
    return f'{{"ok":true,"place":{place},"revision":{revision or place},"seat":{seat}}}'.encode()


@pytest.fixture
def begun(monkeypatch):
    """Begins fronts of one journal, which is founded."""
    monkeypatch.setattr(module, "Replica", Plain)
    gateway = Gateway(SmallEtcd())
    Front(Cells(gateway, "p"), "program", 1).snapshots.found([])

    def front(seat=7, **more):
        made = Front(Cells(gateway, "p"), "program", seat, **more)
        made.begin(made.snapshots.read())
        return made
    return SimpleNamespace(front=front, gateway=gateway)


def answer(front, *given):
    return [reply for some in front.answer(lines(*given)) for reply in some]


@pytest.mark.parametrize("told, wanted", [
    (b'{"refused":true,"revision":0}', b'{"place":0,"refused":true,"revision":0,"seat":7}'),
    (b'{"a":"\\"revision\\":5","revision":0}', b'{"a":"\\"revision\\":5","place":0,"revision":0,"seat":7}'),
    (b'{"packages":[["revision",[]]],"revision":12}',
     b'{"packages":[["revision",[]]],"place":0,"revision":12,"seat":7}')])
def test_the_stamp_of_a_reply(told, wanted, begun):
    assert begun.front().stamped(told) == wanted


def test_which_lines_take_a_cell(begun, monkeypatch):
    front = begun.front()
    long = publish("c", "1.0.0", [f"d{n} " + "=1.0.0," * 36 + "=1.0.0" for n in range(140)])
    answer(front, A1)
    for line, is_one in ((A1, False), (A2, True), (yank("a", "1.0.0"), True), (LIST, False), (resolve("a *"), False),
                         ("x", False), (long, False), (publish("A", "1"), True)):
        assert front.is_entered(lines(line)[0]) is is_one, line
    for most, is_one in ((len(journal_line(A2)), True), (len(journal_line(A2)) - 1, False)):
        monkeypatch.setattr(module, "MOST_ENTERED", most)
        assert front.is_entered(lines(A2)[0]) is is_one


def test_lines_that_share_a_transaction(begun, monkeypatch):
    given = [publish("a", f"{n}.0.0") for n in range(70)]
    some = lines(*given)
    assert [len(it) for it in (together(some), together(some[64:]), together(some[:1]))] == [64, 6, 1]
    front, before = begun.front(), begun.gateway.asked.count("/v3/kv/txn")
    assert answer(front, *given[:65]) == [ok(n + 1) for n in range(65)]
    assert begun.gateway.asked.count("/v3/kv/txn") - before == 2
    size = len(some[0].text)
    for most, wanted in ((2 * size, 2), (2 * size - 1, 1), (1, 1)):
        monkeypatch.setattr(module, "TOGETHER_BYTES", most)
        assert len(together(some)) == wanted


def test_what_is_noted_of_cells(begun):
    front = begun.front(writer="w", compact_every=2)
    entries = ((A1, "w", 4), (A1, "v", 9), (B1, "v", 3), (A2, "w", 5))
    cells = [Cell(place, 5, Entry(journal_line(line).encode(), 2, writer, serial))
             for place, (line, writer, serial) in enumerate(entries, 1)]
    front.take(cells[:2])
    # none of its own stands at a second place so far
    assert (front.is_due, front.stands.last) == (False, cells[1])
    front.take(cells)
    assert (front.is_due, front.stands.writers) == (True, {"w": 5, "v": 9})
    assert front.published == {("a", "1.0.0"), ("b", "1.0.0"), ("a", "2.0.0")}
    assert front.replies == {4: (journal_line(A1).encode(), ok(1)), 5: (journal_line(A2).encode(), ok(4, 3))}
    assert front.stands.accepted == [journal_line(line).encode() for line in (A1, B1, A2)]
    front.take(cells)
    assert front.stands.last == cells[3]
    pytest.raises(Behind, front.take, [cells[3]._replace(place=6)])


def test_a_snapshot_that_stands_for_something_else(begun):
    front = begun.front()
    answer(front, A1, A2)
    gone = "cell 2 is gone, and no snapshot stands for it"
    journal, accepted = front.stands.journal, front.stands.accepted
    for stands, told in ((Standing(journal, Cell(2, 5, None), accepted), gone),
                         (Standing("other", Cell(9, 5, None), accepted), gone),
                         (Standing(journal, Cell(9, 5, None), accepted[:1]),
                          "the snapshot does not begin with what was accepted before")):
        with mock.patch.object(front.snapshots, "read", return_value=stands), \
                pytest.raises(Fault, match=rf"\A{told}\Z"):
            front.skip()
    stands = Standing(journal, Cell(3, 5, None), [*accepted, B1.encode()], {"v": 9})
    with mock.patch.object(front.snapshots, "read", return_value=stands):
        front.skip()
    assert (front.stands.last.place, front.dropped) == (3, 0)


def test_a_replica_that_accepts_by_itself(begun, monkeypatch):
    monkeypatch.setattr(Plain, "lie", b'{"ok":true,"revision":1}')
    with pytest.raises(Fault, match=r"\Athe replica accepted a line that stands in no cell\Z"):
        answer(begun.front(stale=True), LIST)


def test_which_lines_share_a_look(begun, monkeypatch):
    front, one = begun.front(), lines(LIST)
    for it in (one, one * 2, (), None):
        front.arrived.put(it)
    assert (front.next_lines(), front.is_over) == (one * 3, True)
    front.is_over = False
    monkeypatch.setattr(module, "MOST_WAITING", 2)
    for it in (one, one, one):
        front.arrived.put(it)
    assert [len(front.next_lines()), len(front.next_lines())] == [2, 1]
    front.arrived.put(Fault("no"))
    pytest.raises(Fault, front.next_lines)


def test_what_the_watch_brings_is_taken(begun):
    front = begun.front()
    front.arrived.put((Cell(1, 5, Entry(journal_line(A1).encode(), 2, "other", 1)),))
    front.arrived.put(lines(LIST))
    assert (len(front.next_lines()), front.stands.last.place) == (1, 1)
    # where some lack in between, it reads on
    front = begun.front()
    answer(begun.front(2), A1, A2, B1)
    front.arrived.put((Cell(3, 5, Entry(journal_line(B1).encode(), 2, "other", 3)),))
    front.arrived.put(None)
    assert (front.next_lines(), front.stands.last.place) == ([], 3)


def test_what_is_watched(begun):
    front, arrived = begun.front(), queue.Queue()
    answer(begun.front(2), A1, B1)
    row = {"key": Cells(None, "p").key(3), "mod_revision": "9", "version": "1", "value": b64encode(b"{}").decode()}
    # what was missed before, then news; a watch that ends is begun again, and a fault is handed over
    begun.gateway.results = [[{"created": True}, {"events": [{"kv": row}]}], []]
    with mock.patch.object(module.time, "sleep", side_effect=[None, Fault("enough")]) as slept, \
            pytest.raises(Fault, match="enough"):
        follow(front, arrived)
    assert [call.args for call in slept.call_args_list] == [(0.2,), (0.2,)]
    told = [arrived.get_nowait() for _ in range(arrived.qsize())]
    assert [[cell.place for cell in some] for some in told] == [[1, 2], [3]]
    begun.gateway.results = [[{"events": [{"kv": {**row, "version": "2"}}]}]]
    follow(front, arrived)
    assert isinstance(arrived.get_nowait(), Fault)
