"""An etcd that is full, or answers what no etcd does: no entry is lost, and what is wrong is told in a line."""
import contextlib
import re
import unittest
from base64 import b64encode
from unittest import mock

import pytest

from registry_etcd.cells import Behind, Cell, Cells
from registry_etcd.front import Front
from registry_etcd.gateway import Fault, Full, Gateway, Unanswered, endpoints
from registry_etcd.lines import Line
from registry_etcd.snapshot import Snapshots, Standing
from tests.support import fronts
from tests.support.fake_etcd import Drop, Gate
from tests.support.over_small_etcd import Case, accepted
from tests.support.program import PROGRAM, in_time, publish

ENTRIES = [publish(f"p{number}", "1.0.0") for number in range(20)]
ONE, MORE = publish("one", "1.0.0"), publish("more", "1.0.0")
FULL = r"\Aetcd refuses: etcdserver: mvcc: database space exceeded: `registryd-etcd compact` makes room\Z"
NO_ROOM = (r"\Aetcd has no room for a snapshot, even after all that is of no use was deleted: --keep 0 deletes more "
           r"cells, and etcd's --quota-backend-bytes sets how much it may hold\Z")


class Room(Case):
    @contextlib.contextmanager
    def front(self, *gates):
        """A front in this process, over one gate or several, which writes no snapshot by itself."""
        urls = ",".join(it.url for it in gates or [self.gate])
        made = Gateway(endpoints(urls))
        front = Front(Cells(made, "registry"), PROGRAM, 1, compact_every=0)
        try:
            front.begin(front.snapshots.read())
            yield front
        finally:
            made.leave()
            if front.replica:
                front.replica.end()

    def enter(self, *lines):
        with self.front() as front:
            told = front.answer([Line(number, it.encode()) for number, it in enumerate(lines, 1)])
            return [reply.decode() for replies in told for reply in replies]

    def compact(self, kept, *gates):
        with self.front(*gates) as front:
            front.snapshots.compact(front.stands, kept)

    def journal(self):
        with self.front() as front:
            return front.stands.text()

    def filled(self):
        """The journal, where etcd has no room for a command more, and one was refused for that."""
        journal = self.journal()
        self.etcd.quota = self.etcd.size
        with pytest.raises(Full, match=FULL):
            self.enter(MORE)
        assert self.etcd.is_full
        return journal

    def goes_on(self, journal):
        """Whether the journal is as it was, and takes entries again."""
        assert not self.etcd.is_full
        assert self.journal() == journal
        place = journal.count(b"\n") - 1
        assert self.enter(MORE) == [accepted(place, place)]

    def with_a_snapshot(self, kept):
        """Enters entries, of which a snapshot is made, and one more. The file is no larger than it has to be."""
        self.enter(*ENTRIES)
        self.compact(kept)
        self.etcd.defragment({})
        self.enter(ONE)

    def test_what_was_deleted_before_gives_room(self):
        # by the command itself
        self.done("serve", "--compact-every", "0", given="".join(line + "\n" for line in ENTRIES).encode())
        self.done("compact", "--keep", "0")  # that leaves the file as large as it was
        self.done("serve", given=ONE.encode())
        journal = self.filled()
        assert self.done("compact") == ""
        self.goes_on(journal)

    def test_an_alarm_is_taken_back_where_there_is_nothing_new(self):
        self.enter(*ENTRIES)
        self.compact(0)
        journal = self.filled()
        self.compact(0)
        self.goes_on(journal)

    def test_cells_for_which_a_snapshot_stands_give_room(self):
        self.with_a_snapshot(kept=1_024)
        journal, cells = self.filled(), self.cells()
        with pytest.raises(Fault, match=NO_ROOM):
            self.compact(1_024)
        assert (self.journal(), self.cells()) == (journal, cells)
        self.compact(0)
        self.goes_on(journal)

    def test_pages_that_were_written_in_vain_give_room(self):
        self.with_a_snapshot(kept=0)
        vain = b"registry/pages/vain/000000"
        self.etcd.answer("/v3/kv/put", {"key": b64encode(vain).decode(), "value": b64encode(bytes(5_000)).decode()})
        journal = self.journal()
        self.etcd.quota, self.etcd.is_full = self.etcd.size + 300, True  # that is enough for the key, and for no page
        self.compact(0)
        assert vain not in self.etcd.kept
        self.goes_on(journal)

    def test_where_nothing_is_of_no_use_nothing_goes(self):
        self.enter(*ENTRIES)
        journal, kept = self.filled(), dict(self.etcd.kept)
        with pytest.raises(Fault, match=NO_ROOM):
            self.compact(0)
        assert {key: row for key, row in self.etcd.kept.items() if key in kept} == kept
        assert self.journal() == journal
        self.etcd.quota *= 2  # its members were begun anew with a larger one
        self.compact(0)
        self.goes_on(journal)

    def test_it_is_broken_off_at_each_request(self):
        self.with_a_snapshot(kept=1_024)
        journal, before, post = self.filled(), self.etcd, Gateway.post
        for is_done in (False, True):  # the last request
            asked, most = [], 0
            while len(asked) >= most:
                self.gate.behind = self.etcd = before.copy()
                self.etcd.quota, self.etcd.size, self.etcd.is_full = before.quota, before.size, True
                asked, most = [], most + 1

                def broken(made, path, *more, asked=asked, most=most):
                    asked.append(path)
                    done = post(made, path, *more) if len(asked) < most or is_done else None
                    if len(asked) >= most:
                        raise Fault("broken off")
                    return done
                with mock.patch.object(Gateway, "post", broken), contextlib.suppress(Fault):
                    self.compact(0)
                assert self.journal() == journal, asked
            self.goes_on(journal)
            assert set(asked) == {"/v3/kv/range", "/v3/kv/txn", "/v3/kv/put",
                                  "/v3/kv/compaction", "/v3/maintenance/alarm", "/v3/maintenance/defragment"}

    def test_who_is_about_to_turn_to_pages_that_go_does_not(self):
        self.enter(*ENTRIES)
        journal = self.journal()
        with self.front() as one, self.front() as other:
            _, revision = one.snapshots.head()
            head = one.snapshots.write_pages(one.stands)
            other.snapshots.drop_pages()
            assert one.snapshots.turn_to(head, revision, one.snapshots.other_pages(head)) == 0
        assert self.journal() == journal

    def test_a_member_that_does_not_give_back_is_passed_over(self):
        def hook(moment, path, _):
            if path == "/v3/maintenance/defragment":
                raise Drop
        self.enter(*ENTRIES)
        self.compact(0)
        self.enter(ONE)
        journal = self.filled()
        self.compact(0, self.opened(hook), self.gate)
        self.goes_on(journal)


def cell(**more):
    return {"key": b64encode(b"registry/cells/00000000").decode(), "mod_revision": "2", "version": "1",
            "value": "e30=", **more}


class Nonsense(unittest.TestCase):
    """Each request is answered by the same."""
    ODD = ([], {"kvs": 5}, {"kvs": [5]}, {"kvs": [{}]}, {"kvs": [cell(value="%")]}, {"kvs": [cell(value="e")]},
           {"kvs": [cell(value=7)]}, {"kvs": [cell(mod_revision="x")]}, {"kvs": [cell(value="W10=")]},
           {"succeeded": True}, {"responses": []}, {"responses": [5]}, {"kvs": [cell(key="\x1b")]}, {"alarms": 5},
           {"alarms": [{}]}, {"events": [{}]}, {"events": 7})

    def setUp(self):
        self.enterContext(in_time())
        self.told = None
        self.gate = Gate(self)
        self.addCleanup(self.gate.close)

    def answer(self, path, asked):
        return 200, self.told

    def watch(self, asked):
        return [self.told]

    def test_a_command_tells_it_in_a_line(self):
        for self.told, what in (([], "compact"), ({"kvs": [{}]}, "serve"), ({"kvs": [cell(value="%")]}, "journal"),
                                ({"kvs": [cell(mod_revision="\x1b")]}, "found")):
            done = fronts.run(what, [self.gate.url], "--patience", "0.2")
            assert (done.returncode, done.stdout) == (1, b"")
            assert re.search(r"\Aregistryd-etcd: (no member of etcd answers, .*is no answer of "
                             r"etcd|etcd's answer does not have the form[^\x1b\n]*)\n\Z", done.stderr.decode())

    def test_each_part_that_asks(self):
        stands, entry = Standing("j", Cell(1, None, None)), mock.Mock(command=b"{}", seat=1, serial=1, writer="w")
        for self.told in self.ODD:
            made = Gateway(endpoints(self.gate.url), patience=0.02)
            cells = Cells(made, "registry")
            snapshots = Snapshots(cells)
            for ask in (snapshots.read, lambda: snapshots.found([]), lambda: snapshots.renew(stands, 0),
                        lambda: snapshots.compact(stands, 0), snapshots.drop_pages,
                        lambda: snapshots.drop_cells(0), snapshots.give_back,
                        lambda: list(cells.pages(stands.last)), lambda: cells.put(stands.last, [entry]),
                        made.full_members):
                with contextlib.suppress(Fault, Unanswered, Behind):  # any other exception fails this test
                    ask()
            with contextlib.suppress(Fault, Unanswered), contextlib.closing(cells.watch()) as seen:
                next(seen)
            made.leave()
