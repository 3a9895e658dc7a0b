"""Seats of the client in Python: threads that publish, yank and resolve at once, judged as races of the program are; a
journal that is full, one that is at fault, and seats that are closed one by one."""
import dataclasses
import json
import threading
import time
from concurrent.futures import ThreadPoolExecutor
from functools import partial
from pathlib import Path

import pytest

import registryd
from registryd import (
    Accepted, BadRequirement, BudgetSpent, Ended, JournalFull, Line, NoSelection, Refusal, Registry, Selection, Verdict)
from tests.program import test_seats
from tests.program.test_journals import journal
from tests.support import client_python, plain_race
from tests.support.library import LIBRARY, needs_library
from tests.support.program import publish

pytestmark = pytest.mark.not_quick("the static library")
MOST = 64  # seats of a journal, and sessions that may be open at once


def members(reply):
    """What the line of a reply says, from the value that the client made of it."""
    told = {"revision": reply.revision}
    if isinstance(reply, Refusal):
        return {**told, "error": reply.number, "name": type(reply).__name__}
    if isinstance(reply, Accepted):
        return {**told, "ok": True}
    if isinstance(reply, Selection):
        return {**told, "selected": list(reply.selected.items())}
    if isinstance(reply, Verdict):
        return {**told, "follows": reply.follows}
    if isinstance(reply, NoSelection):
        why = {} if reply.derivation is None else {"derivation": reply.derivation, "explanation": reply.explanation}
        return {**told, "refused": True, **why}
    return {**told, "packages": list(reply.packages.items())}


def answered(seat, line):
    """The reply line of a seat, as it was before the client read it."""
    try:
        reply = seat.ask(Line(line)).result()
    except Refusal as refusal:
        reply = refusal
    return plain_race.stamped(json.dumps(members(reply)), seat.place, seat.number)


@needs_library
class Threads(test_seats.Judged):
    """Races over seats in Python in place of those in C."""
    test_a_hundred_races = None  # its own are of the program in C alone

    @classmethod
    def setUpClass(cls):
        pass

    def raced(self, files, SEATS_LOAD=None, **_):
        seats, gate = registryd.seats(len(files), load=SEATS_LOAD, library=LIBRARY), threading.Barrier(len(files))

        def replies(seat, lines):
            gate.wait(client_python.SECONDS)
            return [answered(seat, line) for line in lines]
        with ThreadPoolExecutor(len(files)) as threads:
            told = [line for lines in threads.map(replies, seats, files) for line in lines]
        journals = {seat.journal() for seat in seats}
        self.assertEqual(len(journals), 1)
        for seat in seats:
            seat.close()
        return "".join(line + "\n" for line in told) + journals.pop().decode()


@needs_library
class Seats(client_python.Case):
    def open(self, count, **options):
        opened = registryd.seats(count, library=LIBRARY, **options)
        for seat in opened:
            self.addCleanup(seat.kill)
        return opened

    def read(self, path):
        return Path(path).read_bytes()

    def begun(self, name, text):
        Path(self.path(name)).write_bytes(text)
        return self.path(name)

    def test_a_journal_that_is_full(self):
        one, other = self.open(2, entries=2)
        self.assertEqual((one.publish("a", "1.0.0"), other.publish("b", "1.0.0", {"a": "^1"})), (1, 2))
        for seat in (one, other):
            with self.assertRaises(JournalFull) as refused:
                seat.publish("c", "1.0.0")
            self.assertEqual((refused.exception.revision, seat.place), (2, 2))
            self.assertEqual(seat.resolve({"b": "*"}).selected, {"a": "1.0.0", "b": "1.0.0"})
        text = one.journal()
        self.assertEqual(text, journal([publish("a", "1.0.0"), publish("b", "1.0.0", ["a ^1"])]))
        # with more room it goes on
        path = self.begun("full", text)
        self.assertEqual(self.open(1, load=path, entries=3)[0].yank("a", "1.0.0"), 3)
        self.ends(f"journal {path}: ", lambda: self.open(1, load=path, entries=1))

    def test_a_journal_that_is_kept(self):
        path = self.path("kept")
        one, other = self.open(2, keep=path)
        self.assertEqual((one.publish("a", "1.0.0"), other.publish("b", "1.0.0", {"a": "^1"})), (1, 2))
        text = journal([publish("a", "1.0.0"), publish("b", "1.0.0", ["a ^1"])])
        begun = text[:text.index(b"end")]
        self.assertEqual((self.read(path), one.journal()), (begun, text))
        for another in (partial(Registry, embedded=True, library=LIBRARY, journal=path),
                        partial(self.open, 1, keep=path)):
            self.ends(f"journal {path}: in use by another session", another)
        one.close()
        self.assertEqual(self.read(path), begun)
        other.close()
        self.assertEqual(self.read(path), text)
        # a session goes on with it, and then seats
        with Registry(embedded=True, library=LIBRARY, journal=path) as registry:
            self.assertEqual(registry.yank("a", "1.0.0"), 3)
        self.ends("has more entries than there is room for", lambda: self.open(1, keep=path, entries=2))
        seat, = self.open(1, keep=path)
        self.assertEqual((seat.list().revision, seat.place), (3, 3))

    def test_a_kept_journal_that_can_not_be_written(self):
        path = self.path("kept")
        seats = self.open(3, keep=path)
        self.assertEqual(seats[0].publish("a", "1.0.0"), 1)
        whole = self.read(path)
        with open(path, "ab") as file:
            file.write(b"x")
        told = f"journal {path}: changed by another program, and not gone on with"
        for seat in (seats[1], seats[2], seats[0], seats[1]):
            self.ends(told, lambda seat=seat: seat.publish("b", "1.0.0"))
        for seat in seats:
            self.ends(told, seat.close)
        self.assertEqual((seats[0].place, self.read(path)), (1, whole + b"x"))
        self.assertEqual(self.open(1, keep=path)[0].publish("b", "1.0.0"), 2)

    def test_threads_that_keep_a_journal(self):
        path = self.path("kept")
        seats = self.open(8, keep=path)

        def publishes(seat):
            # each is in the file once it is told
            return [(seat.publish(f"p{seat.number}", f"{version}.0.0"), seat.place, self.read(path).count(b"\n"))
                    for version in range(20)]
        with ThreadPoolExecutor(len(seats)) as threads:
            told = [of_one for of_all in threads.map(publishes, seats) for of_one in of_all]
        self.assertEqual(sorted(revision for revision, _, _ in told), list(range(1, 161)))
        self.assertTrue(all(revision == place < lines for revision, place, lines in told))
        text = seats[0].journal()
        for seat in seats:
            seat.close()
        self.assertEqual(self.read(path), text)

    def test_a_search_holds_up_no_other_seat(self):
        one, other = self.open(2)
        hopeless = dataclasses.replace(client_python.pigeons(one), budget=30_000)  # a second or more
        with ThreadPoolExecutor(1) as thread:
            searching = thread.submit(one.ask, hopeless)
            while not one._session._asker and not searching.done():
                time.sleep(0.001)
            for number in range(5):
                self.assertEqual(other.publish("a", f"{number}.0.0"), one.place + 1 + number)
                time.sleep(0.01)  # in which a search that had held up this thread would be over
            self.assertFalse(searching.done())
        self.assertRaises(BudgetSpent, searching.result().result)

    def test_seats_are_closed_one_by_one(self):
        with self.open(3)[0] as first:
            pass
        one, two, three = self.open(3)
        self.assertEqual([seat.number for seat in (one, two, three)], [1, 2, 3])
        self.assertEqual((two.place, two.publish("a", "1.0.0"), two.place), (0, 1, 1))
        two.close()
        two.close()
        for seat in (first, two):
            self.ends("the session was closed", lambda seat=seat: seat.publish("b", "1.0.0"))
            self.ends("the session was closed", seat.journal)
        self.assertEqual((three.publish("b", "1.0.0"), one.publish("c", "1.0.0"), one.place), (2, 3, 3))
        one.kill()
        self.assertEqual(three.list().revision, 3)

    def test_a_journal_at_fault_is_told_as_by_a_session(self):
        for name, text in (("bad", journal([])[:-2]), ("none", None)):
            path = self.path(name) if text is None else self.begun(name, text)
            with self.assertRaises(Ended) as told:
                Registry(embedded=True, library=LIBRARY, load=path)
            self.assertIn(path, str(told.exception))
            with self.assertRaises(Ended) as caught:
                self.open(2, load=path)
            self.assertEqual(str(caught.exception), str(told.exception))

    def test_what_cannot_be_asked_for(self):
        for count, entries in ((0, 1), (MOST + 1, 1), (1, 0), (1, 65_537)):
            self.assertRaises(ValueError, self.open, count, entries=entries)
        self.assertRaises(ValueError, self.open, 1, keep=self.path("one"), load=self.path("other"))
        self.assertRaises(TypeError, self.open, "4")

    def test_seats_that_are_forgotten_are_closed(self):
        for _ in range(2):
            registryd.seats(MOST, library=LIBRARY)
        with Registry(embedded=True, library=LIBRARY):
            self.ends("as many sessions are open as may be", lambda: registryd.seats(MOST, library=LIBRARY))

    def test_a_refusal_has_its_culprit(self):
        seat, = self.open(1)
        with self.assertRaises(BadRequirement) as refused:
            seat.resolve({"log": "==1"})
        self.assertEqual(str(refused.exception.culprit).partition(": ")[0], "needs[0], log")
        self.assertEqual(seat.resolve({"log": "*"}, explain=True).tree().sentences()[-1],
                         "Because the request depends on log * and no version of log matches *, resolving failed.")

    def test_a_journal_that_is_longer_than_what_is_taken_at_once(self):
        seat, = self.open(1)
        client_python.accepted(seat, [registryd.Publish("a", f"{number}.0.0") for number in range(2000)])
        text = seat.journal()
        self.assertEqual(text, journal([publish("a", f"{number}.0.0") for number in range(2000)]))
        self.assertGreater(len(text), registryd.embedded.ROOM)
