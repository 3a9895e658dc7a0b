"""The exports of the static library, called as a caller in C does, over a heap that counts and can refuse a request:
what each answers and leaves, and that nothing is kept of a session that was closed."""
import ctypes
import os
import subprocess
import tempfile
import unittest

import pytest

from dev.building.programs import path_for_tests
from tests.support.program import TOP, skip_without

pytestmark = pytest.mark.not_quick("the static library")
HEAP = os.path.join(TOP, "tests", "support", "c", "heap_counted.c")
OK, MISUSE, MEMORY, JOURNAL, BROKEN, FULL = range(6)
# Requests beyond these are not refused: no scenario has as many.
MOST_REQUESTS = 2000
HEAD = b"registry-journal 2\n"
PUBLISHED = b'{"name":"a","needs":[],"op":"publish","version":"1.0.0"}\n'
PUBLISH = b'{"op":"publish","name":"a","version":"1.0.0","needs":[]}\n'
ACCEPTED = b'{"ok":true,"revision":1}\n'
LIST = b'{"op":"list"}\n'
LISTED = b'{"packages":[["a",[["1.0.0",false]]]],"revision":1}\n'
NO_MEMORY = b'{"error":18,"name":"NoMemory","revision":%d}\n'


class Slot(ctypes.Structure):
    """What a caller keeps, all zero at first."""
    _fields_ = [("at", ctypes.c_void_p), ("is_open", ctypes.c_bool)]


def built(folder):
    """The library with its heap, as it is loaded."""
    path = os.path.join(folder, "exports.so")
    whole = ["-Wl,--whole-archive", path_for_tests("embedded"), "-Wl,--no-whole-archive"]
    subprocess.run(["cc", "-O1", "-Wall", "-Werror", "-shared", "-fPIC", "-o", path, HEAP, *whole], check=True)
    return ctypes.CDLL(path)


def buffer(text):
    """What a call is given that reads a text: the text and its length."""
    return ctypes.create_string_buffer(text, len(text) or 1), ctypes.c_size_t(len(text))


def written(call, size):
    """What a call gives that writes a text: the status, how long the text is, and what stands in the room."""
    room, length = ctypes.create_string_buffer(b"-" * size, size + 1), ctypes.c_size_t(77)
    status = call(room, ctypes.c_size_t(size), ctypes.byref(length))
    return status, length.value, room.raw[:size].rstrip(b"-")


class Held:
    """One slot, and the calls for it."""

    def __init__(self, library):
        self.library, self.slot = library, Slot()

    def call(self, name, *words, result=ctypes.c_uint32):
        function = getattr(self.library, f"registryd_slot_{name}")
        function.restype = result
        return function(ctypes.byref(self.slot), *words)

    def given(self, name, text, *numbers):
        """A call that is given a text, and then tells numbers."""
        places = [ctypes.c_size_t(number) for number in numbers]
        status = self.call(name, *buffer(text), *map(ctypes.byref, places))
        return (status, *(place.value for place in places)) if numbers else status

    def count(self, name):
        return self.call(name, result=ctypes.c_size_t)

    def take(self, size=10_000):
        room = ctypes.create_string_buffer(size or 1)
        count = self.call("take", room, ctypes.c_size_t(size), result=ctypes.c_size_t)
        return room.raw[:count]

    def text(self, name, size=10_000):
        return written(lambda *room: self.call(name, *room), size)


class Seats:
    """Slots of seats, which are counted from 0, and the calls for them."""

    def __init__(self, library):
        self.library, self.slots = library, (Slot * 65)()

    def call(self, name, *words):
        function = getattr(self.library, f"registryd_{name}")
        function.restype = ctypes.c_uint32
        return function(*words)

    def open(self, count, capacity=8):
        return self.call("seats_open", self.slots, ctypes.c_size_t(count), ctypes.c_size_t(capacity))

    def load(self, text, count=2, capacity=8):
        """The status, and the line at fault."""
        line = ctypes.c_size_t(5)
        status = self.call("seats_load", self.slots, ctypes.c_size_t(count), *buffer(text), ctypes.byref(line),
                           ctypes.c_size_t(capacity))
        return status, line.value

    def recover(self, text, count=2, capacity=8):
        """The status, how many bytes are kept, and the line at fault."""
        kept, line = ctypes.c_size_t(5), ctypes.c_size_t(6)
        given = ctypes.create_string_buffer(text, len(text) or 1), ctypes.c_size_t(len(text))
        status = self.call("seats_recover", self.slots, ctypes.c_size_t(count), *given, ctypes.byref(kept),
                           ctypes.byref(line), ctypes.c_size_t(capacity))
        return status, kept.value, line.value

    def lines(self, seat, behind, size=10_000):
        """The status, how long the lines are, the place, and what stands in the room."""
        room = ctypes.create_string_buffer(b"-" * size, size + 1)
        length, place = ctypes.c_size_t(77), ctypes.c_size_t(88)
        status = self.call("seat_lines", ctypes.byref(self.slots[seat]), ctypes.c_size_t(behind), room,
                           ctypes.c_size_t(size), ctypes.byref(length), ctypes.byref(place))
        return status, length.value, place.value, room.raw[:size].rstrip(b"-")

    def text(self, name, seat, line=None, size=10_000):
        given = [] if line is None else buffer(line)
        return written(lambda *room: self.call(f"seat_{name}", ctypes.byref(self.slots[seat]), *given, *room), size)

    def close(self, seat):
        return self.call("seat_close", ctypes.byref(self.slots[seat]))


@skip_without("cc", "gcc")
class OverHeap(unittest.TestCase):
    """Calls over a heap that counts: whatever was asked for is given back at the end."""

    @classmethod
    def setUpClass(cls):
        cls.library = built(cls.enterClassContext(tempfile.TemporaryDirectory()))

    def number(self, name, of=ctypes.c_size_t):
        return of.in_dll(self.library, name)

    def setUp(self):
        self.number("refused").value = 0
        self.addCleanup(lambda: self.assertEqual(self.number("blocks", ctypes.c_long).value, 0))

    def refuse_each(self, scenario):
        """Runs a scenario with each request for memory refused in turn, until it has no more."""
        for refused in range(1, MOST_REQUESTS):
            self.number("requests").value, self.number("refused").value = 0, refused
            if scenario() == "all" and self.number("requests").value < refused:
                return
        self.fail("there was no end of requests")


class Exports(OverHeap):
    def setUp(self):
        super().setUp()
        self.held = Held(self.library)
        self.addCleanup(lambda: self.held.call("close"))

    def test_a_slot_that_holds_none(self):
        held = self.held
        for _ in range(2):
            self.assertEqual([held.call("close"), held.call("appended"), held.given("feed", LIST)], [MISUSE] * 3)
            self.assertEqual([held.text(name) for name in ("append", "end", "journal")], [(MISUSE, 77, b"")] * 3)
            self.assertEqual((held.count("waiting"), held.count("unsaved"), held.take()), (0, 0, b""))
            self.assertEqual((held.call("open"), held.call("close")), (OK, OK))

    def test_a_reply_waits_until_its_line_is_safe(self):
        held = self.held
        held.given("recover", HEAD, 5, 6)
        held.given("feed", PUBLISH)
        self.assertEqual((held.count("waiting"), held.take(), held.count("unsaved"), held.text("end")),
                         (0, b"", 1, (MISUSE, 77, b"")))
        # no room: nothing is given, so nothing becomes safe
        self.assertEqual((held.text("append", len(PUBLISHED) - 1), held.call("appended"), held.count("unsaved")),
                         ((OK, len(PUBLISHED), b""), OK, 1))
        self.assertEqual((held.text("append", len(PUBLISHED)), held.count("waiting")),
                         ((OK, len(PUBLISHED), PUBLISHED), 0))
        # what is accepted meanwhile was not given
        held.given("feed", PUBLISH.replace(b"1.0.0", b"2.0.0"))
        self.assertEqual((held.call("appended"), held.count("unsaved"), held.take()), (OK, 1, b""))
        self.assertEqual(held.text("append"), (OK, len(PUBLISHED), PUBLISHED.replace(b"1.0.0", b"2.0.0")))
        self.assertEqual((held.call("appended"), held.take()), (OK, ACCEPTED + ACCEPTED.replace(b"1}", b"2}")))
        self.assertEqual(held.text("end"), (OK, 6, b"end 2\n"))

    def test_each_request_for_memory_is_refused(self):
        told = {"none": 0, "short": 0, "broken": 0, "text": 0}
        self.refuse_each(lambda: self.scenario(told))
        self.assertTrue(all(told.values()), told)

    def scenario(self, told):
        """A journal is loaded, fed and told again; answers how that ended."""
        held, whole = self.held, HEAD + PUBLISHED + b"end 1\n"
        try:
            status, line = held.given("load", whole, 5)
            if status:
                self.assertEqual((status, line, held.count("waiting"), held.given("feed", LIST)),
                                 (MEMORY, 5, 0, MISUSE))
                told["none"] += 1
                return "none"
            status, reply = held.given("feed", LIST), held.take()
            if status:
                # from then on it takes no more, and has its journal
                self.assertEqual((status, reply, held.given("feed", LIST), held.take()), (BROKEN, b"", BROKEN, b""))
                told["broken"] += 1
            elif reply != LISTED:
                self.assertEqual(reply, NO_MEMORY % 1)
                told["short"] += 1
            status, length, text = held.text("journal")
            if status:
                self.assertEqual((status, length, text), (MEMORY, 77, b""))
                told["text"] += 1
                self.assertEqual(held.text("journal"), (OK, len(whole), whole))
            else:
                self.assertEqual((length, text), (len(whole), whole))
            return "all"
        finally:
            held.call("close")
            self.assertEqual(self.number("blocks", ctypes.c_long).value, 0)


class SeatExports(OverHeap):
    ACCEPTED = b'{"ok":true,"place":2,"revision":2,"seat":%d}\n'
    LISTED = b'{"packages":[["a",[["1.0.0",false],["2.0.0",false]]]],"place":2,"revision":2,"seat":%d}\n'
    SECOND = PUBLISH.replace(b"1.0.0", b"2.0.0")
    WHOLE = HEAD + PUBLISHED + b"end 1\n"

    def setUp(self):
        super().setUp()
        self.seats = Seats(self.library)
        self.addCleanup(lambda: [self.seats.close(seat) for seat in range(65)])

    def given(self, text):
        return OK, len(text), text

    def test_slots_that_hold_none(self):
        seats = self.seats
        for _ in range(2):
            given = [seats.text("ask", 0, LIST), seats.text("reply", 0), seats.text("journal", 0)]
            self.assertEqual(given, [(MISUSE, 77, b"")] * 3)
            self.assertEqual(seats.lines(0, 0), (MISUSE, 77, 88, b""))
            self.assertEqual((seats.close(0), seats.open(2), seats.close(1), seats.close(0)), (MISUSE, OK, OK, OK))

    def test_what_can_not_be_opened(self):
        seats = self.seats
        for count, capacity in ((0, 8), (65, 8), (1, 0), (1, 65_537)):
            loaded = seats.load(self.WHOLE, count, capacity)
            self.assertEqual((seats.open(count, capacity), loaded), (MISUSE, (MISUSE, 5)))
            self.assertEqual(seats.recover(self.WHOLE, count, capacity), (MISUSE, 5, 6))
        self.assertEqual((seats.open(64, 65_536), seats.open(64)), (OK, MISUSE))
        self.assertEqual(seats.load(self.WHOLE, 64), (MISUSE, 5))
        # one that holds a seat is enough
        self.assertEqual([seats.close(seat) for seat in range(63)], [OK] * 63)
        self.assertEqual((seats.open(64), seats.open(63, 1)), (MISUSE, OK))

    def test_a_reply_is_kept_and_a_command_done_once(self):
        seats, reply = self.seats, b'{"ok":true,"place":1,"revision":1,"seat":1}\n'
        self.assertEqual((seats.open(2), seats.text("reply", 0)), (OK, self.given(b"")))
        for size, left in ((0, b""), (len(reply) - 1, b""), (len(reply), reply)):
            given = seats.text("reply", 0, size=size) if size else seats.text("ask", 0, PUBLISH, size)
            self.assertEqual(given, (OK, len(reply), left))
        self.assertEqual(seats.text("journal", 1), self.given(self.WHOLE))
        self.assertEqual(seats.text("journal", 0, size=5), (OK, len(self.WHOLE), b""))
        self.assertEqual(seats.text("reply", 0), self.given(reply))

    def test_a_journal_at_fault_and_one_that_is_too_long(self):
        seats = self.seats
        self.assertEqual(seats.load(HEAD + PUBLISHED * 2 + b"end 2\n"), (JOURNAL, 3))
        self.assertEqual(seats.load(HEAD), (JOURNAL, 2))
        both = HEAD + PUBLISHED + PUBLISHED.replace(b"1.0.0", b"2.0.0") + b"end 2\n"
        self.assertEqual((seats.load(both, 1, 1), seats.load(both, 1, 2)), ((FULL, 5), (OK, 5)))
        self.assertEqual(seats.text("journal", 0), self.given(both))

    def test_the_lines_behind_a_place(self):
        seats, second = self.seats, PUBLISHED.replace(b"1.0.0", b"2.0.0")
        both = PUBLISHED + second
        self.assertEqual((seats.open(2), seats.lines(0, 0), seats.lines(0, 1)),
                         (OK, (OK, 0, 0, b""), (MISUSE, 77, 88, b"")))
        reply = seats.text("ask", 0, PUBLISH)
        seats.text("ask", 1, self.SECOND)
        # the first seat has not looked since
        self.assertEqual(seats.lines(0, 3), (MISUSE, 77, 88, b""))
        for seat in range(2):
            given = [seats.lines(seat, behind) for behind in range(4)]
            self.assertEqual(given, [(OK, len(both), 2, both), (OK, len(second), 2, second), (OK, 0, 2, b""),
                                     (MISUSE, 77, 88, b"")])
        self.assertEqual((seats.lines(0, 1, len(second)), seats.lines(0, 1, len(second) - 1), seats.lines(0, 0, 0)),
                         ((OK, len(second), 2, second), (OK, len(second), 2, b""), (OK, len(both), 2, b"")))
        self.assertEqual(seats.text("reply", 0), reply)

    def test_a_kept_journal_that_was_cut_short(self):
        seats, held, whole = self.seats, Held(self.library), HEAD + PUBLISHED + PUBLISHED.replace(b"1.0.0", b"2.0.0")
        for text in [whole[:size] for size in range(len(whole) + 1)] + [self.WHOLE, b"x", HEAD + b"x\n" + PUBLISHED]:
            self.assertEqual(seats.recover(text), held.given("recover", text, 5, 6))
            status, length, given = held.text("journal")
            self.assertEqual(seats.text("journal", 0), (status, length, given))
            if status == OK:
                lines = given[len(HEAD):given.index(b"end ")]
                self.assertEqual(seats.lines(0, 0), (OK, len(lines), lines.count(b"\n"), lines))
            self.assertEqual([seats.close(1), seats.close(0)], [held.call("close")] * 2)
        self.assertEqual(seats.recover(whole, 1, 1), (FULL, 5, 6))
        self.assertEqual((seats.recover(whole, 1, 2), seats.recover(whole)), ((OK, len(whole), 6), (MISUSE, 5, 6)))

    def test_each_request_for_memory_of_a_kept_journal_is_refused(self):
        told = {"none": 0, "lines": 0}
        refused = self.refuse_each(lambda: self.kept_scenario(told))
        self.assertTrue(all(told.values()), told)
        print(f"({refused} requests: {told}) ", end="")

    def kept_scenario(self, told):
        """Two seats begin with what was kept, and one gives its lines; answers how that ended."""
        seats, text = self.seats, HEAD + PUBLISHED
        try:
            given = seats.recover(text + b"x")
            if given[0]:
                self.assertEqual((given, seats.close(0), seats.close(1)), ((MEMORY, 5, 6), MISUSE, MISUSE))
                told["none"] += 1
                return "none"
            self.assertEqual(given, (OK, len(text), 6))
            given = seats.lines(1, 0)
            if given[0]:
                self.assertEqual(given, (MEMORY, 77, 88, b""))
                told["lines"] += 1
                given = seats.lines(1, 0)
            self.assertEqual(given, (OK, len(PUBLISHED), 1, PUBLISHED))
            return "all"
        finally:
            seats.close(0)
            seats.close(1)
            self.assertEqual(self.number("blocks", ctypes.c_long).value, 0)

    def test_each_request_for_memory_is_refused(self):
        told = {"none": 0, "short": 0, "owed": 0, "text": 0}
        self.refuse_each(lambda: self.scenario(told))
        self.assertTrue(all(told.values()), told)

    def answered(self, seat, line, reply, told):
        """A line is answered by this reply, or by error 18 in its place; where there was no memory for that, it is
        there the next time."""
        status, length, text = self.seats.text("ask", seat, line)
        if status:
            self.assertEqual((status, length, text), (MEMORY, 77, b""))
            told["owed"] += 1
            status, length, text = self.seats.text("reply", seat)
        self.assertEqual((status, length), (OK, len(text)))
        if text == reply:
            return True
        short = b'{"error":18,"name":"NoMemory","place":%d,"revision":%d,"seat":%d}\n'
        self.assertIn(text, [short % (place, place, seat + 1) for place in range(3)])
        told["short"] += 1
        return False

    def scenario(self, told):
        """Two seats over a journal publish, list and give it back; answers how that ended."""
        seats = self.seats
        try:
            status, line = seats.load(self.WHOLE)
            if status:
                self.assertEqual((status, line, seats.close(0), seats.close(1)), (MEMORY, 5, MISUSE, MISUSE))
                told["none"] += 1
                return "none"
            if not self.answered(1, self.SECOND, self.ACCEPTED % 2, told):
                self.assertTrue(self.answered(1, self.SECOND, self.ACCEPTED % 2, told))
            self.answered(0, LIST, self.LISTED % 1, told)
            whole = HEAD + PUBLISHED + PUBLISHED.replace(b"1.0.0", b"2.0.0") + b"end 2\n"
            given = seats.text("journal", 0)
            if given[0]:
                self.assertEqual(given, (MEMORY, 77, b""))
                told["text"] += 1
                given = seats.text("journal", 0)
            self.assertEqual(given, self.given(whole))
            return "all"
        finally:
            seats.close(0)
            seats.close(1)
            self.assertEqual(self.number("blocks", ctypes.c_long).value, 0)
