"""What becomes of the requests of readers that are slow or are ended, by calls of them with programs that answer what
the test has them answer, at a time that the test sets."""
import asyncio
import random
import unittest
from collections import deque
from types import SimpleNamespace
from unittest import mock

from registry_service import child, client, readers

GIVEN = SimpleNamespace(seconds=10, workers=1, budget=None, readers=2)


class Program:
    """Stands for a reader's program: it has the lines that it was asked, and a processor for a tenth of the time."""

    def __init__(self, case):
        self.case, self.lines, self.is_killed, self.spent = case, deque(), False, lambda: case.time / 10

    def ask(self, line, answered):
        if not self.lines:
            self.since = self.case.time  # of its first line
        self.lines.append((line, answered))

    def answer(self, reply):
        self.since = self.case.time
        self.lines.popleft()[1](reply)

    def kill(self):
        self.is_killed = True


class Asker:
    def __init__(self, pool):
        self.told, self.has_gone, self.is_slow, self.takes_commands, self.asked = [], False, False, True, [None]
        watch = SimpleNamespace(answered=lambda asked, _: self.told.append((asked.line, asked.reply)))
        self.service = SimpleNamespace(now=pool.now, watch=watch, keeper=pool.keeper)
        self.transport = SimpleNamespace(is_closing=lambda: self.has_gone)


class Case(unittest.TestCase):
    SPENT = b'{"error":22,"name":"BudgetSpent","revision":7}'

    def setUp(self):
        self.enterContext(mock.patch.object(readers, "has_left", lambda of: of.has_gone))
        self.pool = self.pool_of(2)
        self.patient, self.quick = self.pool.readers
        self.one, self.two, self.three = (Asker(self.pool) for _ in range(3))

    def pool_of(self, count):
        self.time = 100.0
        loop = SimpleNamespace(time=lambda: self.time, call_later=lambda *_: None)
        keeper = SimpleNamespace(revision=7, followers=[])
        with mock.patch.object(asyncio, "get_running_loop", lambda: loop):
            pool = readers.Readers("", None, keeper, SimpleNamespace(**{**vars(GIVEN), "readers": count}))
        for it in pool.readers:
            it.child, it.is_up = Program(self), True
        return pool

    def ask(self, *requests, op="resolve"):
        for of, line in requests:
            self.pool.ask(client.Asked(of, line, op))

    def pass_time(self, seconds):
        """Looks at what is asked now, and again after so long."""
        self.pool.look()
        self.time += seconds
        self.pool.look()

    def begin_again(self, reader):
        """What follows once a reader's program has ended."""
        reader.is_up = False
        reader.lost()
        reader.child, reader.is_up = Program(self), True
        self.pool.share()

    @staticmethod
    def lines(*of):
        return [[line for line, _ in it.child.lines] for it in of]


class Slow(Case):
    def test_the_limit_counts_from_when_it_came(self):
        """Whether a reader was at it all the time or not."""
        self.ask((self.one, b"first"), (self.two, b"second"))
        self.time += 3
        self.patient.child.answer(b"a reply")
        self.quick.child.answer(b"a reply")
        self.quick.is_up = False  # so all wait for the other one
        self.ask((self.one, b"third"), (self.two, b"fourth"))
        self.pass_time(6)
        self.patient.child.answer(b"a reply")
        assert self.lines(self.patient) == [[b"fourth"]]
        self.pass_time(3.9)
        assert (self.two.told[1:], self.patient.child.is_killed) == ([], False)
        self.pass_time(0.2)
        assert (self.two.told[1:], self.patient.child.is_killed) == ([(b"fourth", self.SPENT)], True)

    def test_what_waits_is_told_at_the_limit_too(self):
        self.quick.is_up = False
        for op, reply in (("resolve", self.SPENT), ("list", b'{"error":503,"name":"Unavailable","revision":7}')):
            self.ask((self.one, b"first"))
            self.ask((self.two, b"second"), op=op)
            self.pass_time(10)
            assert self.two.told == []
            self.pass_time(0.3)
            assert (self.two.told.pop(), len(self.pool.waiting)) == ((b"second", reply), 0)
            self.begin_again(self.patient)

    def test_what_is_late_since_the_machine_is_busy_is_not_slow(self):
        """Its program had no processor: what waits would wait as long for the next one."""
        for effort, is_slow in ((0.02, False), (0.03, True)):
            self.ask((self.one, b"first"), (self.two, b"second"), (self.three, b"third"))
            self.quick.child.spent = iter([5.0, 5.0 + effort]).__next__
            self.pass_time(5)
            assert (self.quick.child.is_killed, self.two.is_slow) == (is_slow, is_slow)
            if not is_slow:
                self.patient.child.answer(b"a reply")
                self.quick.child.answer(b"a reply")
                self.patient.child.answer(b"a reply")

    def test_one_that_is_slow_leaves_the_last_reader_to_others(self):
        self.ask((self.one, b"first"), (self.two, b"second"))
        assert self.lines(self.patient, self.quick) == [[b"first"], [b"second"]]
        self.pass_time(5)
        # while nothing waits it may go on
        assert not self.quick.child.is_killed
        self.ask((self.three, b"easy"))
        self.pass_time(0.05)
        assert (self.quick.child.is_killed, self.patient.child.is_killed, self.two.told) == (True, False, [])
        self.begin_again(self.quick)
        assert (self.lines(self.quick), [it.line for it in self.pool.waiting]) == ([[b"easy"]], [b"second"])
        self.quick.child.answer(b"a reply")
        assert (self.three.told, self.lines(self.quick)) == ([(b"easy", b"a reply")], [[]])
        # it is asked of the other one, and its limit is what it was
        self.patient.child.answer(b"a reply")
        assert self.lines(self.patient) == [[b"second"]]
        self.pass_time(5)
        assert self.two.told == [(b"second", self.SPENT)]

    def test_a_client_whose_last_request_was_slow_is_kept_from_the_last_reader(self):
        self.ask((self.one, b"first"))
        self.pass_time(3)
        self.patient.child.answer(b"a reply")
        assert self.one.is_slow
        self.ask((self.two, b"second"), (self.one, b"third"))
        assert (self.lines(self.patient, self.quick), len(self.pool.waiting)) == ([[b"second"], []], 1)
        # that only such ones wait ends nobody's search
        self.ask((self.three, b"slow"))
        self.pass_time(1)
        assert not self.quick.child.is_killed
        self.patient.child.answer(b"a reply")
        assert self.lines(self.patient) == [[b"third"]]
        # until it asks what is not slow
        self.patient.child.answer(b"a reply")
        assert not self.one.is_slow

    def test_time_to_be_fed_is_not_the_requests(self):
        """What a reader is at is known by what it has answered: the commands before a request are not part of it."""
        self.quick.feed(b"command")
        self.patient.is_up = False
        self.ask((self.one, b"first"), (self.two, b"second"))
        self.pass_time(0.2)
        self.quick.child.answer(b'{"ok":true,"revision":8}')
        self.pass_time(0.2)
        assert not self.quick.child.is_killed
        self.pass_time(0.1)
        assert self.quick.child.is_killed


class Asking(Case):
    def test_what_each_is_asked(self):
        """One at a time, but for the last of several: that has four at most, and takes more once these are answered."""
        self.pool = self.pool_of(3)
        first, second, last = self.pool.readers
        self.ask(*((Asker(self.pool), b"%d" % number) for number in range(9)))
        assert self.lines(first, second, last) == [[b"0"], [b"1"], [b"2"]]
        last.child.answer(b"a reply")
        assert self.lines(last) == [[b"3", b"4", b"5", b"6"]]
        last.child.answer(b"a reply")
        assert self.lines(last) == [[b"4", b"5", b"6"]]
        first.child.answer(b"a reply")
        assert self.lines(first, second, last) == [[b"7"], [b"1"], [b"4", b"5", b"6"]]


class AtRandom(Case):
    """Clients whose requests take what a random number says, with programs for which time passes in steps."""
    BEGIN = 0.1  # seconds in which a program begins

    def test_whoever_asks_nothing_slow_waits_little(self):
        for seed in range(10):
            rng = random.Random(f"readers {seed}")
            self.pool = self.pool_of(rng.choice([2, 2, 3]))
            waits = self.run_for(rng, hard=[Asker(self.pool) for _ in range(rng.randrange(1, 6))],
                                 easy=[Asker(self.pool) for _ in range(2)])
            # for each of the hard clients: until it is known to be slow, a look, and a beginning; and each once more,
            # which waited in vain
            assert max(waits) < 2 * 5 * (readers.PATIENCE + 0.05 + self.BEGIN), seed
            assert len(waits) > 50, seed

    def run_for(self, rng, hard, easy):
        """A minute; answers how long each easy request waited."""
        spent, ends, back, waits, asked = {}, self.time + 60, {}, [], dict.fromkeys((*hard, *easy), 0)
        while self.time < ends:
            for of in (*hard, *easy):
                if len(of.told) == asked[of] and (of in hard or rng.random() < 0.2):
                    line = b"%d %d" % (id(of), asked[of])
                    spent[line] = (rng.choice([0.3, 1.0, 2.5, 1e9]) if of in hard else 0.01), self.time
                    asked[of] += 1
                    self.ask((of, line))
            before = {of: len(of.told) for of in easy}
            self.run_programs(spent, back)
            self.pass_time(0.05)
            for of in easy:
                for line, reply in of.told[before[of]:]:
                    assert reply == b"a reply"
                    waits.append(self.time - spent[line][1])
        return waits

    def run_programs(self, spent, back):
        """A step of the programs: one that was ended begins again, else it answers what it worked at long enough."""
        for it in self.pool.readers:
            if it.child.is_killed:
                if self.time >= back.setdefault(it, self.time + self.BEGIN):
                    del back[it]
                    self.begin_again(it)
            while it.is_up and it.child.lines and self.time - it.child.since >= spent[it.child.lines[0][0]][0]:
                it.child.answer(b"a reply")


class Fed(Case):
    def test_a_reader_that_refuses_what_was_accepted_answers_nothing_more(self):
        """Else what came from it together with the refusal would be answered without that command."""
        made, told = child.Child.__new__(child.Child), []
        made.pieces, made.is_killed, made.process = [], False, SimpleNamespace(kill=lambda: None)
        reader = self.patient
        reader.child = made
        made.input, made.waiting = SimpleNamespace(is_closing=lambda: False, write=lambda line: None), deque()
        reader.feed(b"command")
        made.ask(b"request", told.append)
        made.data_received(b'{"error":14,"name":"NoMemory","revision":7}\n{"packages":[],"revision":7}\n')
        assert (made.is_killed, told) == (True, [])
