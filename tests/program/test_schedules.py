"""A hundred races of generated files on one processor, on two and on four, with random pauses, each judged by its
printed journal. `dev/long/race_many.py` runs more."""
import tempfile
import unittest

from dev.long import race_many
from tests.program.test_journals import learn
from tests.program.test_race import raced
from tests.support import plain_race
from tests.support.program import LIST, journal_line, publish, resolve, skip_without, yank

# Two files that ask for the same, in other orders; what is learnt of the requests takes places too.
RIVALS = [
    [publish("foo", "2.0.0", ["bar ^1.0.0"]), publish("bar", "1.0.0", ["foo ^1.0.0"]), publish("foo", "1.0.0"),
     resolve("foo >=1.0.0"), LIST],
    [publish("bar", "1.0.0", ["foo ^1.0.0"]), publish("a", "1.0.0"), yank("a", "1.0.0"), resolve("a *", explain=True),
     resolve("foo >=1.0.0")],
]


@skip_without("cc", "gcc")
class Schedules(unittest.TestCase):
    LONGEST = 300  # on a busy machine

    def test_a_hundred_races(self):
        with tempfile.TemporaryDirectory() as folder:
            pausing, lines, entries = race_many.library(folder), 0, 0
            for seed in range(100):
                asked, entered, find = race_many.tried(seed, pausing)
                self.assertIsNone(find)
                lines, entries = lines + asked, entries + entered
        self.assertGreater(min(lines, entries), 1000)


def told(*lines, journal):
    """What is printed where these are the replies, each at its place, and this is the journal."""
    return "\n".join([*lines, plain_race.FIRST, *journal, f"end {len(journal)}", ""])


class Judging(unittest.TestCase):
    """What a race may not print is told as wrong."""

    def test_what_is_printed_without_a_line_or_in_another_order(self):
        files, printed = [[line.encode() for line in lines] for lines in RIVALS], raced(*RIVALS)
        self.assertGreater(plain_race.judge(files, printed), 5)
        lines = printed.split("\n")
        first = lines.index(plain_race.FIRST) + 1
        wrong = [[*lines[:at], *lines[at + 1:]] for at in range(len(lines) - 1)]
        wrong += [[*lines[:at], lines[at + 1], lines[at], *lines[at + 2:]] for at in range(first, len(lines) - 3)]
        for it in wrong:
            with self.assertRaises(plain_race.RaceFault, msg=it):
                plain_race.judge(files, "\n".join(it))

    def test_each_fault_is_told(self):
        a, b = publish("a", "1.0.0"), publish("b", "1.0.0")
        entry, other, yanked = map(journal_line, (a, b, yank("a", "1.0.0")))
        before, behind = ('{"packages":[%s],"place":%d,"revision":%d,"seat":1}' % it
                          for it in (("", 0, 0), ('["a",[["1.0.0",false]]]', 1, 1)))
        own, second = ('{"ok":true,"place":1,"revision":1,"seat":%d}' % seat for seat in (1, 2))
        right = told(own, journal=[entry])
        # the files, what is printed, and what is told of it; nothing where all is well
        for files, printed, fault in (
                ([[a]], right, None), ([[LIST, LIST], [a]], told(before, behind, second, journal=[entry]), None),
                ([[a]], right[:-1], "the last line is not ended"), ([[a]], "", "a line has no reply"),
                ([[a]], own + "\n", "a journal is printed as [] .. []"),
                ([[a]], right.replace("journal 2", "journal 1"),
                 "a journal is printed as ['registry-journal 1'] .. ['end 1']"),
                ([[a]], right.replace("end 1", "end 2"), "a journal is printed as ['registry-journal 2'] .. ['end 2']"),
                *(([[a]], told(reply, journal=[entry]), f"seat 1 is told {reply}") for reply in (
                    '{"ok":true,"revision":1,"seat":1}', '{"ok":true,"place":true,"revision":1,"seat":1}',
                    second, "[1]")),
                # each reply by itself is right at its place
                ([[LIST, LIST], [a]], told(behind, before, second, journal=[entry]),
                 f"seat 1 was at place 1, and then answers {LIST} at place 0"),
                ([[LIST, a]], told(behind, own, journal=[entry]),
                 f"seat 1 was at place 1, and then answers {a} at place 1"),
                ([[a], [b]], told(own, second, journal=[entry]), "two commands are accepted at place 1"),
                ([[a]], right.replace('"place":1', '"place":2'), "a reply is of a place behind the journal's end"),
                ([[a]], told(own, journal=[yanked]), f"entry 1 is at fault: {yanked}"),
                ([[LIST]], told(before, journal=[entry]), "no seat was told that its command stands at place 1"),
                ([[a]], told(own, journal=[other]), f"at place 1 stands {other}, told {a}"),
                ([[LIST]], told(before.replace('"revision":0', '"revision":1'), journal=[]),
                 f'seat 1 at place 0: {LIST}\n answered {{"packages":[],"revision":1}}\n '
                 'wanted {"packages":[],"revision":0}'),
                ([[a]], told(own.replace('"ok":true', '"error":18,"name":"NoMemory"'), journal=[entry]),
                 f'seat 1 at place 1: {a}\n answered {{"error":18,"name":"NoMemory","revision":1}}\n '
                 'wanted {"ok":true,"revision":1}')):
            found = None
            try:
                plain_race.judge([[line.encode() for line in lines] for lines in files], printed)
            except plain_race.RaceFault as raised:
                found = str(raised)
            self.assertEqual(found, fault, printed)

    def test_what_was_learnt_where_a_command_is_told(self):
        chain = [publish("a", "1.0.0", ["b ^1.0.0"]), publish("b", "1.0.0", ["c ^1.0.0"]), publish("c", "1.0.0"),
                 publish("d", "1.0.0")]
        accepted = ['{"ok":true,"place":%d,"revision":%d,"seat":1}' % (number, number) for number in range(1, 5)]
        entries = [journal_line(line) for line in chain]
        files = [[line.encode() for line in chain]]
        self.assertEqual(plain_race.judge(files, told(*accepted, journal=entries)), 4)
        with self.assertRaisesRegex(plain_race.RaceFault,
                                    "at place 4 a command is told as accepted, and what was learnt stands there"):
            plain_race.judge(files, told(*accepted, journal=[*entries[:3], learn(0)]))
