"""Files of lines that race for one journal: what they print, and how that ends."""
import json
import tempfile
import unittest
from pathlib import Path

from registry_cli.limits import MOST_CELLS, MOST_FILES, MOST_LINE_BYTES, MOST_VERSIONS
from tests.support import plain_race
from tests.support.program import LIST, publish, resolve, run, unyank, yank

ACCEPTED = '{"ok":true,"place":1,"revision":1,"seat":%d}'
REPEATED = '{"error":7,"name":"AlreadyPublished","place":1,"revision":1,"seat":%d}'
JOURNAL = ["registry-journal 2", '{"name":"a","needs":[],"op":"publish","version":"1.0.0"}', "end 1"]


def raced_bytes(*texts):
    """What a race of files with these bytes prints."""
    with tempfile.TemporaryDirectory() as folder:
        paths = [Path(folder, str(number)) for number in range(len(texts))]
        for path, text in zip(paths, texts):
            path.write_bytes(text)
        done = run(["race", *map(str, paths)])
    assert (done.returncode, done.stderr) == (0, b"")
    return done.stdout.decode()


def raced(*files):
    """What a race of files of these lines prints."""
    return raced_bytes(*("".join(f"{line}\n" for line in lines).encode() for lines in files))


class Race(unittest.TestCase):
    def judged(self, *files):
        """The replies of each file's lines, and the lines of the journal, which the plain race has found right."""
        printed = raced(*files)
        entries = plain_race.judge([[line.encode() for line in lines] for lines in files], printed)
        lines = iter(printed.split("\n"))
        replies = [[next(lines) for _ in asked] for asked in files]
        journal = [*lines][:-1]
        self.assertEqual(journal[-1], f"end {entries}")
        return replies, journal

    def test_two_files_of_one_line(self):
        outputs = [[ACCEPTED % 1, REPEATED % 2, *JOURNAL, ""], [REPEATED % 1, ACCEPTED % 2, *JOURNAL, ""]]
        for _ in range(100):
            self.assertIn(raced([publish("a", "1.0.0")], [publish("a", "1.0.0")]).split("\n"), outputs)

    def test_each_of_800_publications_once(self):
        _, journal = self.judged(*([publish(f"p{file}-{line % 7}", f"1.{line}.0", [f"q{line % 5} ^1"])
                                    for line in range(100)] for file in range(8)))
        self.assertEqual(journal[-1], "end 800")

    def test_the_journal_gives_the_same_replies(self):
        """Each reply of a race is what one session answers after the entries before its place."""
        replies, _ = self.judged([publish(f"a{k % 3}", f"1.{k}.0", ["b ^1"] if k % 2 else []) for k in range(40)],
                                 [publish(f"a{k % 3}", f"1.{k}.0") for k in range(40)],
                                 [turn(f"a{k % 3}", f"1.{k}.0") for k in range(20) for turn in (yank, unyank)])
        self.assertTrue(any('"error"' in reply for told in replies for reply in told))

    def test_a_budget_of_conflicts(self):
        # foo 2.0.0 is ruled out by one conflict, each time in a race of its own
        lines = [publish("foo", "2.0.0", ["bar ^1.0.0"]), publish("bar", "1.0.0", ["foo ^1.0.0"]),
                 publish("foo", "1.0.0")]
        found = '{"place":3,"revision":3,"seat":1,"selected":[["foo","1.0.0"]]}'
        spent = '{"error":22,"name":"BudgetSpent","place":3,"revision":3,"seat":1}'
        for budget, reply in ((None, found), (0, spent), (1, found), (4_294_967_295, found)):
            replies, _ = self.judged([*lines, resolve("foo >=1.0.0", budget=budget)])
            self.assertEqual(replies[0][3:], [reply])

    def test_a_seat_that_is_told_nothing_sees_what_others_enter(self):
        # a file that only asks finds both publications in the end, by each way to ask; which line does is left open
        both, asking = [publish("a", "1.0.0"), publish("b", "1.0.0")], [LIST, resolve("b *"), resolve("b *", budget=0)]
        for line in asking:
            self.assertTrue(any('"place":2' in raced(both, [line] * 4000).split("\n")[4001] for _ in range(100)), line)

    def test_files_are_answered_side_by_side(self):
        # neither file's publications all come before those of the other
        files = [[publish(f"p{file}", f"1.{line}.0") for line in range(1000)] for file in range(2)]
        for _ in range(100):
            names = [json.loads(entry)["name"] for entry in raced(*files).split("\n")[2001:-2]]
            if names not in (sorted(names), sorted(names, reverse=True)):
                break
        else:
            self.fail("one file was answered after the other, each time")

    def test_lines_at_their_edges(self):
        # an empty line, a line over the limit, a last line without its line feed, an empty file
        bad = '{"error":19,"name":"BadLine","place":0,"revision":0,"seat":1}\n'
        self.assertEqual(raced_bytes(b"\n" + b"x" * (MOST_LINE_BYTES + 1) + b"\n" + LIST.encode(), b""),
                         bad + bad + '{"packages":[],"place":0,"revision":0,"seat":1}\nregistry-journal 2\nend 0\n')

    def test_a_full_row(self):
        lines = [publish(f"p{n // MOST_VERSIONS}", f"1.{n % MOST_VERSIONS}.0") for n in range(MOST_CELLS + 2)]
        printed = raced([*lines, lines[0]]).split("\n")
        stands = f'"place":{MOST_CELLS},"revision":{MOST_CELLS},"seat":1}}'
        full = '{"error":10,"name":"JournalFull",' + stands
        self.assertEqual(printed[MOST_CELLS - 1:MOST_CELLS + 3], [
            '{"ok":true,' + stands, full, full, full.replace('10,"name":"JournalFull"', '7,"name":"AlreadyPublished"')])
        self.assertEqual(printed[-2], f"end {MOST_CELLS}")

    def test_as_many_files_as_may_be(self):
        _, journal = self.judged(*([publish("a", f"1.{n}.0")] for n in range(MOST_FILES)))
        self.assertEqual(journal[-1], f"end {MOST_FILES}")
