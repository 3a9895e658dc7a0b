"""`registry check`: the table `rows/checks.rows`, the program as the judge of which number is told, and the words of
the command."""
import os
import random
import unittest
from urllib.parse import unquote_to_bytes

from dev.long import fuzz_check
from registryd_lines.judging import faults
from registryd_lines.nearest import distance, nearest
from tests.program.test_check_derivation import rows as rows_of
from tests.support.program import TOP, publish

LIMIT = 1_048_576


def in_words(line):
    """The faults of a line as the command tells them, without the file and the line."""
    return [f"{it.place + 1}: error {it.number} {it.name}: {it.told}" for it in faults(line)]


def rows():
    """The lines of the table, each with its place there and the faults that are wanted."""
    found = []
    with open(os.path.join(TOP, "rows", "checks.rows"), encoding="utf-8") as table:
        for number, row in enumerate(table, 1):
            row = row.removesuffix("\n")
            if row.startswith("  "):
                found[-1][2].append(row[2:])
            elif row and not row.startswith("# "):
                found.append((number, unquote_to_bytes(row[2:]) if row.startswith("% ") else row.encode(), []))
    return found


class Lines(unittest.TestCase):
    def test_the_table(self):
        held = rows()
        self.assertGreater(len(held), 90)
        for place, line, wanted in held:
            with self.subTest(f"rows/checks.rows:{place}"):
                self.assertEqual(in_words(line), wanted)

    def test_the_program_answers_the_first_number_of_each_line_of_the_table(self):
        held = rows()
        wanted = [int(it[0].split("error ")[1].split(" ")[0]) if it else 0 for _, _, it in held]
        self.assertEqual(fuzz_check.answered([line for _, line, _ in held]), wanted)

    def test_lines_of_no_bytes_and_of_too_many(self):
        for line, wanted in (
                (b"", ["1: error 19 BadLine: the line is empty"]),
                (b'{"op":"list"}' + b" " * (LIMIT - 13), []),
                (b'{"op":"list"}' + b" " * (LIMIT - 12),
                 ["1: error 19 BadLine: the line has more than 1,048,576 bytes"])):
            with self.subTest(line[:40]):
                self.assertEqual(in_words(line), wanted)
                self.assertEqual(fuzz_check.answered([line]), [19 if wanted else 0])

    def test_what_a_terminal_would_obey_is_shown_as_escapes(self):
        (fault, *_) = faults(b'{"op":"yank","name":"\\u001b[31m\\u202e","version":"1.0.0"}')
        self.assertTrue(fault.what.isprintable(), fault.what)
        self.assertIn('"\\u001b[31m\\u202e"', fault.what)

    def test_a_need_too_many(self):
        needs = [f"n{number} *" for number in range(66)]
        line = publish("a", "1.0.0", needs)
        self.assertEqual(in_words(line.encode()), [f"{line.index('n64') }: error 6 TooManyDependencies: 66 needs; the "
                                                   "limit is 64"])
        self.assertEqual(in_words(publish("a", "1.0.0", needs[:64]).encode()), [])

    def test_damaged_lines(self):
        counts, finds = {}, []
        for seed in range(6):
            count, found = fuzz_check.tried(seed, 400)
            counts, finds = {**counts, **{it: counts.get(it, 0) + count[it] for it in count}}, finds + found
        self.assertEqual(finds, [])
        self.assertEqual(set(counts), {0, *fuzz_check.COMPARED}, "a number was never answered")
        self.assertGreater(sum(counts.values()), 3000)

    def test_what_was_meant_ends_the_fault(self):
        """Of each line of the table with one fault, what was meant instead of a text is taken by the program in its
        place."""
        lines, counted = [], 0
        for _, line, wanted in rows():
            edit = faults(line)[0].edit if len(wanted) == 1 else None
            if edit and edit[2]:
                text = line.decode(errors="surrogateescape")
                lines.append((text[:edit[0]] + edit[2] + text[edit[1]:]).encode(errors="surrogateescape"))
        for line, number in zip(lines, fuzz_check.answered(lines)):
            counted += number == 0
        # what is left are lines of which a part is missing, or has a second fault that is only seen behind the first
        self.assertGreaterEqual(counted, len(lines) * 2 // 3,
                                [line for line, number in zip(lines, fuzz_check.answered(lines)) if number])


def plain_distance(one, other):
    """How many edits lead from one word to the other, by the table of all their beginnings."""
    least = {}
    for i in range(len(one) + 1):
        for j in range(len(other) + 1):
            ways = [i + j] if not i or not j else [least[i - 1, j] + 1, least[i, j - 1] + 1,
                                                   least[i - 1, j - 1] + (one[i - 1] != other[j - 1])]
            if i > 1 and j > 1 and one[i - 2:i] == other[j - 2:j][::-1]:
                ways.append(least[i - 2, j - 2] + 1)
            least[i, j] = min(ways)
    return least[len(one), len(other)]


class Nearest(unittest.TestCase):
    def test_edits(self):
        for row in rows_of("nearest.txt"):
            word, words, wanted = row.split(" | ")
            with self.subTest(row):
                self.assertEqual(nearest(word, words.split()), None if wanted == "none" else wanted)

    def test_distances_against_a_plain_count(self):
        rng = random.Random(1)
        for _ in range(3000):
            one, other = ("".join(rng.choice("abc") for _ in range(rng.randrange(7))) for _ in range(2))
            for most in (0, 1, 2, 3):
                self.assertEqual(min(distance(one, other, most), most + 1), min(plain_distance(one, other), most + 1),
                                 (one, other, most))

    def test_among_as_many_names_as_there_may_be(self):
        names = [f"package-{number:05}" for number in range(65_534)] + ["serialize"]
        self.assertEqual(nearest("serialise", names), "serialize")
        self.assertIsNone(nearest("something-else", names))
