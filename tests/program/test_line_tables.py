"""The tables of lines under `rows/` and those that are made here: each is a session or a race, whose replies are
exactly those that stand in it. `tables.py` says how a table is written."""
import os
import tempfile
import unittest

from tests.support import generated_lines
from tests.support.program import SERVE, run
from tests.support.tables import Table, tables_in, tables_under


class Tables(unittest.TestCase):
    def compare(self, table, done, wanted):
        """The program ended well and printed these lines. Else the first line that differs is told with its place."""
        self.assertEqual((done.returncode, done.stderr), (0, b""), f"{table.place}: {table.title}")
        printed = done.stdout.decode().split("\n")
        self.assertEqual(printed.pop(), "", f"{table.place}: the last line is not ended")
        for (line, reply, place), told in zip(table.rows, printed):
            self.assertEqual(told, reply, f"\n{place}: {line[:1000]}\n{table.title}")
        self.assertEqual(printed[len(table.rows):], wanted[len(table.rows):], f"\n{table.place}: {table.title}")
        self.assertEqual(printed, wanted, f"\n{table.place}: {table.title}")

    def inputs(self, table):
        """The lines of a table, and the same without the last line feed where that loses no line."""
        text = table.requests()
        return [text, text[:-1]] if table.rows and table.rows[-1][0] else [text]

    def test_sessions(self):
        tables = tables_under("lines")
        for table in tables:
            self.assertFalse(table.journal, f"{table.place}: a session has no journal")
            for text in self.inputs(table):
                with self.subTest(table.place):
                    self.compare(table, run(SERVE, text), table.replies())

    def race(self, table, text):
        """What a race leaves in which this text is the file of the table's seat, and the files before it are empty."""
        with tempfile.TemporaryDirectory() as folder:
            paths = [os.path.join(folder, str(number)) for number in range(table.seat)]
            for path in paths:
                with open(path, "wb") as out:
                    out.write(text if path == paths[-1] else b"")
            return run(["race", *paths])

    def test_races_of_one_file(self):
        tables = tables_under("races")
        for table in tables:
            for text in self.inputs(table):
                with self.subTest(table.place):
                    self.compare(table, self.race(table, text), [*table.replies(), *table.journal])

    def test_generated_sessions(self):
        for name, title, rows in generated_lines.sessions():
            table = Table(title, name)
            table.rows = [(line, reply, f"{name}, line {number}") for number, (line, reply) in enumerate(rows, 1)]
            with self.subTest(name):
                self.compare(table, run(["serve", "--workers", "64"], table.requests()), table.replies())

    def test_a_file_that_is_no_table_is_told(self):
        for text, place in (("# t\n> {}\n", 2), ("> {}\n", 1), ("# t\n< x\n", 2), ("# t\n> {}\n~ [] as {}\n< x\n", 3),
                            ("# t\n> {}\n~ {}\n< x\n", 3),
                            ("# t\n> {} \n< x\n", 2), ("# t\n\n# u\n> a\n< b\n", 3), ("# t\n? a\n", 2)):
            with tempfile.NamedTemporaryFile("w") as out:
                out.write(text)
                out.flush()
                with self.assertRaisesRegex(ValueError, f":{place}: "):
                    tables_in(out.name)

    def test_a_table_that_is_wrong_is_told(self):
        table = Table("made for this test", "here")
        table.rows = [(b'{"op":"list"}', '{"packages":[],"revision":1}', "here:1")]
        with self.assertRaisesRegex(AssertionError, "here:1"):
            self.compare(table, run(SERVE, table.requests()), table.replies())
        for more in (1, -1):
            # a reply too few or too many
            table.rows = [(b'{"op":"list"}', '{"packages":[],"revision":0}', "here:1")] * 2
            with self.assertRaises(AssertionError):
                self.compare(table, run(SERVE, b'{"op":"list"}\n' * (2 + more)), table.replies())
