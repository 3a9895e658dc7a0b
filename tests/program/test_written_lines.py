"""`docs/lines.schema.json` against each line that these tests send and are answered. A request line is of the schema
exactly where it is not answered 19, but for what a schema can't tell; and each reply and line of a journal is of it.

Each line of the tables is judged, and of the other sessions that `said.py` has noted one of each shape. This file runs
last, so that they are noted by then; alone it judges the tables."""
import json
import unittest

from registry_cli.check_derivation import NAME, ORDINALS, formed
from registry_cli.limits import MOST_LINE_BYTES
from tests.program.test_check_derivation import rows
from tests.support import lines_schema, said
from tests.support.lines_schema import KINDS, SAID
from tests.support.plain_session import read_json
from tests.support.tables import tables_under

BAD_LINE, NO_MEMORY = 19, 18
WITHOUT = "Python's jsonschema is not there (Debian: python3-jsonschema)"


def references(value):
    """Each `$ref` in a schema."""
    inside = value.values() if isinstance(value, dict) else value if isinstance(value, list) else []
    here = [value["$ref"]] if isinstance(value, dict) and "$ref" in value else []
    return here + [it for held in inside for it in references(held)]


def ordinals(derivation):
    """The sets of ordinals of a derivation of its form."""
    for row in derivation:
        yield from (held for _, _, held in row["conclusion"])
        yield from (cause[name] for cause in row["causes"] for name in ("versions", "within") if name in cause)


def is_all_rising(value):
    return all(formed(held, ORDINALS) for held in ordinals(value.get("derivation", [])))


def shape(value, name=""):
    """What values have in common that a schema may take for one another: the members, and what is in them; of a text
    whether it is a package's name, of a number whether it is small, of a long list what is in it."""
    if isinstance(value, dict):
        return frozenset((name, shape(it, name)) for name, it in value.items())
    if isinstance(value, list):
        return tuple(map(shape, value)) if len(value) < 4 else frozenset(map(shape, value))
    if isinstance(value, str):
        return value if name in ("op", "fact") else (value == "", bool(NAME.fullmatch(value)))
    return (type(value), value if isinstance(value, bool) or value is None else 0 <= value < 2 ** 32)


def judgeable(requests, replies, kept):
    """Lines whose form decides, with the kinds that they are of; and the request lines that are of none. A line is left
    out that is no JSON, or too long, or was answered that there is no memory."""
    read = [(line, read_json(line), number) for line, number in requests if len(line) <= MOST_LINE_BYTES
            and number != NO_MEMORY]
    good = [("request", value) for _, value, number in read if number != BAD_LINE]
    good += [(kind, json.loads(line)) for kind, lines in (("reply", replies), ("journal", kept)) for line in lines]
    return good, [(line, value) for line, value, number in read if number == BAD_LINE and value is not None]


@unittest.skipUnless(lines_schema.judge(), WITHOUT)
class WrittenLines(unittest.TestCase):
    @classmethod
    def setUpClass(cls):
        tables = tables_under("lines") + tables_under("races")
        rows = [(line, reply.encode()) for table in tables for line, reply, _ in table.rows]
        kept = [line.encode() for table in tables for line in table.journal[1:-1]]
        requests, replies = [(line, said.number_of(reply)) for line, reply in rows], [reply for _, reply in rows]
        cls.good, cls.bad = judgeable(requests, replies, kept)
        said.take()
        others = judgeable([(line, number) for (_, number), line in said.REQUESTS.items()], said.REPLIES.values(),
                           said.JOURNAL.values())
        cls.good += {(kind, shape(value)): (kind, value) for kind, value in others[0]}.values()
        cls.bad += others[1]

    def test_each_definition_is_there_and_referred_to(self):
        named = {name.removeprefix("#/$defs/") for name in references(SAID)}
        self.assertEqual(named, set(KINDS))

    def test_lines_that_are_of_their_form(self):
        self.assertEqual([self.good[place] for place in lines_schema.refused(self.good)][:3], [])

    def test_lines_that_are_not_of_their_form(self):
        self.assertGreater(len(self.bad), 100)
        refused = set(lines_schema.refused([("request", value) for _, value in self.bad]))
        left = [(line, value) for place, (line, value) in enumerate(self.bad) if place not in refused]
        self.assertEqual([line for line, value in left if is_all_rising(value)][:3], [])
        self.assertGreater(len(refused), 100)

    def test_what_is_no_line(self):
        wrong = [(kind, json.loads(line)) for kind, _, line in (row.partition(": ") for row in rows("wrong_lines.txt"))]
        self.assertEqual(lines_schema.refused(wrong), list(range(26)))
