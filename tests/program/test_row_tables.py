"""Every row under rows/calls, and every generated one, is asked of the program that makes its call; and the reader of
rows tells what it cannot use."""
import os

import pytest

# these add their tables to those of `generated_rows`
from tests.support import generated_rows_chronicle, generated_rows_search, generated_rows_store  # noqa: F401
from tests.support import generated_rows, row_tables
from tests.support.row_tables import BadRows, Row, faults, tables_in

GOOD = '# A set.\n# Source: by definition.\n{"of":"set","call":"len","a":[1],"gives":1}\n'


def asked(tables):
    assert faults(tables) == {}


@pytest.mark.parametrize("name", sorted(os.listdir(row_tables.ROWS)))
def test_file(name):
    assert name.endswith(".rows")
    asked(row_tables.of_file(os.path.join("calls", name)))


@pytest.mark.parametrize("make", generated_rows.GENERATORS, ids=lambda make: make.__name__)
def test_generated(make):
    asked(row_tables.generated(make()))


@pytest.mark.parametrize("text, told", [
    ("\n", "no rows"), ("# A set.\n# Source: by definition.\n", "`A set.` has no rows"),
    ("# A set.\n\n" + GOOD, "`A set.` has no rows"),
    ('{"of":"set","call":"len"}\n' + GOOD, "it.rows:1: there is no title"),
    ('# A set.\n{"of":"set","call":"len","a":[1],"gives":1}\n', "`A set.` has no source"),
    *((GOOD + line + "\n", "it.rows:4: ") for line in (
        "no row", "[]", '{"of":"set"}', '{"of":1,"call":"len"}', '{"of":"set","call":"len"} {}',
        '{"of":"set","call":"len","k":NaN}',
        '{"of":"set","call":"len","k":1,"k":2}', '#{"of":"set","call":"len"}'))])
def test_a_file_that_is_wrong_is_told(text, told):
    with pytest.raises(BadRows, match=told):
        tables_in(text, "it.rows")


def test_a_file_of_two_tables():
    first, second = tables_in(GOOD + "\n" + GOOD + '{"of":"set","call":"has","k":1}\n', "it.rows")
    assert (first.title, first.source.strip()) == ("A set.", "Source: by definition.")
    assert [row.asked for row in first.rows] == ['{"of":"set","call":"len","a":[1]}']
    assert [row.wanted for row in second.rows] == [1, None]


def test_answers_that_differ():
    row = tables_in(GOOD, "it.rows")[0].rows[0]
    assert row.fault(1) is None
    for got in (2, True, 1.0, "1", None, [1], {"bad": True}):
        told = row.fault(got)
        assert 'it.rows:3: {"of":"set","call":"len","a":[1]}' in told and "wanted 1\n" in told
    row = Row("it", {"of": "set", "call": "it", "gives": {"a": 1, "b": [None]}})
    assert row.fault({"b": [None], "a": 1}) is None
    assert row.fault({"b": [], "a": 1})


def test_an_answer_that_is_compared_by_what_a_function_gives_of_it():
    row = Row("it", {"of": "set", "call": "it", "by": len, "gives": 2})
    assert row.asked == '{"of":"set","call":"it"}' and row.fault([1, 1]) is None
    assert "got    3" in row.fault([1, 1, 1]) and "of another form" in row.fault(2)
    # no file can have such a member
    assert '"by":1' in Row("it", {"of": "set", "call": "it", "by": 1}).asked


def answering(script):
    """A command that runs these shell commands."""
    return ["sh", "-c", script]


def test_too_few_or_too_many_answers():
    tables = tables_in(GOOD, "it.rows")
    assert faults(tables, answering("echo null; echo 1")) == {}
    for script in ("echo null", "echo null; echo 1; echo 1", "echo null; echo 1; exit 1"):
        with pytest.raises(BadRows, match="answers to 2 rows"):
            faults(tables, answering(script))


def test_what_is_told_of_a_table():
    tables = tables_in(GOOD + GOOD.replace("A set.", "Another."), "it.rows")
    ((title, told),) = faults(tables, answering("echo null; echo 1; echo null; echo 5")).items()
    assert title == "Another." and "it.rows:6: " in told and "got    5" in told
    assert list(faults(tables, answering("echo 0; echo 1; echo null; echo 1"))) == ["A set."]
