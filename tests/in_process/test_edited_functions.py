"""Each function that a library exports and that does something has a wrong body, by its name."""
import re

from dev.edits.edit_files import edits_of
from tests.support.program import data_rows
from tests.support.public_calls import exported, libraries, public

# What only the tests are made of.
OF_TESTS = {"rows"}
# Why one has no wrong body.
REASONS = {"reads", "looks-up", "compares", "copies", "wraps", "makes-empty", "law", "promises-nothing"}


def is_law(function, body):
    """Whether a function does nothing when it runs, or stands among the laws."""
    end = re.search(rf"^{'    ' if function.owner else ''}(\}}|\{{\}})$", body, re.M)
    return function.path.endswith("/src/laws.rt") or bool(end) and end[1] == "{}"


def exports(crate):
    """The functions that a library exports, laws apart: `Type::method`, or the name of one that belongs to no type."""
    names = exported(crate)
    for function, body in public(crate):
        name = f"{function.owner}::{function.name}" if function.owner else function.name
        is_there = (function.owner or name) in names or function.path.endswith("/src/lib.rt")
        if function.is_public and is_there and not is_law(function, body):
            yield name


def is_edited(name, edited, names=()):
    """Whether a wrong body is named for one of these: by its own name, or by a beginning of its type's before it."""
    *owner, last = name.split("::")
    begins = [word.removesuffix("_" + last) for word in edited.difference(names) if word.endswith("_" + last)]
    return last in edited or any(owner and owner[0].lower().startswith(word.replace("_", "")) for word in begins)


def without():
    """The functions that have none, each with its crate and the reason."""
    return [tuple(row.split()) for row in data_rows("functions_without_edits.txt")]


class TestEditedFunctions:
    def test_each_has_a_wrong_body_or_a_reason(self):
        found = set()
        for crate in set(libraries()) - OF_TESTS:
            edited, names = {edit.file.split("-")[0] for edit in edits_of(crate)}, [*exports(crate)]
            found |= {(crate, name) for name in names if not is_edited(name, edited, names)}
        assert found == {(crate, name) for crate, name, _ in without()}

    def test_each_reason_is_one_that_the_rule_has(self):
        assert {reason for *_, reason in without()} <= REASONS
        assert without() == sorted(without())
