"""What the plain readers must not let pass: what is true, and lies about it, each of which the judge has to find.

`rows/lies.rows` has sessions that were worked by hand: a request behind `> `, its reply behind `< `. Before that reply
stands in its place each lie: another reply behind `! `, or the reply with one text as another behind `~ `.
`rows/english.rows` has sentences of refusals behind `> `, each with lies, which differ from it in one text."""
import copy
import json
import os
import re
import unittest

import pytest

from tests.program.test_registry_why import registry_of
from tests.support.plain_session import PlainSession
from tests.support.program import TOP, publish, yank
from tests.support.read_english import Reader, Unread

LIES, ENGLISH = (os.path.join(TOP, "rows", name) for name in ("lies.rows", "english.rows"))
# What the sentences speak of, and what is asked.
PUBLISHED = [publish("a", "1.0.0", ["b ^1"]), publish("a", "1.1.0", ["b ^1", "c ^2"]),
             publish("a", "2.0.0", ["b ^2"]), yank("a", "2.0.0"), publish("b", "1.0.0", ["d *"]),
             publish("b", "2.0.0"), publish("c", "1.0.0"), publish("c", "2.0.0", ["b ^2"]),
             publish("e", "1.0.0"), publish("e", "2.0.0-rc.1"), yank("e", "2.0.0-rc.1")]
ASKED = {"needs": [["a", "^1"], ["b", "^1"], ["zed", "*"], ["e", ">=2, <3"]], "lock": [["a", "1.1.0"]]}


def tables(path):
    """The tables of a file, each a title and its lines."""
    with open(path, encoding="utf-8", newline="\n") as text:
        for part in text.read().removesuffix("\n").split("\n\n"):
            title, source, *lines = part.split("\n")
            assert title.startswith("# ") and source.startswith("# Source: "), title
            yield title[2:], lines


def lie_about(told, change):
    """What was told with a text as another one, as `OLD as NEW` says it."""
    old, new = change.split(" as ")
    assert told.count(old) == 1, (told, change)
    return told.replace(old, new)


def sessions():
    """The sessions of the file, each with its title: requests, replies, and the lies about these."""
    for title, lines in tables(LIES):
        told = []
        for line in lines:
            sign, said = line[:2], line[2:]
            if sign == "> ":
                told.append([said, None, []])
            elif sign == "< ":
                told[-1][1] = said
            elif sign == "! ":
                told[-1][2].append(said)
            else:
                assert sign == "~ ", line
                told[-1][2].append(lie_about(told[-1][1], said))
        yield title, told


class TestSession:
    def test_lies(self):
        count = 0
        for title, told in sessions():
            plain = PlainSession()
            for request, reply, lies in told:
                for lie in lies:
                    assert copy.deepcopy(plain).fault(request.encode(), lie), f"{title}: {request} {lie}"
                assert plain.fault(request.encode(), reply) is None, f"{title}: {request} {reply}"
                count += len(lies)
        assert count > 100

    def test_the_same_is_answered_again(self):
        # whatever may be answered, of two answers to one request at one revision one is wrong
        plain, asked = PlainSession(), '{"op":"resolve","needs":[["p0","*"]],"explain":false}'.encode()
        for line in self.many():
            assert plain.fault(line.encode(), '{"ok":true,"revision":%d}' % (plain.registry.revision + 1)) is None
        revision = plain.registry.revision
        chosen = ",".join(['["p0","1.0.0"]', *(f'["p{number}","1.7.0"]' for number in range(1, 8))])
        found, refused = f'{{"revision":{revision},"selected":[{chosen}]}}', f'{{"refused":true,"revision":{revision}}}'
        for first, then in ((found, refused), (refused, found)):
            again = copy.deepcopy(plain)
            assert again.fault(asked, first) is None
            assert again.fault(asked, first) is None
            assert again.fault(asked, then) == "the same was answered otherwise before"

    def many(self):
        """So many may be chosen that a plain search is not made; the preferred version of p0 can't be had."""
        yield publish("p0", "1.0.0", [f"p{number} *" for number in range(1, 8)])
        yield publish("p0", "1.1.0", ["none *"])
        yield from (publish(f"p{number}", f"1.{version}.0") for number in range(1, 8) for version in range(8))

    def test_a_false_refusal_is_found_where_there_are_500_tries_or_fewer(self):
        for versions, is_found in ((3, True), (4, False)):
            plain = PlainSession()
            # 4 choices, or 5, none among them, and three times 5
            for line in [publish("a", "0.1.0", ["b *", "c *", "d *"]),
                         *(publish("a", f"1.{number}.0", ["none *"]) for number in range(1, versions)),
                         *(publish(name, f"1.{number}.0") for name in "bcd" for number in range(4))]:
                assert plain.fault(line.encode(), '{"ok":true,"revision":%d}' % (plain.registry.revision + 1)) is None
            found = plain.fault(b'{"op":"resolve","needs":[["a","*"]]}',
                                '{"refused":true,"revision":%d}' % plain.registry.revision)
            assert found == ("a selection meets the request" if is_found else None)


class English(unittest.TestCase):
    def read(self, lines, request=None):
        """What the sentences conclude; each has its number in front, if it has one."""
        told = [re.fullmatch(r"(?:\((\d+)\) )?(.*)", line) for line in lines]
        return Reader(registry_of(map(json.loads, PUBLISHED)), request
                      or ASKED).read([(it[1] and int(it[1]), it[2]) for it in told])

    def test_lies(self):
        count = 0
        for title, lines in tables(ENGLISH):
            told = []
            for line in lines:
                if line.startswith(">"):
                    told.append(line[2:])
                    if told[-1]:
                        assert len(self.read(told)) == len([it for it in told if it]), title
                else:
                    with pytest.raises(Unread):
                        self.read([*told[:-1], lie_about(told[-1], line[2:])])
                    count += 1
        assert count > 80

    def test_what_the_selection_has(self):
        made = registry_of(map(json.loads, [publish("a", "1.0.0", ["b ^1"]), publish("a", "2.0.0", ["b ^2"]),
                                            publish("b", "1.0.0"), publish("b", "2.0.0"), publish("c", "1.0.0"),
                                            publish("c", "2.0.0")]))
        through = "Because the selection has a 1.0.0 which depends on b ^1, the selection requires b ^1."
        both = "And because the selection has both a 1.0.0 and c 2.0.0, resolving failed."
        barred = "Because a 1.0.0 is asked for and c 2.0.0 is asked for, resolving failed."
        for before, told, is_read in (({"a": "1.0.0"}, [through], True), ({"a": "2.0.0"}, [through], False),
                                      ({}, [through], False), ({"a": "1.0.0"}, [through.replace("^1", "^2")], False),
                                      ({"a": "1.0.0"}, [through.replace("b ^1.", "b 2.0.0.")], False),
                                      ({"a": "1.0.0", "c": "2.0.0"}, [through, both], False),
                                      ({"a": "1.0.0", "c": "1.0.0"}, [through, both], False),
                                      ({"a": "1.0.0"}, [barred], False)):
            with self.subTest(before=before, told=told):
                reader = Reader(made, ASKED, before=before.items())
                if is_read:
                    assert reader.read([(None, it) for it in told]) == [{"b": frozenset({1, -1})}]
                else:
                    pytest.raises(Unread, reader.read, [(None, it) for it in told])
        reader = Reader(made, ASKED, before=[("a", "1.0.0"), ("c", "2.0.0")])
        found = reader.fact("the selection has both a 1.0.0 and c 2.0.0")
        assert found == [{"a": frozenset({1, -1})}, {"c": frozenset({0, -1})}]
