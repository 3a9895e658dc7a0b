"""Request lines with the mistakes of people: of their keyboards, of their editors, of other tools' ways. Nothing here
says what a line is answered."""
import json
import re
from collections.abc import Iterator
from typing import Any

from tests.support.made_lines import NAMES, REQUIREMENTS, VERSIONS, Maker

LETTERS = "0123456789.*xX^~=<>,- +abzAZ_|v\t!&()[]/'\"\\ é\u00a0\u200b\U0001f600"
TOOLS = ["~> 1.2", "~> 1.2.3", "=> 1", "==1.0", "^1 || ^2", ">=1 <2", "1.2.3 - 2.0.0", "[1.0,2.0)", "", "latest",
         "1.2-alpha", ">=*", "*.1", "1.*.2", "01.2", "v1.2", "1.2.3.4", "1,", ",1", "!=1", "(>= 1.0)", "<< 2", ">> 1.0",
         "~=1.4.2", ">=1.2,,<2", "^1 2", "\t1", "*,*", "* ", " x ", "X,1", "^ 1", "^  1.2 , <3", "=1.*", "1.x.X",
         "1.2.x-a", "1.2.3-a.b+c", "1.2.3+", ">=1.2.3-0", "<1.2.3-01", "1.2.3 ,", "^18446744073709551615",
         "~18446744073709551616"]


class Slips(Maker):
    """Makes lines of one session, many of them as people mistype them."""

    def slipped(self) -> bytes:
        value, kind = self.value(), self.rng.random()
        if kind < 0.4:
            return self.other_text(value)
        text = json.dumps(value, separators=self.rng.choice([(",", ":"), (", ", ": ")]), ensure_ascii=False)
        return self.slip(text).replace("\n", " ").encode("utf-8", "surrogatepass")

    def slip(self, text: str) -> str:
        """A line with one slip: in one place, or in whole, of its quotes, at its end, or around it."""
        slip: str | tuple[str, str] = self.rng.choice([*WHOLE, *ONE])
        if isinstance(slip, tuple):
            return self.once(*slip, text)
        word = self.near_text(self.rng.choice(WORDS)).replace("\\", "")
        return slip.format(text, text.replace('"', "'"), text.replace('"', "’"), text[:self.rng.randrange(len(text))],
                           self.once('(?<=")[a-z]+(?=")', word, text))

    def other_text(self, value: Any) -> bytes:
        """A line in which one of its texts is near to another."""
        places = list(texts_of(value))
        holder, key = self.rng.choice(places)
        if self.rng.random() < 0.3:
            holder[key] = self.rng.choice([*TOOLS, *NAMES, *VERSIONS, *REQUIREMENTS])
        for _ in range(self.rng.choice([0, 1, 1, 2, 3])):
            holder[key] = self.near_text(holder[key])
        return json.dumps(value, ensure_ascii=self.rng.random() < 0.5).encode()

    def near_text(self, text: str) -> str:
        place, kind = self.rng.randrange(len(text) + 1), self.rng.random()
        letter = self.rng.choice(LETTERS)
        if kind < 0.3:
            return text[:place] + letter + text[place:]
        if kind < 0.5:
            return text[:place] + text[place + 1:]
        if kind < 0.8:
            return text[:place] + letter + text[place + 1:]
        if kind < 0.9:
            return text[:place] + text[place:place + 2][::-1] + text[place + 2:]
        return text[:place] + text[place:] * self.rng.choice([1, 2, 40])

    def once(self, pattern: str, new: str, text: str) -> str:
        """A text with another in one place of those that a pattern finds."""
        found = list(re.finditer(pattern, text))
        if not found:
            return text
        it = self.rng.choice(found)
        return text[:it.start()] + it.expand(new) + text[it.end():]


def texts_of(value: Any) -> Iterator[tuple[Any, Any]]:
    """Each text of a value, as what holds it and its key there."""
    for key, held in list(value.items() if isinstance(value, dict) else enumerate(value)):
        if isinstance(held, str):
            yield value, key
        elif isinstance(held, (dict, list)):
            yield from texts_of(held)


# What a line becomes in whole, and in one place of those that a pattern finds.
WHOLE: list[Any] = ["\ufeff{0}", "{0},", "{0};", "{0}{0}", "[{0}]", "{0} // {0}", "# {0}", "{0}\r", "", " ",
                    "{1}", "{2}", "{3}", "{4}"]
ONE = [(r"[\]}]", r",\g<0>"), (r'"(\w+)"', r"\1"), (r'"([^"]*)"', r"'\1'"), (r'"([^"]*)"', r"“\1”"), (",", ""),
       (":", " ="), (r"[\[\]{}]", ""), (r"\]", "}"), ('"', ""), (r'"(\w+)"', r'"\1s"'), ("[,:]", "\\g<0>\u00a0"),
       ("(true|false)", r'"\1"'), ("(true|false)", "True"), (r"\d+", r'"\g<0>"'), (r"\d+", r"\g<0>.0"),
       (r"\d+", r"-\g<0>"), (r"\d+", r"0\g<0>"), (r"\[(\[[^\]]*\])\]", r"\1"),
       (r"\[\[([^,\]]*),([^,\]]*)\]\]", r"{\1:\2}"), (r"\[([^,\]\[]*),([^,\]\[]*)\]", r"[\1]"), (r'"(\w+)","', r'"\1 ')]
WORDS = ["op", "needs", "version", "name", "publish", "list"]
