"""What docs/THEOREMS.md shows of the sources under "What an answer is" stands there word for word."""
import re
import textwrap
import unittest
from pathlib import Path

from tests.support.program import TOP, read

SHOWN = {"Answer", "IsAnswer", "IsNewest", "AreBest", "IsTurn", "one_answer", "OneAnswer", "some_answer", "SomeAnswer"}
TITLE = "## What an answer is"
BLOCK = re.compile(r"(?m)(?:^    .*\n)+")


def shown(text):
    part = text.partition(f"{TITLE}\n")[2].partition("\n## ")[0] + "\n"
    return [textwrap.dedent(block).rstrip("\n") for block in BLOCK.findall(part)]


def stands(block, texts):
    """Whether whole lines of a source are this block, up to an empty line, a body or the source's end."""
    return any(re.search(rf"(?m)^{re.escape(block)}\n(?=\n|{{|\Z)", text) for text in texts)


def name_of(block):
    """What the last of a block's lines that begin in the first column says the name of."""
    begun = [line for line in block.splitlines() if not line.startswith(" ")][-1]
    return re.match(r"(?:pub |data |record |fn |abbrev )*(\w+)", begun)[1]


class Theorems(unittest.TestCase):
    @classmethod
    def setUpClass(cls):
        cls.blocks = shown(read("docs", "THEOREMS.md"))
        crate = Path(TOP, "crates", "walk")
        cls.texts = [read(path) for path in (*crate.glob("specs/*.antt"), *crate.glob("src/*.rt"))]

    def test_each_block_stands_in_the_sources(self):
        assert [block for block in self.blocks if not stands(block, self.texts)] == []
        assert {name_of(block) for block in self.blocks} == SHOWN
        assert len(self.blocks) == len(SHOWN)

    def test_a_block_that_is_changed_or_cut_is_found(self):
        for block in self.blocks:
            assert not stands(block[:-1], self.texts), block
            assert not stands(block[1:], self.texts), block
            lines = block.splitlines()
            assert not (len(lines) > 1 and stands("\n".join(lines[:-1]), self.texts)), block
