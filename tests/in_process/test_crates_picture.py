"""The picture of the crates has each crate of crates.txt once, and the lines that say what it stands on."""
import re
from html import unescape
from pathlib import Path

from dev import draw_crates


class TestPicture:
    def test_it_is_of_these_crates(self):
        titles = [unescape(it) for it in re.findall("<title>(.*?)</title>",
                                                    Path(draw_crates.PICTURE).read_text(encoding="utf-8"))]
        edges = draw_crates.edges_of(draw_crates.stands_on())
        wanted = ["crates", *edges, *(f"{name}->{it}" for name, below in edges.items() for it in below)]
        assert sorted(titles) == sorted(wanted), "python3 -m dev.draw_crates draws it anew (it needs Graphviz)"

    def test_no_line_is_left_out_that_others_do_not_say(self):
        crates = draw_crates.stands_on()
        edges = draw_crates.edges_of(crates)
        for name in crates:
            assert draw_crates.reached(edges, name) == draw_crates.reached(crates, name)
