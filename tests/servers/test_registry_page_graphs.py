"""The graphs of `registry page` in a browser, and refusals whose sentences open, light up what they name, unfold."""
import json
import re
from urllib.parse import urlencode

import pytest

from bench import workloads
from tests.program.test_registry_why import BRANCHING
from tests.support.browser import COMMAND
from tests.support.called import registry
from tests.support.page_in_browser import BELOW, MANY, SELECTION, InBrowser
from tests.support.page_served import WORKED
from tests.support.program import skip_without

pytestmark = pytest.mark.not_quick("a browser")
# boxes of the labels in a graph: name, left, top, right, bottom
BOXES = """[...document.querySelectorAll('svg.graph .node')].map((it) => {
    const box = it.querySelector('rect').getBBox();
    return [it.dataset.name, box.x, box.y, box.x + box.width, box.y + box.height] })"""


@skip_without(COMMAND, COMMAND)
class Graphs(InBrowser):
    def setUp(self):
        super().setUp()
        self.show("#/resolve?need=p000&view=graph", *SELECTION)
        self.browser.until("document.querySelector('svg.graph')")

    def reached(self, number, edges):
        found = [number]
        for it in found:
            found += [other for other in edges[it] if other not in found]
        return set(found)

    def test_it_is_readable(self):
        boxes = {name: box for name, *box in self.browser.value(BOXES)}
        assert set(boxes) == {"", *(f"p{number:03}" for number in range(MANY))}
        places = sorted(boxes.values())
        for at, (left, top, right, bottom) in enumerate(places):
            for other in places[at + 1:]:
                assert not (other[0] < right and other[1] < bottom and top < other[3]), "two labels are on one another"
        for number, below in BELOW.items():
            for it in below:
                assert boxes[f"p{number:03}"][2] < boxes[f"p{it:03}"][0]  # what needs another stands on its left
        assert self.browser.value("[...document.querySelectorAll('.node')].every((it) => "
                                  "it.querySelector('text').getBBox().width + 8 "
                                  "<= it.querySelector('rect').getBBox().width)")
        assert self.browser.value("document.querySelector('.node.request text').getBoundingClientRect().height") > 9
        assert self.browser.value("document.querySelectorAll('.way').length") == 1 + sum(map(len, BELOW.values()))

    def test_it_is_fitted_into_its_frame(self):
        frame = "document.querySelector('svg.graph').getBoundingClientRect()"
        outside = (f"[...document.querySelectorAll('.node')].map((it) => "
                   f"it.getBoundingClientRect()).filter((it) => it.left < {frame}.left || it.right > " f"{frame}.right")
        # a large one has all of its columns, and a smaller one is seen as a whole
        assert self.browser.value(f"{outside}).length") == 0
        self.browser.open("about:blank")
        self.browser.open(self.server.address + "#/resolve?need=p009&view=graph")
        self.browser.until("document.querySelectorAll('.node').length === 33")
        assert self.browser.value(f"{outside} || it.top < {frame}.top || it.bottom > {frame}.bottom).length") == 0

    def test_what_is_found_lights_up_with_its_paths(self):
        above = {number: [other for other, below in BELOW.items() if number in below] for number in range(MANY)}
        self.browser.click("#find")
        self.browser.type("p031")
        wanted = {"", *(f"p{it:03}" for it in self.reached(31, BELOW) | self.reached(31, above))}
        self.browser.until("document.querySelector('.node.picked')")
        assert self.names(".node.lit") == wanted
        assert self.names(".node.picked") == {"p031"}
        self.at("#/resolve?need=p000%40*&view=graph&at=p031")
        box, view = (self.browser.value(f"document.querySelector('{it}').getBoundingClientRect().toJSON()")
                     for it in (".picked", "svg.graph"))
        assert (view["left"] <= box["left"] and box["right"] <= view["right"] and view["top"] <= box["top"]
                and box["bottom"] <= view["bottom"])
        assert "needed by p015 1.0.0" in self.texts(".told p")
        self.browser.click("#only")
        assert self.names(".node") == wanted
        self.browser.click("svg.graph .node.picked")  # once more lets go
        self.browser.until("document.querySelectorAll('.node').length === 301 && !document.querySelector('.node.lit')")
        self.said_nothing()

    def test_an_address_has_what_is_picked(self):
        self.browser.open("about:blank")
        self.browser.open(self.server.address + "#/resolve?need=p000&view=graph&at=p200")
        self.browser.until("document.querySelector('.node.picked')?.dataset.name === 'p200'")
        self.browser.until("(() => { const [box, view] = ['.picked', 'svg.graph'].map((it) => "
                           "document.querySelector(it).getBoundingClientRect());"
                           " return view.left <= box.left && box.right <= view.right && "
                           "view.top <= box.top && box.bottom <= view.bottom })()")

    def test_it_is_zoomed_and_moved(self):
        def first():
            return self.browser.value("document.querySelector('.node.request').getBoundingClientRect().toJSON()")
        before = first()
        self.browser.wheel("svg.graph", -200)
        self.browser.until(f"document.querySelector('.node.request').getBoundingClientRect().wid"
                           f"th > {before['width'] * 1.3}")
        self.browser.click("button[title='Zoom out']")
        self.browser.click("button[title='Zoom out']")
        assert first()["width"] < before["width"] * 1.3
        self.browser.click("button[title='Show all of it']")
        inside = ("[...document.querySelectorAll('.node')].every((it) => { const [box, "
                  "view] = [it, it.closest('svg')].map((one) => one.getBoundingClientRect());"
                  " return view.left <= box.left && box.right <= view.right && "
                  "view.top <= box.top && box.bottom <= view.bottom })")
        self.browser.until(inside)
        before = first()
        self.browser.drag("svg.graph", 60, 25)
        after = first()
        assert (round(after["x"] - before["x"]), round(after["y"] - before["y"])) == (60, 25)
        self.browser.value("document.querySelector('svg.graph').focus()")
        for key in ("ArrowLeft", "ArrowRight", "ArrowRight", "ArrowUp"):
            self.browser.press(key)
        moved = first()
        assert (round(moved["x"] - after["x"]), round(moved["y"] - after["y"])) == (-60, 60)
        self.browser.type("0")
        self.browser.until(inside)


@skip_without(COMMAND, COMMAND)
class Refusals(InBrowser):
    def test_sentences_open_and_light_up_what_they_speak_of(self):
        self.show("#/resolve?need=foo%40%5E1.0.0", *BRANCHING[0])
        self.browser.until("document.querySelector('.sentences')")
        _, said, _ = registry("why", "--journal", self.journal, "foo@^1.0.0")
        assert self.texts(".sentence > button") == [it.strip() for it in said.splitlines()[1:] if it.strip()]
        assert self.names("svg.graph .node") == {"", "foo", "a", "b", "x", "y"}
        for place, lit in ((0, {"foo", "a", "b"}), (3, {"foo", "x", "y"}), (6, {"foo"})):
            self.browser.click(f".sentence[data-place='{place}'] > button")
            self.browser.until(f"document.querySelector(\".sentence[data-place='{place}'] > "
                               f"button\").getAttribute('aria-expanded') === 'true'")
            assert self.names("svg.graph .node.lit") == lit
            assert self.names(".sentences .name.lit") == lit
        assert self.texts("[data-place='0'] .reasons li") == ["every version of a depends on b ^2.0.0",
                                                              "foo 1.0.0 depends on a ^1.0.0"]
        self.browser.click("[data-place='5'] > button")
        self.browser.click("[data-place='5'] .reasons li:first-child .go")
        assert self.browser.value("document.activeElement.parentElement.dataset.place") == "1"
        assert self.names("svg.graph .node.lit") == {"foo", "b"}
        self.browser.click("[data-place='1'] > button")
        assert (self.names("svg.graph .node.lit"), self.texts("[data-place='1'] .reasons")) == (set(), [])
        self.browser.click("[data-place='0'] .reasons a[href='#/package/a']")
        self.heading("a")
        self.said_nothing()

    def test_what_is_missing(self):
        self.show("#/resolve?need=web", *WORKED)
        self.browser.until("document.querySelector('.sentences')")
        assert self.texts(".hints li") == ["No version of apps is published; did you mean app?"]
        assert "apps (not published)" in self.texts("svg.graph text")

    def test_a_long_one_is_folded(self):
        lines, (request,) = workloads.tower(110)
        needs = ["@".join(it) for it in json.loads(request)["needs"]]
        self.show("#/resolve?" + urlencode({"need": needs}, doseq=True), *lines)
        self.browser.until("document.querySelector('.sentences')")
        _, said, _ = registry("why", "--journal", self.journal, *needs)
        sentences = [" ".join(it.split()) for it in said.splitlines()[1:] if it.strip()]
        shown, folds = self.texts(".sentence > button"), self.texts(".fold")
        counts = [int(re.match(r"([\d,]+) sentences? that leads? to: ", it)[1].replace(",", "")) for it in folds]
        assert len(sentences) > 350
        assert len(shown) + len(folds) < 60
        assert len(shown) + sum(counts) == len(sentences)
        assert self.texts(".refusal p")[0] == f"{sum(counts)} sentences of {len(sentences)} are folded. Unfold all"
        rest = iter(sentences)
        assert all(it in rest for it in shown)  # in their order
        largest = counts.index(max(counts))
        self.browser.value(f"document.querySelectorAll('.fold button')[{largest}].setAttribute('id', 'largest')")
        self.browser.click("#largest")
        self.browser.until(f"document.querySelectorAll('.sentence').length > {len(shown)}")
        assert len(self.texts(".sentence > button")) + sum(int(it.split(" ")[0])
                                                           for it in self.texts(".fold")) == len(sentences)
        self.browser.click(".refusal p button")
        self.browser.until("!document.querySelector('.fold')")
        assert self.texts(".sentence > button") == sentences
