"""The page of `registry page` in a browser: clicks, typing, the back button, links, at three widths."""
import json
import re
from urllib.parse import quote, urlencode

import pytest

from tests.support.browser import COMMAND
from tests.support.called import registry
from tests.support.page_in_browser import BELOW, SELECTION, InBrowser
from tests.support.page_served import WORKED
from tests.support.program import publish, skip_without, yank
from tests.support.registry_folder import pigeons

pytestmark = pytest.mark.not_quick("a browser")
WIDTHS = (400, 1000, 1600)
LONG = "l" + "o" * 63
LONG_VERSION = "1.0.0-" + "x" * 240


@skip_without(COMMAND, COMMAND)
class Packages(InBrowser):
    def test_search_as_one_types_and_the_back_button(self):
        self.show("", *WORKED)
        assert self.texts("#found li") == ["app 1.1.0 2 versions", "apps needed, not published",
                                           "log 1.2.0 4 versions", "web 0.1.0 1 version", "zlib 1.0.0 1 version"]
        self.browser.click("#text")
        self.browser.type("lo")
        self.heading("Packages with lo in their names")
        assert self.texts("#found li") == ["log 1.2.0 4 versions"]
        self.at("#/search?text=lo")
        self.browser.press("Enter")
        self.heading("log")
        self.at("#/package/log")
        assert self.browser.value("document.title") == "log - registry"
        self.browser.back()
        self.heading("Packages with lo in their names")
        assert self.browser.value("document.getElementById('text').value") == "lo"
        self.browser.back()
        self.heading("Packages")
        assert len(self.texts("#found li")) == 5
        self.browser.type("/")  # a key that leads to the search
        self.browser.type("zlbi")
        self.browser.until("document.querySelector('main p').textContent.includes('Did you mean')")
        assert self.texts("main p") == ["There is none. Did you mean zlib?"]
        self.said_nothing()

    def test_a_long_list_comes_in_parts(self):
        self.show("", *(publish(f"p{number:03}", "1.0.0") for number in range(250)))
        seen = []
        for hash_, told, links in (("#/search?before=100", "101 to 200", ["Previous 100", "Next 50"]),
                                   ("#/search?before=200", "201 to 250", ["Previous 100"])):
            seen += self.texts("#found a")
            self.browser.click("#parts a:last-child")
            self.at(hash_)
            self.browser.until(f"document.querySelector('main p').textContent === '{told} of 250 names.'")
            assert self.texts("#parts a") == links
        assert seen + self.texts("#found a") == [f"p{number:03}" for number in range(250)]
        self.browser.back()
        self.browser.until("document.querySelector('#found a').textContent === 'p100'")
        self.browser.click("#text")
        self.browser.type("p24")  # all that is found stands in one part
        self.browser.until("document.querySelector('main p').textContent === '10 names.'")
        assert self.texts("#parts a") == []
        self.said_nothing()

    def test_a_package(self):
        self.show("#/package/log", *WORKED)
        self.heading("log")
        assert self.texts(".versions > li") == ["2.0.0-rc.1 pre-release needs nothing",
                                                "1.10.0 yanked needs nothing",
                                                "1.2.0 needs nothing", "1.0.0 needs nothing"]
        assert self.texts("#users li") == ["app 1.1.0 as >=1.2.0, <2.0.0"]
        self.browser.click("#users a")
        self.heading("app")
        assert self.texts(".versions details li") == ["log >=1.2.0, <2.0.0", "zlib *"]  # of the newest one
        self.browser.click(".versions > li:last-child summary")
        self.browser.until("document.querySelector('.versions > li:last-child details').open")
        assert self.texts(".versions > li:last-child li") == ["log ^1", "zlib *"]
        self.browser.click(".versions a[href='#/package/zlib']")
        self.heading("zlib")
        self.browser.back()
        self.heading("app")
        self.browser.open(self.server.address + "#/package/apps")
        self.heading("apps")
        assert self.texts("main p")[0] == "No version of apps is published. Did you mean app?"
        self.said_nothing()

    def test_many_versions(self):
        self.show("#/package/many", *(publish("many", f"1.{number}.0") for number in range(300)))
        self.heading("many")
        assert len(self.texts(".versions > li")) == 50
        self.browser.click("button.more")
        self.browser.until("document.querySelectorAll('.versions > li').length === 300")
        assert self.texts(".versions .version") == [f"1.{number}.0" for number in reversed(range(300))]

    def test_it_grows(self):
        self.show("#/package/log", *WORKED)
        self.heading("log")
        assert registry("publish", "--journal", self.journal, "log", "1.3.0")[0] == 0
        self.browser.click("#note button")
        self.browser.until("document.querySelectorAll('.versions > li').length === 5")
        assert "1.3.0 needs nothing" in self.texts(".versions > li")
        assert self.texts("#note") == [""]
        self.said_nothing()

    def test_hostile_texts(self):
        bad = "<img src=x onerror=\"document.title='taken'\">"
        self.journal = self.path(bad.replace("/", ""))
        self.show("", *WORKED)
        for path, said in ((f"search?text={quote(bad)}", bad.lower()), (f"package/{quote(bad)}", bad),
                           (quote(bad), "no such view"), (f"resolve?{urlencode({'need': bad})}", "is not one")):
            self.browser.open(f"{self.server.address}#/{path}")
            self.browser.until(f"document.querySelector('main').textContent.includes({json.dumps(said)})"
                               " && document.getElementById('about').textContent.includes('<img')")
            assert self.browser.value("[document.images.length, document.title === 'taken']") == [0, False]
        # what the script must never do, the browser would not do either
        for script in ("document.body.innerHTML = '<b>x</b>'", "new Function('return 1')()", "document.write('x')"):
            with pytest.raises(AssertionError):
                self.browser.value(script)
        assert self.browser.value("fetch('http://127.0.0.1:9/').then(() => 'gone', () => 'kept')") == "kept"


@skip_without(COMMAND, COMMAND)
class Resolving(InBrowser):
    def test_the_field_that_is_at_fault_is_marked(self):
        self.show("#/resolve?need=zlib&need=app%40one", *WORKED)
        self.browser.until("document.querySelector('[aria-invalid]')")
        marked = ("[...document.querySelectorAll('[aria-invalid=true]')].map((it) => [it.value, "
                  "it.className, document.getElementById(it.getAttribute('aria-describedby')).role])")
        assert self.browser.value(marked) == [["one", "requirement", "alert"]]
        self.assertNotEqual(*self.browser.value("['[aria-invalid]', '#needs .name'].map((it) => "
                                                "getComputedStyle(document.querySelector(it)).borderColor)"))
        self.browser.click("[aria-invalid]")
        self.browser.type("x")  # it is being mended
        self.browser.until("!document.querySelector('[aria-invalid]')")

    def test_a_form_with_several_rows(self):
        self.show("", *WORKED)
        self.browser.click("nav a[href='#/resolve']")
        self.heading("Resolve")
        self.browser.click("#needs .name")
        self.browser.type("app")
        self.browser.press("Tab")
        self.browser.type("^1")
        self.browser.click("#needs p button")
        self.browser.type("zlib")
        self.browser.press("Enter")
        self.at("#/resolve?" + urlencode({"need": ["app@^1", "zlib"]}, doseq=True))
        self.browser.until("document.querySelector('table.selection')")
        assert self.texts("tbody tr") == ["app1.1.020", "log1.2.001", "zlib1.0.001"]
        for view, found in (("tree", "ul.tree"), ("graph", "svg.graph")):
            self.browser.click(f".tabs a[href*='view={view}']")
            self.browser.until(f"document.querySelector('{found}')")
        assert self.names("svg.graph .node") == {"", "app", "log", "zlib"}
        self.browser.back()
        self.browser.until("document.querySelector('ul.tree')")
        assert self.texts("ul.tree a") == ["app", "log", "zlib", "zlib"]
        self.browser.back()
        self.browser.until("document.querySelector('table.selection')")
        self.browser.click("#find")
        self.browser.type("l")
        assert self.texts("tbody td:first-child") == ["log", "zlib"]
        self.browser.click("#needs li:first-child button")
        self.browser.until("document.querySelectorAll('#needs li').length === 1")
        self.browser.click("#needs button[type=submit]")
        self.at("#/resolve?need=zlib")
        self.browser.until("document.querySelectorAll('tbody tr').length === 1")
        self.said_nothing()

    def test_what_can_t_be_answered(self):
        lines, needs = pigeons(14)
        self.show("#/resolve?need=log%40nonsense", *WORKED, *lines)
        self.browser.until("document.querySelector('.fault')")
        assert '"nonsense"' in self.texts(".fault")[0]
        self.shown.seconds = 1
        self.browser.open(self.server.address + "#/resolve?" + urlencode({"need": needs}, doseq=True))
        self.browser.until("document.querySelector('.fault')?.textContent === 'no answer was "
                           "found in 1 second, and the search was ended.'")
        self.shown.seconds = 60
        self.browser.open(self.server.address + "#/resolve?need=zlib")
        self.browser.until("document.querySelectorAll('tbody tr').length === 1")

    def test_a_tree(self):
        self.show("#/resolve?need=p000&view=tree", *SELECTION)
        self.browser.until("document.querySelector('ul.tree')")
        # each package's needs once: two branches for each that has two needs, one for each of the others, and the root
        assert self.browser.value("document.querySelectorAll('ul.tree a').length") == 1 + sum(map(len, BELOW.values()))
        assert self.texts("ul.tree a") == ["p000", "p001", "p002"]
        self.browser.click("details[data-name=p002] > summary .version")
        self.browser.until("document.querySelector('details[data-name=p002]').open")
        assert self.texts("ul.tree a") == ["p000", "p001", "p002", "p005", "p006"]
        self.browser.click("#find")
        self.browser.type("p250")
        assert self.texts("ul.tree a.lit") == ["p250"]
        self.browser.click(".view p button")
        assert len(self.texts("ul.tree a")) == 1 + sum(map(len, BELOW.values()))

    def test_what_a_tree_shows_again(self):
        self.show("#/resolve?need=a&need=b&view=tree", publish("a", "1.0.0", ["b *"]),
                  publish("b", "1.0.0", ["c *"]), publish("c", "1.0.0", ["a *"]))
        self.browser.until("document.querySelector('ul.tree')")
        assert self.texts("ul.tree a, ul.tree button") == ["a", "b", "c", "a", "(*)", "b", "(*)"]
        self.browser.click("ul.tree > li:last-child button")
        assert self.browser.value("document.activeElement.parentElement.dataset.name") == "b"


# what is wider than the window, or is cut off, and heads of columns that take two lines; what scrolls in itself, and
# what is drawn, is let be
CUT = """[...document.querySelectorAll('body *')]
  .filter((it) => !it.closest('svg, .wide, datalist, .unseen') && it.checkVisibility()).filter((it) => {
    const box = it.getBoundingClientRect(), look = getComputedStyle(it);
    return (it.tagName === 'TH' && box.height > 40) || box.right > innerWidth + 1 || box.left < -1
      || (it.tagName !== 'INPUT' && look.display !== 'inline' && it.scrollWidth > it.clientWidth + 1)
  }).map((it) => it.outerHTML.slice(0, 120))"""
UNNAMED = """[...document.querySelectorAll('input, button, a, svg[tabindex], nav, form')]
  .filter((it) => it.checkVisibility())
  .filter((it) => !(it.textContent.trim() || it.getAttribute('aria-label') || it.labels?.length))
  .map((it) => it.outerHTML.slice(0, 120))"""


@skip_without(COMMAND, COMMAND)
class Widths(InBrowser):
    LONGEST = 300  # a browser draws each view at each width

    def test_nothing_is_cut_off(self):
        needs = ", ".join([">=0.0.1"] * 28)
        lines = [publish(LONG, LONG_VERSION), publish(LONG, "1.0.0"), publish(LONG, "1.1.0"),
                 yank(LONG, "1.1.0"), publish("log", "1.0.0", [f"{LONG} {needs}"]),
                 publish("log", "1.1.0", [f"{LONG} ={LONG_VERSION}"]),
                 publish("app", "1.0.0", [f"{LONG} ={LONG_VERSION}", "log *"]), *SELECTION]
        views = {"": "#found", f"#/search?text={LONG[:60]}": "#found", f"#/package/{LONG}": ".versions",
                 "#/package/log": ".versions", "#/resolve": "#needs",
                 "#/resolve?need=app": "table", "#/resolve?need=app&view=tree": ".tree",
                 "#/resolve?need=p000&view=tree": ".tree",
                 "#/resolve?need=app&view=graph": "svg.graph", f"#/resolve?need=app&view=graph&at={LONG}": ".picked",
                 f"#/resolve?need=app&need={LONG}%40%3D1.0.0": ".sentences",
                 "#/resolve?need=nowhere": ".hints, .sentences"}
        self.show("", *lines)
        for wide in WIDTHS:
            self.browser.size(wide)
            for path, found in views.items():
                self.browser.open("about:blank")
                self.browser.open(self.server.address + path)
                self.browser.until(f"document.querySelector({json.dumps(found)}) && "
                                   f"document.getElementById('about').textContent")
                if "sentences" in found:
                    self.browser.click(".sentence:last-of-type > button")
                assert (path, wide, self.browser.value(CUT)) == (path, wide, [])
                assert self.browser.value("document.documentElement.scrollWidth") <= wide, path
                assert self.browser.value(UNNAMED) == [], path
        self.said_nothing()

    def test_light_and_dark(self):
        self.show("#/package/log", *WORKED)
        self.heading("log")
        found = []
        for is_dark in (False, True):
            self.browser.size(1000, is_dark=is_dark)
            colours = self.browser.value("['backgroundColor', 'color'].map((it) => "
                                         "getComputedStyle(document.body)[it])")
            found.append([sum(map(int, re.findall(r"\d+", it)[:3])) for it in colours])
        (paper, ink), (dark_paper, dark_ink) = found
        assert paper - ink > 500 and dark_ink - dark_paper > 500, found
