"""A journal on its page in a browser, and short ways to see what that shows."""
import json
from typing import Any

from tests.support.browser import Browser
from tests.support.page_served import Served
from tests.support.program import publish

# three hundred packages, of which each needs two further ones, and of the last ones half the very last
MANY = 300
BELOW = {number: [it for it in (2 * number + 1, 2 * number + 2) if it < MANY]
         or ([299] if number < 200 else []) for number in range(MANY)}
SELECTION = [publish(f"p{number:03}", "1.0.0", [f"p{it:03} ^1" for it in below]) for number, below in BELOW.items()]


class InBrowser(Served):
    """One browser for all tests of a class."""
    browser: Browser

    @classmethod
    def setUpClass(cls) -> None:
        cls.browser = cls.enterClassContext(Browser())

    def setUp(self) -> None:
        super().setUp()
        self.browser.size(1000)
        self.browser.said.clear()
        self.browser.asked.clear()

    def tearDown(self) -> None:
        self.browser.open("about:blank")  # before the page ends, whose absence it would tell

    def show(self, path: str = "", *lines: str, **more: Any) -> None:
        """Opens a page of the registry of these lines."""
        self.serve(*lines, **more)
        self.browser.open("about:blank")
        self.browser.open(self.server.address + path)
        self.browser.until("document.querySelector('h1')")

    def at(self, hash_: str) -> None:
        """Waits for an address."""
        self.browser.until(f"location.hash === {json.dumps(hash_)}")

    def heading(self, said: str) -> None:
        self.browser.until(f"document.querySelector('h1')?.textContent === {json.dumps(said)}")

    def texts(self, selector: str) -> Any:
        """The texts of the elements, as they are seen."""
        return self.browser.value(f"[...document.querySelectorAll({json.dumps(selector)})].filter((it) "
                                  f"=> it.checkVisibility()).map((it) => "
                                  f"it.textContent.replace(/\\s+/g, ' ').trim())")

    def names(self, selector: str) -> set[str]:
        return set(self.browser.value(f"[...document.querySelectorAll({json.dumps(selector)})].map((it) => "
                                      f"it.dataset.name)"))

    def said_nothing(self) -> None:
        """The script had no fault, and nothing was asked of anyone else."""
        self.assertEqual(self.browser.said, [])
        self.assertEqual([it for it in self.browser.asked if not it.startswith((self.server.address, "about:"))], [])
