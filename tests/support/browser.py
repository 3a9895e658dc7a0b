"""A Chromium without a window that a test drives as a person would, by clicks and keys, over the pipe that its DevTools
take.

What it is told and tells is https://chromedevtools.github.io/devtools-protocol.
"""
import contextlib
import fcntl
import json
import os
import select
import subprocess
import tempfile
import time
from typing import Any, Self

COMMAND = "chromium"
PATIENCE = 60  # seconds in which whatever is waited for comes, on a busy machine too
FLAGS = ["--headless=new", "--remote-debugging-pipe", "--no-first-run", "--disable-gpu", "--disable-dev-shm-usage",
         "--disable-extensions", "--disable-background-networking", "--disable-component-update", "--disable-sync",
         "--hide-scrollbars", "--force-color-profile=srgb"]
KEYS = {"Enter": 13, "Escape": 27, "Tab": 9, "Backspace": 8, "ArrowDown": 40, "ArrowUp": 38,
        "ArrowLeft": 37, "ArrowRight": 39}


def high(number: int) -> int:
    """The same file under a number that the shell gives to nothing else."""
    other = fcntl.fcntl(number, fcntl.F_DUPFD, 20)
    os.close(number)
    return other


class Browser:
    """A browser with one page. `said` has what the page's script says of faults, `asked` each address that it asks
    for."""

    def __init__(self) -> None:
        self.folder = tempfile.TemporaryDirectory(ignore_cleanup_errors=True)
        theirs_in, self.to_it = map(high, os.pipe())
        self.from_it, theirs_out = map(high, os.pipe())
        root = ["--no-sandbox"] if os.geteuid() == 0 else []
        command = ["bash", "-c", f'exec "$@" 3<&{theirs_in} 4>&{theirs_out}', "bash", COMMAND, *FLAGS,
                   *root, f"--user-data-dir={self.folder.name}"]
        self.process = subprocess.Popen(command, pass_fds=(theirs_in, theirs_out), stdin=subprocess.DEVNULL,
                                        stdout=subprocess.DEVNULL, stderr=subprocess.DEVNULL, start_new_session=True)
        for it in (theirs_in, theirs_out):
            os.close(it)
        self.rest, self.number, self.session = b"", 0, None
        self.said: list[Any] = []
        self.asked: list[str] = []
        target = self.tell("Target.createTarget", url="about:blank")["targetId"]
        self.session = self.tell("Target.attachToTarget", targetId=target, flatten=True)["sessionId"]
        for domain in ("Page", "Runtime", "Network", "Log"):
            self.tell(f"{domain}.enable")

    # ---- the pipe

    def tell(self, method: str, **more: Any) -> Any:
        """What the browser answers to a command."""
        self.number += 1
        message = {"id": self.number, "method": method, "params": more,
                   **({"sessionId": self.session} if self.session else {})}
        os.write(self.to_it, json.dumps(message).encode() + b"\0")
        while True:
            heard = self.hear()
            if heard.get("id") == self.number:
                if "error" in heard:
                    raise AssertionError(f"{method}: {heard['error']['message']}")
                return heard["result"]
            self.note(heard)

    def hear(self) -> Any:
        """The next message."""
        end = time.monotonic() + PATIENCE
        while b"\0" not in self.rest:
            if not select.select([self.from_it], [], [], max(0, end - time.monotonic()))[0]:
                raise AssertionError("the browser says nothing")
            piece = os.read(self.from_it, 1 << 20)
            if not piece:
                raise AssertionError("the browser has ended")
            self.rest += piece
        text, self.rest = self.rest.split(b"\0", 1)
        return json.loads(text)

    def note(self, heard: Any) -> None:
        """Keeps what is told without being asked for."""
        method, told = heard.get("method"), heard.get("params")
        if method == "Runtime.exceptionThrown":
            self.said.append(told["exceptionDetails"].get("exception", {}).get("description")
                             or told["exceptionDetails"]["text"])
        elif method == "Runtime.consoleAPICalled":
            self.said.append(" ".join(str(it.get("value")) for it in told["args"]))
        elif method == "Log.entryAdded":
            self.said.append(told["entry"]["text"])
        elif method == "Network.requestWillBeSent":
            self.asked.append(told["request"]["url"])

    # ---- a page

    def open(self, address: str) -> None:
        self.tell("Page.navigate", url=address)
        self.until("document.readyState === 'complete'")

    def value(self, script: str) -> Any:
        """What an expression of the page's script is."""
        told = self.tell("Runtime.evaluate", expression=script, returnByValue=True,
                         awaitPromise=True, allowUnsafeEvalBlockedByCSP=False)
        if "exceptionDetails" in told:
            raise AssertionError(f"{script}: {told['exceptionDetails'].get('exception', {}).get('description')}")
        return told["result"].get("value")

    def until(self, script: str) -> None:
        """Waits until an expression is true."""
        end = time.monotonic() + PATIENCE
        while True:
            with contextlib.suppress(AssertionError):
                if self.value(f"Boolean({script})"):
                    return
            if time.monotonic() > end:
                raise AssertionError(f"it never was: {script}; the page says "
                                     f"{self.value('document.body.innerText')[:500]!r} and {self.said}")
            time.sleep(0.03)

    def size(self, wide: int, high: int = 900, is_dark: bool = False) -> None:
        self.tell("Emulation.setDeviceMetricsOverride", width=wide, height=high, deviceScaleFactor=1, mobile=False)
        self.tell("Emulation.setEmulatedMedia", features=[{"name": "prefers-color-scheme",
                                                           "value": "dark" if is_dark else "light"}])

    def middle(self, selector: str, before: str = "") -> Any:
        """The middle of the first such element."""
        return self.value(f"(() => {{ const it = document.querySelector({json.dumps(selector)}); {before}"
                          "const box = it.getBoundingClientRect();"
                          "return [box.x + box.width / 2, box.y + box.height / 2] })()")

    def mouse(self, kind: str, x: float, y: float, **more: Any) -> None:
        self.tell("Input.dispatchMouseEvent", type=kind, x=x, y=y, **more)

    def click(self, selector: str) -> None:
        """Clicks in the middle of the first such element, wherever it is scrolled to."""
        self.until(f"document.querySelector({json.dumps(selector)})")
        place = self.middle(selector, "it.scrollIntoView({block: 'center', inline: 'center'});")
        for kind in ("mousePressed", "mouseReleased"):
            self.mouse(kind, *place, button="left", clickCount=1)

    def drag(self, selector: str, across: float, down: float) -> None:
        """Moves the mouse from the middle of an element, pressed."""
        x, y = self.middle(selector)
        for kind, part in (("mousePressed", 0), ("mouseMoved", 0.5), ("mouseMoved", 1), ("mouseReleased", 1)):
            self.mouse(kind, x + across * part, y + down * part, button="left", clickCount=1)

    def wheel(self, selector: str, down: float) -> None:
        self.mouse("mouseWheel", *self.middle(selector), deltaX=0, deltaY=down)

    def type(self, text: str) -> None:
        """Types into what has the focus, a letter at a time."""
        for letter in text:
            self.tell("Input.dispatchKeyEvent", type="keyDown", text=letter, key=letter)
            self.tell("Input.dispatchKeyEvent", type="keyUp", key=letter)

    def press(self, key: str) -> None:
        text = {"text": "\r"} if key == "Enter" else {}
        self.tell("Input.dispatchKeyEvent", type="keyDown", key=key, code=key, windowsVirtualKeyCode=KEYS[key], **text)
        self.tell("Input.dispatchKeyEvent", type="keyUp", key=key, code=key, windowsVirtualKeyCode=KEYS[key])

    def back(self) -> None:
        """The back button."""
        told = self.tell("Page.getNavigationHistory")
        self.tell("Page.navigateToHistoryEntry", entryId=told["entries"][told["currentIndex"] - 1]["id"])

    def end(self) -> None:
        with contextlib.suppress(AssertionError, OSError):
            self.session = None
            self.tell("Browser.close")
        for it in (self.to_it, self.from_it):
            os.close(it)
        try:
            self.process.wait(timeout=10)
        except subprocess.TimeoutExpired:
            self.process.kill()
            self.process.wait()
        self.folder.cleanup()

    def __enter__(self) -> Self:
        return self

    def __exit__(self, *_: object) -> None:
        self.end()
