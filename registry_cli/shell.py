"""Command lines one after the other, over one session: typed with a history and completion, or read to their end."""
from __future__ import annotations

import contextlib
import os
import shlex
import signal
import sys

from . import near_limits, output, session
from .failures import DONE, INTERRUPTED, USAGE, Refused
from .main import EndedBySignal, guarded, status_of
from .shapes import Callable, Iterable, Iterator, Reply, Request, Sequence

PROMPT, MOST_KEPT = "registry> ", 1000
LEAVING = (["exit"], ["quit"])
TICK = 0.5  # seconds


class Kept(session.Writing):
    """The session that stays open. What a command does not read of its replies is read when that ends."""
    group = 0  # its own, since Ctrl-C at the prompt ends a line and no session

    def __init__(self, standing: Standing, patience: float) -> None:
        self.standing, self.waiting, self.is_writing = standing, 0, False
        super().__init__(standing.path, patience)

    def each(self, requests: Sequence[Request]) -> Iterator[Reply]:
        self.waiting += len(requests)
        for reply in super().each(requests):
            self.waiting -= 1
            yield reply

    def __exit__(self, kind: type[BaseException] | None, *_: object) -> None:
        if kind is None or issubclass(kind, Refused):
            while self.waiting and self.process.stdout.readline():
                self.waiting -= 1
            if self.is_writing:
                self.warn()
        else:
            self.standing.session = None
            self.leave()


class Standing:
    """Lends the session to each command that asks the shell's journal. It is begun when it is first asked for, and anew
    where a command broke it off. Where the shell asks a service, each command has a connection of its own."""

    def __init__(self, path: str, service: str | None = None, patience: float = session.SECONDS) -> None:
        self.path, self.service, self.patience = path, service, patience
        self.session: Kept | None = None

    def lent(self, path: str, is_writing: bool = False, patience: float = session.SECONDS) -> Kept | None:
        """The session; none on another journal, and none for what only reads where there is no journal yet."""
        if path != self.path or not (is_writing or os.path.exists(path)):
            return None
        self.session = self.session or Kept(self, patience)
        self.session.is_writing = is_writing
        return self.session

    def close(self) -> None:
        if self.session:
            try:
                self.session.close()
            finally:
                self.session.leave()


def run(path: str, service: str | None = None, patience: float = session.SECONDS) -> int:
    """Obeys lines until they end; answers the status of the last one, 0 at a terminal."""
    standing = session.standing = Standing(path, service, patience)
    before = output.keep_choice(output.chosen)
    try:
        if not service:
            near_limits.warn(path)
        is_typed = sys.stdin.isatty() and sys.stdout.isatty()
        return typed() if is_typed else read(sys.stdin)
    finally:
        output.keep_choice(before)
        session.standing = None
        standing.close()


def read(lines: Iterable[str]) -> int:
    status = DONE
    for line in lines:
        words = words_of(line)
        if words in LEAVING:
            break
        if words != []:
            status = obey(words)
    return status


def typed() -> int:
    """Reads lines at the prompt. Ctrl-C ends a line, and Ctrl-D the shell."""
    remember = history()
    while True:
        try:
            with ticking():
                line = input(PROMPT)
        except KeyboardInterrupt:
            print()
            continue
        except EOFError:
            print()
            return DONE
        words = words_of(line)
        if words:
            remember()
        if words in LEAVING:
            return DONE
        if words != []:
            obey(words)


@contextlib.contextmanager
def ticking() -> Iterator[None]:
    """Wakes the wait for a key now and then: so a signal that came just before it is heeded before the next key."""
    handler = signal.signal(signal.SIGALRM, lambda *_: None)
    signal.setitimer(signal.ITIMER_REAL, TICK, TICK)
    try:
        yield
    finally:
        signal.setitimer(signal.ITIMER_REAL, 0)
        signal.signal(signal.SIGALRM, handler)


def words_of(line: str) -> list[str] | None:
    """None where a quote does not end. The name of the command may stand before them."""
    try:
        words = shlex.split(line, comments=True)
    except ValueError:
        output.fail("a quote is not closed, or nothing follows a backslash")
        return None
    return words[1:] if words[:1] == ["registry"] else words


def obey(words: list[str] | None) -> int:
    if words is None:
        return USAGE
    if words[:1] == ["shell"]:
        output.fail("this is the shell already: Ctrl-D ends it")
        return USAGE
    try:
        return guarded(words)
    except KeyboardInterrupt:
        output.fail("interrupted")
        return INTERRUPTED
    except EndedBySignal:
        raise
    except SystemExit as ended:  # argparse, when it has shown its help
        return status_of(ended)


# ---- at a terminal

def history() -> Callable[[], None]:
    try:
        import readline
    except ImportError:
        return lambda: None
    from .line_completion import complete
    readline.set_completer(complete)
    readline.set_completer_delims(" \t\n")
    readline.parse_and_bind("bind ^I rl_complete" if "libedit" in (readline.__doc__ or "") else "tab: complete")
    readline.set_auto_history(True)
    path = history_path()
    with contextlib.suppress(OSError):
        os.makedirs(os.path.dirname(path), mode=0o700, exist_ok=True)
        os.close(os.open(path, os.O_CREAT | os.O_WRONLY, 0o600))
        readline.read_history_file(path)
    readline.set_history_length(MOST_KEPT)

    def remember() -> None:
        with contextlib.suppress(OSError):
            readline.append_history_file(1, path)
    return remember


def history_path() -> str:
    """Where the lines are kept: see the XDG Base Directory Specification."""
    state = os.environ.get("XDG_STATE_HOME", "")
    folder = state if os.path.isabs(state) else os.path.join(os.path.expanduser("~"), ".local", "state")
    return os.path.join(folder, "registry", "history")
