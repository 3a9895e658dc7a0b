"""Asks the program. A session that reads takes a journal as it stands at one moment and needs neither its lock nor the
right to write; one that writes holds the lock, and what it is told as accepted stands in the file."""
from __future__ import annotations

import contextlib
import os
import subprocess
import sys
import threading
import time

from . import bar, near_limits, shapes, tied
from .failures import Failed, InUse, Refused, Usage, one_line
from .program import program
from .searching import asking
from .shapes import IO, Collection, Connected, Iterator, Options, Reply, Request, Self, Sequence, Standing

SECONDS = 10  # that a session waits for another one
DEFAULT, VARIABLE, SERVICE = "registry.journal", "REGISTRY_JOURNAL", "REGISTRY_CONNECT"
HEAD = b"registry-journal 2\n"
TRIES, PAUSE = 20, 0.01  # of a file that changes while it is read
EMPTY: Request = {"op": "resolve", "needs": []}
MISREAD = (ValueError, TypeError, LookupError, RecursionError)  # what comes of reading what is no journal as one
IN_USE = r"journal .*: in use by another session"
# what the program says as it ends, and what is told of that
REASONS = [
    (IN_USE, "{path} is in use by another session: try again once that has ended"),
    (r"journal (?:.*: )?line (\d+)(?: .*)?",
     "{path}: line {0} is at fault: `registry journal verify {path}` says why, and `registry journal repair {path}` "
     "keeps what is before it"),
    (r"journal .*?: (.+?)(?: \(os error \d+\))?", "{path}: {0}: --journal FILE names another"),
    (r"input failed", "{path} can't be read"),
    (r"output failed", "{path} can't be written: it has the commands that were accepted before"),
    (r"no memory", "there is not enough memory for {path}"),
]


standing: Standing | None = None  # what a shell keeps open: see shell.py


def journal_of(options: Options) -> str:
    """What the words name, else the shell, else the environment, else the one in this folder."""
    return options.journal or (standing and standing.path) or os.environ.get(VARIABLE) or DEFAULT


def service_of(options: Options) -> str | None:
    """What the words name, else, where they name no journal, the shell or the environment."""
    if options.connect and options.journal:
        raise Usage("--connect can't be used with --journal: a service has its own journal")
    if options.connect or options.journal:
        return options.connect
    return standing.service if standing else os.environ.get(SERVICE)


def patience_of(options: Options) -> float:
    """How many seconds a session waits for another one: as the words say, else those of the shell."""
    named: int | None = getattr(options, "wait", None)
    return named if named is not None else standing.patience if standing else SECONDS


def reading(options: Options) -> shapes.Reading:
    """A session that reads; one over a service answers the same."""
    service, path = service_of(options), journal_of(options)
    if service:
        return connected(service)
    return (standing and standing.lent(path, patience=patience_of(options))) or Reading(path)


def writing(options: Options) -> shapes.Asking:
    service, path, patience = service_of(options), journal_of(options), patience_of(options)
    if service:
        return connected(service)
    return (standing and standing.lent(path, True, patience)) or Writing(path, patience)


def connected(service: str) -> Connected:
    """A session with a service. What it takes is loaded only here."""
    from .connected import Connected
    return Connected(service)


def read_steady(path: str) -> tuple[bytes, bool]:
    """The text of a journal's file, and whether it has an end. Read again where that is written over meanwhile."""
    for _ in range(TRIES):
        with open(path, "rb") as file:
            text = file.read()
        at = text.find(b"\nend ") + 1
        end = text[at:text.find(b"\n", at) + 1]
        is_ended = end.startswith(b"end ") and end[4:-1].isdigit()
        if not is_ended or at + len(end) == len(text):
            break
        time.sleep(PAUSE)
    return text, is_ended


def snapshot(path: str) -> bytes:
    """A journal up to its last whole line, with an end: while a session writes it there is none."""
    try:
        text, is_ended = read_steady(path)
    except FileNotFoundError:
        raise Failed(f"{path}: there is no such journal: `registry publish` or `registry import` begins one, and "
                     f"--journal FILE names another") from None
    except OSError as fault:
        raise Failed(one_line(fault)) from None
    if not is_ended:
        text = text[:text.rfind(b"\n") + 1] or HEAD
        return text + b"end %d\n" % (text.count(b"\n") - 1)
    return text


def shared(text: bytes) -> IO[bytes]:
    """A file without a name that has this text, for a program to read."""
    file: IO[bytes]
    if hasattr(os, "memfd_create"):
        file = open(os.memfd_create("journal"), "w+b")
    else:
        import tempfile
        file = tempfile.TemporaryFile()
    file.write(text)
    file.seek(0)
    return file


def reason(told_line: str, path: str) -> str:
    """Why a program ended, by what it said on standard error; nothing where that tells no reason."""
    import re
    for form, told_as in REASONS:
        found = re.fullmatch(f"registryd: {form}\n", told_line)
        if found:
            return told_as.format(*found.groups(), path=path)
    return ""


class Session:
    """A program that answers request lines, begun with these words."""
    group: int | None = None  # of processes: that of this command, so that a key that ends it ends the program too

    def __init__(self, path: str, words: Sequence[str], handed: Collection[int] = ()) -> None:
        self.path = path
        try:
            words = [*program(), "serve", "--workers", "1", *words]
            self.process = tied.Tied(words, stdin=subprocess.PIPE, stdout=subprocess.PIPE, stderr=subprocess.PIPE,
                                     pass_fds=handed, process_group=self.group)
        except OSError as fault:
            raise Failed(f"the program can't be started: {one_line(fault)}") from None
        self.said = ""
        self.hearing = threading.Thread(target=self.hear, daemon=True)
        self.hearing.start()

    def hear(self) -> None:
        """Keeps why the program ends, and passes on what else it says, as how far it is where it is built first."""
        for line in self.process.stderr:
            text = line.decode(errors="replace")
            if reason(text, self.path):
                self.said = text
            else:
                sys.stderr.write(text)
                sys.stderr.flush()

    def each(self, requests: Sequence[Request]) -> Iterator[Reply]:
        import json
        text = b"".join(json.dumps(it, separators=(",", ":")).encode() + b"\n" for it in requests)
        threading.Thread(target=self.write, args=(text,), daemon=True).start()
        for _ in requests:
            line = self.process.stdout.readline()
            if not line.endswith(b"\n"):
                raise self.ended()
            yield json.loads(line)

    def write(self, text: bytes) -> None:
        try:
            self.process.stdin.write(text)
            self.process.stdin.flush()
        except (OSError, ValueError):
            pass  # who waits for a reply is told how the program ended

    def ask(self, *requests: Request) -> list[Reply]:
        with asking(self, requests):
            return list(self.each(requests))

    def end_search(self) -> None:
        """Ends the program, since nothing else ends a search. What it was told as accepted is kept."""
        self.process.kill()

    def ended(self) -> Failed:
        try:
            status = self.process.wait(timeout=1)
        except subprocess.TimeoutExpired:
            self.process.kill()
            status = self.process.wait()
        self.hearing.join()
        import re
        kind = InUse if re.fullmatch(f"registryd: {IN_USE}\n", self.said) else Failed
        how = f"the program {' '.join(program())} ended with status {status} before it had answered"
        return kind(reason(self.said, self.path) or how)

    def journal(self) -> bytes:
        """The journal's text: what was accepted stands in the file."""
        return snapshot(self.path)

    def commands(self) -> list[Request]:
        import json

        from .catalog import commands_in
        return [json.loads(it) for it in commands_in(self.journal())]

    def close(self) -> None:
        with contextlib.suppress(OSError):
            self.process.stdin.close()
        if self.process.stdout.read() or self.process.wait():
            raise self.ended()

    def leave(self) -> None:
        if self.process.poll() is None:
            self.process.kill()
            self.process.wait()
        self.hearing.join(timeout=1)  # what it has begun may hold the pipe a little longer
        self.process.let_go()
        for pipe in (self.process.stdin, self.process.stdout, self.process.stderr):
            with contextlib.suppress(OSError):
                pipe.close()

    def __enter__(self: Self) -> Self:
        return self

    def __exit__(self, kind: type[BaseException] | None, *_: object) -> None:
        try:
            if kind is None or issubclass(kind, Refused):
                self.close()
                self.warn()
        finally:
            self.leave()

    def warn(self) -> None:
        """Tells on standard error where the journal is near a limit."""


class Over(Session):
    def __init__(self, path: str, text: bytes) -> None:
        with shared(text) as file:
            super().__init__(path, [f"--load=/dev/fd/{file.fileno()}"], [file.fileno()])


class Reading(Over):
    def __init__(self, path: str, text: bytes | None = None) -> None:
        self.text = snapshot(path) if text is None else text
        super().__init__(path, self.text)
        self.warnings = list(near_limits.warnings(path, self.text))  # while the program loads it

    def journal(self) -> bytes:
        return self.text

    def finish(self) -> None:
        """Returns once the program has loaded the journal: it finds what is at fault there."""
        with bar.timed("waiting for the program"):
            list(self.each([EMPTY]))

    def warn(self) -> None:
        near_limits.tell(self.warnings)

    def __exit__(self, kind: type[BaseException] | None, *_: object) -> None:
        """What comes of reading a journal that is at fault is told as that fault, which the program finds."""
        super().__exit__(None if kind and issubclass(kind, MISREAD) else kind)


class Writing(Session):
    """Goes on with a journal's file, or begins one; waits so many seconds where another session has that."""

    def __init__(self, path: str, patience: float = SECONDS) -> None:
        from .waiting import Turn
        self.turn = Turn(path, patience)
        try:
            while not self.has_begun(path):
                self.turn.again()
        except BaseException:
            self.turn.leave()
            raise

    def has_begun(self, path: str) -> bool:
        """Whether a program has the journal, which is begun here; no other session does then."""
        super().__init__(path, [f"--journal={path}"])
        try:
            list(Session.each(self, [EMPTY]))
        except BaseException as fault:
            super().leave()
            if isinstance(fault, InUse):
                return False
            raise
        return True

    def leave(self) -> None:
        super().leave()
        self.turn.leave()

    def warn(self) -> None:
        near_limits.warn(self.path)
