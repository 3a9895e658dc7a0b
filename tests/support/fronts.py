"""Fronts over etcd as a client sees them, and a judge of what several of them answered by the journal that is printed
in the end. The judge shares nothing with the fronts and the program."""
import bisect
import itertools
import json
import re
import signal
import subprocess
import sys
import time
from collections.abc import Collection, Iterable, Sequence
from typing import Any, NamedTuple

from registry_cli import tied
from tests.support.plain_session import PlainSession, read_request
from tests.support.program import PROGRAM, TOP, journal_line

ETCD = [sys.executable, "-S", TOP, "registry_etcd"]
NOT_KEPT = "was answered before, and its reply is no longer kept"
STAMP = re.compile(r'"place":(\d+),(.*)"revision":(\d+),"seat":(\d+)')


class Told(NamedTuple):
    """A line with its reply, when the one was asked and the other there, and whether the front was begun again in
    between."""
    line: str
    reply: str
    asked: float
    had: float
    is_again: bool = False

    @property
    def found(self) -> Any:
        return json.loads(self.reply)

    @property
    def plain(self) -> str:
        """The reply as a session gives it, without place and seat."""
        return STAMP.sub(r'\2"revision":\3', self.reply, count=1)


def words(what: str, endpoints: Iterable[str], *more: str) -> list[str]:
    # without what is installed beside: a front needs the standard library alone, and begins sooner so
    return [*ETCD, what, "--endpoints", ",".join(endpoints), "--program", PROGRAM, *more]


def run(what: str, endpoints: Iterable[str], *more: str, given: bytes = b"") -> subprocess.CompletedProcess[bytes]:
    return subprocess.run(words(what, endpoints, *more), input=given, capture_output=True, timeout=100)


class Front:
    """A front that is asked, line by line or several at once. It may be killed, and is begun again by the same name
    with the same lines. Where cells may be dropped it may say that a reply is no longer kept: then it goes on by
    another name, and of the lines that had no reply it is open whether they stand."""

    def __init__(self, endpoints: Iterable[str], seat: int, *more: str, writer: str | None = None,
                 may_forget: bool = False) -> None:
        self.words = words("serve", endpoints, "--seat", str(seat), *more)
        self.seat, self.writer, self.may_forget, self.names = seat, writer, may_forget, 0
        self.told: list[Told] = []
        self.child: Any = None
        self.first = 0  # of what was told: where this name begins
        self.open: list[str] = []  # lines that may stand

    def begin(self) -> None:
        """Begins, or begins again, and then asks once more what was answered: what stands in a cell is answered
        as before."""
        named = ["--writer", f"{self.writer}-{self.names}" if self.names else self.writer] if self.writer else []
        self.child = tied.Tied(self.words + named, stdin=subprocess.PIPE, stdout=subprocess.PIPE,
                               stderr=subprocess.PIPE, text=True)
        told = self.told[self.first:]
        for old, reply in zip(told, self.replies([old.line for old in told])):
            # one that was published before may have been answered without a cell, and is answered anew then
            again = "AlreadyPublished" in reply if "AlreadyPublished" in old.reply else reply == old.reply
            assert again or not is_entered(old.line), f"{old.line} was answered {old.reply} and then {reply}"

    def replies(self, lines: Sequence[str]) -> list[str]:
        """The replies to lines that are sent together, as many as come before the front ends."""
        told: list[str] = []
        try:
            for at in range(0, len(lines), 100):
                some = lines[at:at + 100]
                self.child.stdin.write("".join(line + "\n" for line in some))
                self.child.stdin.flush()
                told += itertools.takewhile(lambda reply: reply.endswith("\n"),
                                            (self.child.stdout.readline() for _ in some))
                if len(told) < at + len(some):
                    break
        except OSError:
            pass
        return [reply[:-1] for reply in told]

    def send(self, lines: Sequence[str]) -> list[str] | None:
        """The replies to lines that are sent together; none where the front ended before."""
        told = self.replies(lines)
        return told if len(told) == len(lines) else None

    def ask(self, *lines: str) -> list[str]:
        """Asks until these lines are answered, and begins the front again where it ended."""
        asked, is_again = time.monotonic(), False
        while True:
            replies = self.send(lines)
            if replies is not None:
                self.told += [Told(line, reply, asked, time.monotonic(), is_again) for line,
                              reply in zip(lines, replies)]
                return replies
            status, said = self.end()
            if status == 1 and self.may_forget and NOT_KEPT in said:
                self.names, self.first = self.names + 1, len(self.told)
                self.open += lines
            else:
                assert status == -signal.SIGKILL, f"the front ended by itself: {status} {said}"
            self.begin()
            is_again = True

    def end(self) -> tuple[int, str]:
        """Ends the front, and answers its status and what it says of itself."""
        if self.child.stderr.closed:
            return self.child.returncode, "it had ended"
        try:
            self.child.stdin.close()
        except OSError:
            pass
        said = self.child.stderr.read()
        self.child.stdout.close()
        self.child.stderr.close()
        return self.child.wait(timeout=100), said


def fault(printed: str, fronts: Collection[Iterable[Told]], opened: Iterable[str] = ()) -> str | None:
    """What is wrong with what these lists of `Told` say, if the printed file is the journal; nothing where all is
    right. Of opened lines nobody was told whether they stand."""
    lines = printed.split("\n")
    if lines[0] != "registry-journal 1" or lines[-2:] != [f"end {len(lines) - 3}", ""]:
        return f"no journal: {lines[:1]} .. {lines[-2:]}"
    journal, told = lines[1:-2], [it for front in fronts for it in front]
    return (next(filter(None, map(order_fault, fronts)), None) or accepted_fault(journal, told, opened)
            or place_fault(told) or time_fault(told) or lawful_fault(journal, told))


def order_fault(front: Iterable[Told]) -> str | None:
    """Within one front places and revisions never go back, and each accepted command has a place of its own behind
    those before it. Where a front was begun again, a command that stood already has its place from before, though a
    line that changes nothing and was sent in front of it is answered anew."""
    before = accepted = (0, 0)
    for it in front:
        here, is_accepted = (it.found["place"], it.found["revision"]), "ok" in it.found
        least = accepted if it.is_again and is_entered(it.line) else before
        if here[0] < least[0] or here[1] < least[1] or (is_accepted and here[1] <= accepted[1]):
            return f"out of order: {it.reply} after {least}"
        before = max(before, here)
        accepted = here if is_accepted else accepted
    return None


def is_entered(line: str) -> bool:
    return json.loads(line)["op"] in ("publish", "yank", "unyank")


def accepted_fault(journal: Sequence[str], told: Iterable[Told], opened: Iterable[str]) -> str | None:
    """The journal has each accepted command where its reply says, and no other, but for some of those that are open."""
    accepted = [it for it in told if "ok" in it.found]
    stands = {it.found["revision"]: it for it in accepted}
    if len(stands) < len(accepted):
        return "two commands have one revision"
    may_stand = [journal_line(line) for line in opened]
    untold = [number for number, line in enumerate(journal, 1) if number not in stands and not taken(may_stand, line)]
    missing = [number for number in stands if number > len(journal)]
    if untold or missing:
        return f"{len(journal)} entries, and commands were accepted at {sorted(untold + missing)[:5]} .."
    return next((f"{it.line} does not stand at {number}" for number, it in stands.items() if journal[number - 1]
                 != journal_line(it.line)), None)


def taken(lines: list[str], line: str) -> bool:
    """Takes a line out of a list, and answers whether it was there."""
    if line not in lines:
        return False
    lines.remove(line)
    return True


def place_fault(told: Iterable[Told]) -> str | None:
    """A place is one revision and one listing, whoever tells it, and a later place no earlier revision."""
    revisions: dict[int, int] = {}
    listings: dict[int, str] = {}
    for it in told:
        place, revision = it.found["place"], it.found["revision"]
        if revisions.setdefault(place, revision) != revision:
            return f"place {place} is revision {revisions[place]} and {revision}"
        if "packages" in it.found and listings.setdefault(place, it.plain) != it.plain:
            return f"two listings at place {place}"
    ordered = [revisions[place] for place in sorted(revisions)]
    return None if ordered == sorted(ordered) else "a later place has an earlier revision"


def time_fault(told: Collection[Told]) -> str | None:
    """Whoever asks after a command was answered finds it."""
    accepted = sorted((it.had, it.found["revision"]) for it in told if "ok" in it.found)
    ends, highest, most = [had for had, _ in accepted], [0], 0
    for _, revision in accepted:
        most = max(most, revision)
        highest.append(most)
    for it in told:
        known = highest[bisect.bisect_left(ends, it.asked)]
        if it.found["revision"] < known:
            return f"asked when revision {known} was told: {it.line} {it.reply}"
    return None


def lawful_fault(journal: Sequence[str], told: Iterable[Told]) -> str | None:
    """Each reply is one that a session may give after the accepted commands before it."""
    session = PlainSession()
    by_revision: dict[int, list[Told]] = {}
    for it in told:
        if "ok" not in it.found:
            by_revision.setdefault(it.found["revision"], []).append(it)
    for number in range(len(journal) + 1):
        for it in by_revision.pop(number, []):
            wrong = session.fault(it.line.encode(), it.plain)
            if wrong:
                return f"{it.line} {it.reply}: {wrong}"
        if number < len(journal):
            wrong = session.fault(journal[number].encode(),
                                  json.dumps({"ok": True, "revision": number + 1}, separators=(",", ":")))
            if wrong or read_request(journal[number].encode()) is None:
                return f"entry {number + 1}: {wrong}"
    return f"no such revision: {by_revision}" if by_revision else None
