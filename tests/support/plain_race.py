"""What a race of files may print: each reply is judged at its place of the journal that the race printed, by the plain
session and the plain journal that stand beside. It shares nothing with the program."""
import json
import os
from collections import defaultdict
from collections.abc import Iterable, Sequence
from functools import lru_cache

from tests.support.plain_journal import Replay
from tests.support.plain_session import PlainSession, Requirements, read_json
from tests.support.program import journal_line

FIRST = "registry-journal 2"


@lru_cache(maxsize=10_000)
def stamped(reply: str, place: int, seat: int) -> str:
    """A reply as a seat of a race gives it, at this place."""
    return json.dumps({**json.loads(reply), "place": place, "seat": seat}, sort_keys=True, separators=(",", ":"),
                      ensure_ascii=False)


@lru_cache(maxsize=10_000)
def unstamped(reply: str, place: int, seat: int) -> str:
    """The reply of a seat of a race as a session gives it; unchanged where it is not written as it has to be."""
    members = {name: value for name, value in json.loads(reply).items() if name not in ("place", "seat")}
    bare = json.dumps(members, separators=(",", ":"), ensure_ascii=False)
    return bare if stamped(bare, place, seat) == reply else reply


class RaceFault(Exception):
    """Why a race may not have printed this."""


def demand(holds: object, told: str) -> None:
    if not holds:
        raise RaceFault(told)


class Told:
    """A line of a file with its reply."""

    def __init__(self, seat: int, line: bytes, reply: str) -> None:
        self.seat, self.line = seat, line
        members = read_json(reply.encode())
        demand(isinstance(members, dict) and type(members.get("place")) is int and members.get("seat") == seat,
               f"seat {seat} is told {reply}")
        self.place, self.is_own = members["place"], '"ok"' in reply
        self.reply = unstamped(reply, self.place, seat)

    def asked(self, most: int) -> str:
        """The line as far as it is told."""
        return self.line[:most].decode(errors="replace")


def written(folder: str, files: Sequence[Iterable[bytes]]) -> list[str]:
    """The paths of files in a folder that have these lines."""
    paths = [os.path.join(folder, f"lines{number}") for number in range(len(files))]
    for path, lines in zip(paths, files):
        with open(path, "wb") as out:
            out.writelines(line + b"\n" for line in lines)
    return paths


def told_in(files: Sequence[Sequence[bytes]], lines: Sequence[str]) -> list[Told]:
    """The lines of these files with their replies, which stand in a row."""
    demand(len(lines) >= sum(map(len, files)), "a line has no reply")
    replies = iter(lines)
    return [Told(seat, line, next(replies)) for seat, asked in enumerate(files, 1) for line in asked]


def judge(files: Sequence[Sequence[bytes]], printed: str, plain: PlainSession | None = None) -> int:
    """Judges what a race of these files, each a list of lines in bytes, printed; answers how many entries there are."""
    lines = printed.split("\n")
    demand(lines.pop() == "", "the last line is not ended")
    told = told_in(files, lines)
    lines = lines[len(told):]
    demand(lines[:1] == [FIRST] and lines[-1] == f"end {len(lines) - 2}",
           f"a journal is printed as {lines[:1]} .. {lines[-1:]}")
    stand(lines[1:-1], told, judge_replies(told, plain))
    return len(lines) - 2


def judge_replies(told: Sequence[Told], plain: PlainSession | None = None) -> dict[int, Told]:
    """Judges each reply after the commands that were accepted before its place; answers these, by place."""
    plain, seen, own = plain or PlainSession(), defaultdict[int, int](int), {}
    for it in told:
        # a seat loses nothing that it has seen, and what it enters comes after that
        demand(seen[it.seat] + it.is_own <= it.place,
               f"seat {it.seat} was at place {seen[it.seat]}, and then answers {it.asked(500)} at place {it.place}")
        seen[it.seat] = it.place
    for it in sorted(told, key=lambda it: (it.place, not it.is_own)):
        if it.is_own:
            demand(it.place not in own, f"two commands are accepted at place {it.place}")
            own[it.place] = it
        fault = plain.fault(it.line, it.reply)
        demand(not fault,
               f"seat {it.seat} at place {it.place}: {it.asked(2000)}\n answered {it.reply[:2000]}\n {fault}")
    return own


def stand(entries: Sequence[str], told: Iterable[Told], own: dict[int, Told]) -> None:
    """Each entry of the journal is the command that is told as accepted there, or what was learnt."""
    journal = Replay()
    demand(all(it.place <= len(entries) for it in told), "a reply is of a place behind the journal's end")
    for place, entry in enumerate(entries, 1):
        demand(journal.accepts(entry.encode(), Requirements()), f"entry {place} is at fault: {entry[:500]}")
        is_learnt, found = entry.startswith('{"derivation"'), own.get(place)
        demand(not (is_learnt and found),
               f"at place {place} a command is told as accepted, and what was learnt stands there")
        demand(is_learnt or found, f"no seat was told that its command stands at place {place}")
        demand(is_learnt or found and journal_line(found.line.decode()) == entry,
               f"at place {place} stands {entry[:500]}, told {found and found.asked(500)}")
