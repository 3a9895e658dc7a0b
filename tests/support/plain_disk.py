"""What a crash of the machine may leave of the files that a program wrote, told by the calls that it made there, which
`tests/support/c/watch_calls.c` notes. Of what was done at a file since it was last synced, a beginning stands; its name
lasts once the folder was synced behind it."""
import os
from collections.abc import Iterator, Mapping
from dataclasses import dataclass, field
from typing import Any

CREATES, TRUNCATES, APPENDS = os.O_CREAT, os.O_TRUNC, os.O_APPEND


@dataclass
class Call:
    name: str
    answer: int
    number: int  # a descriptor, or how a file is opened
    given: bytes
    other: bytes


def calls_in(log: bytes) -> Iterator[Call]:
    for line in log.decode("ascii").splitlines():
        name, answer, number, given, other = line.split(" ")
        yield Call(name, int(answer), int(number), bytes.fromhex(given), bytes.fromhex(other))


@dataclass
class File:
    """What a file had when it was synced, and what was done there since: bytes at a place, or a length."""
    synced: bytes = b""
    changes: list[tuple[int, bytes | None]] = field(default_factory=list)

    @property
    def now(self) -> bytes:
        text = self.synced
        for change in self.changes:
            text = changed(text, *change)
        return text

    def may_be_left(self) -> Iterator[bytes]:
        """Each text that a crash may leave: all changes up to one, and a part of that one."""
        text = self.synced
        yield text
        for place, new in self.changes:
            if new is not None:
                yield from (changed(text, place, new[:count]) for count in range(1, len(new) + 1))
            text = changed(text, place, new)
            yield text

    def sync(self) -> None:
        self.synced, self.changes = self.now, []


def changed(text: bytes, place: int, new: bytes | None) -> bytes:
    if new is None:
        return text[:place].ljust(place, b"\0")
    return text[:place].ljust(place, b"\0") + new + text[place + len(new):]


class Disk:
    """The files that stand, by name; the names that last are those that a crash leaves."""

    def __init__(self, folder: str, files: Mapping[str, bytes]) -> None:
        self.folder = folder
        self.names = {self.path(name): File(text) for name, text in files.items()}
        self.lasting = dict(self.names)
        self.went_out = b""
        self.opened: dict[int, list[Any]] = {}  # by descriptor: the file, its place, whether it is appended to

    def path(self, name: str | bytes) -> str:
        return os.path.normpath(os.path.join(self.folder, os.fsdecode(name)))

    def follow(self, call: Call) -> None:
        if call.answer >= 0 and hasattr(self, call.name):
            getattr(self, call.name)(call)

    def open(self, call: Call) -> None:
        path = self.path(call.given)
        if path == self.folder:
            self.opened[call.answer] = [self.folder, 0, False]
            return
        file = self.names.setdefault(path, File()) if call.number & CREATES else self.names.get(path, File())
        if call.number & TRUNCATES:
            file.changes.append((0, None))
        self.opened[call.answer] = [file, 0, bool(call.number & APPENDS)]

    def close(self, call: Call) -> None:
        self.opened.pop(call.number, None)

    def read(self, call: Call) -> None:
        if call.number in self.opened:
            self.opened[call.number][1] += call.answer

    def lseek(self, call: Call) -> None:
        self.opened[call.number][1] = call.answer

    def write(self, call: Call) -> None:
        if call.number == 1:
            self.went_out += call.given
        elif call.number in self.opened:
            held = self.opened[call.number]
            place = len(held[0].now) if held[2] else held[1]
            held[0].changes.append((place, call.given))
            held[1] = place + call.answer

    def ftruncate(self, call: Call) -> None:
        file = self.opened[call.number][0]
        if int(call.given) != len(file.now):
            file.changes.append((int(call.given), None))

    def fsync(self, call: Call) -> None:
        held = self.opened[call.number][0]
        if held is self.folder or held == self.folder:
            self.lasting = dict(self.names)
        else:
            held.sync()

    fdatasync = fsync

    def rename(self, call: Call) -> None:
        self.names[self.path(call.other)] = self.names.pop(self.path(call.given))

    def link(self, call: Call) -> None:
        self.names[self.path(call.other)] = self.names[self.path(call.given)]

    def unlink(self, call: Call) -> None:
        del self.names[self.path(call.given)]

    def may_be_left(self, name: str | bytes) -> Iterator[bytes | None]:
        """Each text that a crash may leave under a name; none where the file may be gone."""
        path = self.path(name)
        for file in [self.lasting.get(path),
                     *([self.names.get(path)] if self.names.get(path) is not self.lasting.get(path) else [])]:
            yield from [None] if file is None else file.may_be_left()
