"""Sessions in this process, for `Registry(embedded=True)`, and those that are seats of one journal."""
from __future__ import annotations

import contextlib
import ctypes
import functools
import os
import threading
import weakref
from collections.abc import Callable, Sequence
from pathlib import Path
from typing import TypeVar, cast

from .replies import Ended, Refusal, Reply, answer
from .requests import FilePath, Request, written
from .waiting import CLOSED, Futures

Item = TypeVar("Item")

ROOM = 65_536  # bytes of replies that are taken at once
MOST_WORDS = 4096  # bytes of what the library tells of a fault
LIBRARY = "libregistryd.so"
NUMBER, SIZE, PLACE = ctypes.c_uint64, ctypes.c_size_t, ctypes.POINTER(ctypes.c_size_t)


class Stamp(ctypes.Structure):
    """Where a seat answered."""
    _fields_ = [("place", ctypes.c_uint32), ("seat", ctypes.c_uint32)]


# The calls of registryd.h that are used here, with what they take; each answers a number, and 0 where all is well.
CALLS = {
    "open_embedded": (ctypes.c_char_p, ctypes.c_char_p, ctypes.POINTER(NUMBER), ctypes.c_char_p, SIZE),
    "open_embedded_journal": (ctypes.c_char_p, ctypes.POINTER(NUMBER), ctypes.c_char_p, SIZE),
    "open_seats": (ctypes.c_char_p, SIZE, ctypes.POINTER(NUMBER), SIZE, ctypes.c_char_p, SIZE),
    "open_seats_journal": (ctypes.c_char_p, SIZE, ctypes.POINTER(NUMBER), SIZE, ctypes.c_char_p, SIZE),
    "journal": (NUMBER, ctypes.c_char_p, SIZE, PLACE),
    "stamp": (ctypes.c_char_p, SIZE, ctypes.POINTER(Stamp)),
    "ask": (NUMBER, ctypes.c_char_p, SIZE, ctypes.c_char_p, SIZE, PLACE, PLACE),
    "take": (NUMBER, ctypes.c_char_p, SIZE, PLACE, PLACE),
    "error": (NUMBER, ctypes.c_char_p, SIZE),
    "save": (NUMBER,),
    "close": (NUMBER,),
}
MISUSED, NO_MEMORY = 1, 2
ANSWERS = {MISUSED: "the library was misused, as by a process that was forked", NO_MEMORY: "there is no memory"}


@functools.cache
def loaded(path: str) -> ctypes.CDLL:
    library = ctypes.CDLL(path)
    for name, takes in CALLS.items():
        call = getattr(library, f"registryd_{name}")
        call.argtypes, call.restype = takes, ctypes.c_int
    return library


def library_path(library: FilePath | None) -> str:
    if named := library or os.environ.get("REGISTRYD_LIBRARY"):
        return os.fspath(named)
    # from PREFIX/share/registryd/clients/python/registryd
    installed = Path(__file__).resolve().parent / "../../../../../lib" / LIBRARY
    return str(installed) if installed.is_file() else LIBRARY


class Embedded:
    """A session in this process, by the calls of the library. One thread at a time is in it."""

    def __init__(self, library: ctypes.CDLL, number: int) -> None:
        self._library, self._number = library, number
        self._room = ctypes.create_string_buffer(ROOM)
        # how many bytes were taken, and how many are left to take
        self._length, self._left = SIZE(), SIZE()
        self._takes = (self._room, ROOM, ctypes.pointer(self._length), ctypes.pointer(self._left))
        self._lock = threading.RLock()  # which a thread can give back only where it has it
        self._asker: int | None = None  # the thread that asks
        self._is_taken = True  # whether all replies are: not where a call was broken off
        self._fault = ""  # why no more lines are taken
        # where nobody has the session any more it is closed; not at the end of Python, when a search may still run
        self._forget = weakref.finalize(self, self._library.registryd_close, self._number)
        self._forget.atexit = False

    def call(self, request: Request) -> Reply:
        text, fault = self._asked(written(request))
        if fault:
            raise Ended(fault)
        reply = answer(text)
        if isinstance(reply, Refusal):
            raise reply
        return reply

    def send(self, lines: Sequence[bytes], futures: Futures) -> None:
        text, fault = self._asked(b"".join(lines))
        replies = text.splitlines()
        for reply, future in zip(replies, futures):
            future.settle(answer(reply))
        for future in futures[len(replies):]:
            future.settle(Ended(fault))

    def _asked(self, lines: bytes) -> tuple[bytes, str]:
        """The replies to lines; fewer where the session has ended on the way, and then why it has."""
        if self._asker == threading.get_ident():
            raise RuntimeError("a call of this thread is under way: a signal's handler can't make another")
        return self._alone(lambda: self._exchanged(lines))

    def _alone(self, work: Callable[[], Item], seconds: float | None = None) -> Item:
        """Does what no two threads do at once, and gives the lock back wherever it is broken off."""
        try:
            if not self._lock.acquire(timeout=-1 if seconds is None else seconds):
                raise TimeoutError(f"a search of the session still runs after {seconds:g} seconds, "
                                   "and can't be ended in this process")
            done = work()
            self._lock.release()
            return done
        except BaseException:
            if self._asker == threading.get_ident():
                self._asker = None
            with contextlib.suppress(RuntimeError):  # this thread does not have it
                self._lock.release()
            raise

    def _exchanged(self, lines: bytes) -> tuple[bytes, str]:
        if self._fault:
            raise Ended(self._fault)
        self._asker = threading.get_ident()
        if not self._is_taken:
            self._take_left()
        self._is_taken = False
        answered = self._library.registryd_ask(self._number, lines, len(lines), *self._takes)
        pieces = [] if answered else [self._taken()]
        if answered:
            self._fault = self._fault or told_by(answered, self._words())
        if answered or self._left.value:
            pieces += self._take_left()  # where it failed, what came before may be taken
        self._is_taken, self._asker = True, None
        return b"".join(pieces), self._fault

    def _take_left(self) -> list[bytes]:
        """What is left to take of the last replies."""
        pieces = []
        while self._library.registryd_take(self._number, *self._takes) not in (MISUSED, NO_MEMORY):
            pieces.append(self._taken())
            if not self._left.value:
                break
        return pieces

    def _taken(self) -> bytes:
        return cast(bytes, self._room[:self._length.value])

    def _words(self) -> ctypes.Array[ctypes.c_char]:
        words = ctypes.create_string_buffer(MOST_WORDS)
        self._library.registryd_error(self._number, words, MOST_WORDS)
        return words

    def close(self, seconds: float | None) -> None:
        if failed := self._alone(self._close, seconds):
            raise Ended(failed)

    def _close(self) -> str:
        """Closes the session, unless it is closed; answers how it failed."""
        if not self._forget.alive:
            return ""
        was_begun, failed = self._fault == CLOSED, "" if self._fault == CLOSED else self._fault
        self._fault = CLOSED
        if not failed and (answered := self._library.registryd_save(self._number)):
            # a call that was broken off may have come as far as to close it
            failed = "" if was_begun and answered == MISUSED else told_by(answered, self._words())
        self._end()
        return failed

    def kill(self) -> None:
        self._alone(self._end)

    def _end(self) -> None:
        self._fault = CLOSED
        if self._forget.alive:
            self._library.registryd_close(self._number)
            self._forget.detach()


class Seated(Embedded):
    """A session that is a seat of a journal, which others share."""
    _last = b""  # the last replies

    def _exchanged(self, lines: bytes) -> tuple[bytes, str]:
        replies, fault = super()._exchanged(lines)
        self._last = replies or self._last
        return replies, fault

    def place(self) -> int:
        line, stamp = self._last[self._last.rfind(b"\n", 0, -1) + 1:], Stamp()
        self._library.registryd_stamp(line, len(line), stamp)
        return int(stamp.place)

    def journal(self) -> bytes:
        return self._alone(self._journal)

    def _journal(self) -> bytes:
        if self._fault:
            raise Ended(self._fault)
        room, length = self._room, SIZE()
        while answered := self._library.registryd_journal(self._number, room, len(room), length):
            if answered != NO_MEMORY or not length.value:
                raise Ended(told_by(answered, self._words()))
            # others may enter more before it is copied
            room = ctypes.create_string_buffer(2 * length.value)
        return cast(bytes, room[:length.value])


def open_session(library: FilePath | None, journal: FilePath | None, load: FilePath | None,
                 save: FilePath | None) -> Embedded:
    found, number, words = loaded(library_path(library)), NUMBER(), ctypes.create_string_buffer(MOST_WORDS)
    if journal is not None:
        answered = found.registryd_open_embedded_journal(bytes_of(journal), number, words, MOST_WORDS)
    else:
        answered = found.registryd_open_embedded(bytes_of(load), bytes_of(save), number, words, MOST_WORDS)
    if answered:
        raise Ended(told_by(answered, words))
    return Embedded(found, number.value)


def open_seats(library: FilePath | None, count: int, keep: FilePath | None, load: FilePath | None,
               entries: int) -> list[Seated]:
    found, numbers, words = loaded(library_path(library)), (NUMBER * count)(), ctypes.create_string_buffer(MOST_WORDS)
    opening = found.registryd_open_seats if keep is None else found.registryd_open_seats_journal
    if answered := opening(bytes_of(load if keep is None else keep), entries, numbers, count, words, MOST_WORDS):
        raise Ended(told_by(answered, words))
    return [Seated(found, number) for number in numbers]


def bytes_of(path: FilePath | None) -> bytes | None:
    return None if path is None else os.fsencode(path)


def told_by(answered: int, words: ctypes.Array[ctypes.c_char]) -> str:
    """What the library has told of a call that didn't answer 0."""
    return words.value.decode(errors="replace") or ANSWERS.get(answered, f"the library answered {answered}")
