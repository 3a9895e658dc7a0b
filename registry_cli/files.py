"""Reads and replaces files of people: what is written stands whole under its name, or what stood there is as it was."""
from __future__ import annotations

import os

from .failures import Failed, one_line
from .shapes import Callable, Path

MOST_BYTES = 2 ** 28  # of a file that is imported


def read_file(path: str) -> bytes:
    try:
        with open(path, "rb") as file:
            return file.read()
    except OSError as fault:
        raise Failed(one_line(fault)) from None


def read_bounded(path: str | Path) -> bytes:
    """The bytes of a file that has no more than MOST_BYTES: a device may have no end."""
    with open(path, "rb") as file:
        text = file.read(MOST_BYTES + 1)
    if len(text) > MOST_BYTES:
        raise Failed(f"{path} has more than {MOST_BYTES:,} bytes, which is the limit")
    return text


def read_plain(path: str | Path) -> bytes:
    """The same of a plain file: nothing may ever come out of a pipe."""
    if os.path.exists(path) and not os.path.isfile(path):
        raise Failed(f"{path} is no plain file")
    return read_bounded(path)


def write_file(path: str, text: str) -> None:
    """Puts a text in the place of a file. A link stays one, and the mode is as it was."""
    path = os.path.realpath(path)
    try:
        if os.path.exists(path) and not os.path.isfile(path):  # a device is written itself
            with open(path, "w", encoding="utf-8") as file:
                file.write(text)
            return
        mode = os.stat(path).st_mode & 0o7777 if os.path.exists(path) else 0o666 & ~umask()
        write_whole(path, text.encode(), mode, os.replace)
    except OSError as fault:
        raise Failed(f"{path} is not written: {fault.strerror or fault}") from None


def write_whole(path: str, text: bytes, mode: int, place: Callable[[str, str], object]) -> None:
    """Writes a file beside its place, and once it is whole has `place` give it that name."""
    import tempfile
    number, new = tempfile.mkstemp(prefix=os.path.basename(path) + ".", dir=os.path.dirname(path))
    try:
        with open(number, "wb") as file:
            file.write(text)
            file.flush()
            os.fchmod(number, mode)
            os.fsync(number)
        place(new, path)
    finally:
        if os.path.lexists(new):
            os.unlink(new)
    sync_folder(os.path.dirname(path))


def umask() -> int:
    before = os.umask(0o077)
    os.umask(before)
    return before


def sync_folder(folder: str) -> None:
    number = os.open(folder, os.O_RDONLY)
    try:
        os.fsync(number)
    finally:
        os.close(number)
