"""Puts files below a prefix, and removes them again, by a list that is kept there.

Everything is written beside its place first; then each file takes its place by one rename. So what fails on the way, as
a full disk does, leaves what stood there. The list names each file, and each folder that was made with a slash behind
it."""
from __future__ import annotations

import os
import shutil
from collections.abc import Iterable, Iterator, Sequence
from contextlib import contextmanager
from pathlib import Path
from typing import TYPE_CHECKING

if TYPE_CHECKING:
    from dev.installing.installed import Piece

LIST = "lib/registryd/installed"
# Where files wait until all of them are written.
NEW = ".registryd-new"
# Folders in which nothing stands but what was installed.
OWN = ("lib/registryd/", "share/registryd/")


class Refused(Exception):
    """Why nothing was installed or removed."""


def listed(prefix: Path) -> list[str]:
    """What the list below a prefix names; nothing where there is none."""
    try:
        lines = (prefix / LIST).read_text(encoding="utf-8").splitlines()
    except FileNotFoundError:
        return []
    if any(line.startswith("/") or ".." in line.split("/") for line in lines):
        raise Refused(f"{prefix / LIST} is not as it was written: it names what is not below {prefix}")
    return lines


def install(prefix: Path, pieces: Sequence[Piece]) -> None:
    """Puts these pieces below a prefix, in the place of what was installed there before."""
    before = listed(prefix)
    files = [*(piece.path for piece in pieces), LIST]
    for path in files:
        if os.path.lexists(prefix / path) and path not in before:
            raise Refused(f"{prefix / path} is there already, and no install put it there: move it away, "
                          "or name another prefix")
    shutil.rmtree(prefix / NEW, ignore_errors=True)
    missing = folders_to_make(prefix, files)
    try:
        with refusing("nothing was installed"):
            stage(prefix, missing, pieces)
    except Refused:
        shutil.rmtree(prefix / NEW, ignore_errors=True)
        leave(prefix, missing)
        raise
    now = sorted({*files, *missing, *(path for path in before if path.endswith("/"))})
    with refusing("what is installed is not whole: install it again, or remove it"):
        take_places(prefix, pieces, before, now)


@contextmanager
def refusing(state: str) -> Iterator[None]:
    """Tells why something was not done, with the file at which it failed, and what state that leaves."""
    try:
        yield
    except KeyboardInterrupt:
        raise Refused(f"it was broken off; {state}") from None
    except OSError as fault:
        why = f"{fault.filename}: {fault.strerror}" if fault.filename else str(fault)
        raise Refused(f"{why}; {state}") from None


def stage(prefix: Path, folders: Iterable[str], pieces: Iterable[Piece]) -> None:
    """Makes the folders that are missing, and writes pieces beside their places, under their numbers."""
    for folder in [*folders, NEW]:
        (prefix / folder).mkdir(parents=folder == "./")
        (prefix / folder).chmod(0o755)
    for number, piece in enumerate(pieces):
        put(prefix / NEW / str(number), piece)


def put(path: Path, piece: Piece) -> None:
    if piece.link:
        path.symlink_to(piece.link)
    else:
        path.write_bytes(piece.data)
        path.chmod(piece.mode)


def take_places(prefix: Path, pieces: Iterable[Piece], before: Sequence[str], now: Sequence[str]) -> None:
    """Puts what is staged in its places, and takes away what only an earlier install had."""
    # if it is broken off, the list names all that may be there, old and new
    write_list(prefix, sorted({*before, *now}))
    for number, piece in enumerate(pieces):
        os.replace(prefix / NEW / str(number), prefix / piece.path)
    (prefix / NEW).rmdir()
    take_away(prefix, [path for path in before if path not in now])
    write_list(prefix, now)


def folders_to_make(prefix: Path, paths: Iterable[str]) -> list[str]:
    """The folders that are missing below a prefix for these paths, the upper ones first; the prefix itself is `./`."""
    found = ["./"] if not prefix.is_dir() else []
    for path in paths:
        parts = path.split("/")[:-1]
        for end in range(1, len(parts) + 1):
            folder = "/".join(parts[:end]) + "/"
            if folder not in found and not (prefix / folder).is_dir():
                found.append(folder)
    return found


def write_list(prefix: Path, lines: Iterable[str]) -> None:
    new = prefix / f"{LIST}.new"
    new.write_text("".join(f"{line}\n" for line in lines), encoding="utf-8")
    new.chmod(0o644)
    os.replace(new, prefix / LIST)


def remove(prefix: Path) -> list[Path]:
    """Removes what was installed below a prefix; answers the folders that stay since something else is in them."""
    lines = listed(prefix)
    if not lines:
        raise Refused(f"nothing is installed below {prefix}: {prefix / LIST} is not there")
    folders = [path for path in lines if path.endswith("/")]
    with refusing("not all is removed"):
        shutil.rmtree(prefix / NEW, ignore_errors=True)
        # what Python keeps beside a module that was imported
        for folder in folders:
            if folder.startswith(OWN):
                shutil.rmtree(prefix / folder / "__pycache__", ignore_errors=True)
        take_away(prefix, [path for path in lines if path not in folders and path != LIST])
        take_away(prefix, [f"{LIST}.new", LIST])
    return leave(prefix, folders)


def take_away(prefix: Path, files: Iterable[str]) -> None:
    for path in files:
        (prefix / path).unlink(missing_ok=True)


def leave(prefix: Path, folders: Iterable[str]) -> list[Path]:
    """Removes those folders in which nothing is left, the lower ones first; answers those in which something is."""
    kept = []
    for folder in sorted(folders, key=lambda name: (name != "./", name.count("/"), name), reverse=True):
        path = prefix / folder
        if path.is_dir():
            try:
                path.rmdir()
            except OSError:
                kept.append(path)
    return kept
