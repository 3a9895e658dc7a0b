"""The library for C, `libregistryd.a` and `libregistryd.so`: built over the archive `embedded` by the Makefile of
clients/c.

It stands in `out/library`, with a note of what it was made from: one whose sources or archive are others now is built
anew, which takes seconds."""
import dataclasses
import fcntl
import hashlib
import json
import os
import shutil
import subprocess
from collections.abc import Iterable
from pathlib import Path

from dev.building import kit_commands, programs
from dev.building.progress import TOP

SOURCES, FOLDER = TOP / "clients" / "c", TOP / "out" / "library"
ARCHIVE = "embedded"
STATIC, SHARED = "libregistryd.a", "libregistryd.so.0"
FILES = (STATIC, SHARED)
# What the Makefile takes to build it.
COMMANDS = ("make", "cc", "ld", "ar", "objcopy")


class Unbuilt(Exception):
    """It can't be built here; one line says why."""


def heap() -> Path:
    """The kit's functions by which an archive asks for memory."""
    return kit_commands.folder() / "c" / "liblibc_c.a"


@dataclasses.dataclass(frozen=True)
class Library:
    folder: Path
    # of the archive within: whether it was proved
    kind: str


def archive() -> tuple[Path, str]:
    """The archive to build over, and its kind: that of `EMBEDDED` (none where that is empty), else what stands."""
    named = os.environ.get(ARCHIVE.upper())
    if named == "":
        raise Unbuilt("./test --quick leaves the library for C to ./test")
    if named:
        return Path(named), programs.COMPILED
    program = programs.current(ARCHIVE)
    if not program:
        raise Unbuilt(f"no archive {ARCHIVE} stands of just these sources: run tools/build_library first")
    return program.path, program.kind


def sum_of(files: Iterable[Path]) -> str:
    whole = hashlib.sha256()
    for file in files:
        data = file.read_bytes()
        whole.update(f"{file.name} {len(data)}\n".encode() + data)
    return whole.hexdigest()


def make(to: str | Path, over: str | Path, *words: str) -> None:
    """Builds it in a folder, over an archive; more words are passed to `make`."""
    for command in COMMANDS:
        if not shutil.which(command):
            raise Unbuilt(f"there is no {command} (Debian: gcc libc6-dev make)")
    places = f"EMBEDDED={over}", f"HEAP={heap()}", f"OUT={to}"
    done = subprocess.run(["make", "-s", "-f", SOURCES / "Makefile", *places, *words], stdin=subprocess.DEVNULL,
                          stdout=subprocess.PIPE, stderr=subprocess.STDOUT, text=True, errors="replace", check=False)
    if done.returncode:
        raise Unbuilt(f"make fails in clients/c: {done.stdout.strip()}")


def note(of: str) -> dict[str, str]:
    """What is noted of the library: from files of which sum it was made, and its own sum."""
    return {"from": of, "files": sum_of(FOLDER / file for file in FILES)}


def is_current(of: str) -> bool:
    """Whether what stands was made from files of this sum, and is as it was made."""
    try:
        return bool(json.loads((FOLDER / "made.json").read_bytes()) == note(of))
    except (OSError, ValueError):
        return False


def made_from(over: Path) -> str:
    """A sum of what it is made from."""
    return sum_of([*sorted(SOURCES.glob("*.[ch]")), SOURCES / "Makefile", SOURCES / "exports.txt", over, heap()])


def standing() -> Library | None:
    """The library that stands of just these files, if one does. Nothing is built."""
    try:
        over, kind = archive()
        return Library(FOLDER, kind) if is_current(made_from(over)) else None
    except (Unbuilt, OSError, subprocess.CalledProcessError):
        return None


def built() -> Library:
    """The library of just these files, which is built where it does not stand."""
    over, kind = archive()
    of = made_from(over)
    FOLDER.mkdir(parents=True, exist_ok=True)
    with open(FOLDER / "lock", "w", encoding="ascii") as lock:
        fcntl.flock(lock, fcntl.LOCK_EX)
        if not is_current(of):
            make(FOLDER, over, "-B")
            (FOLDER / "made.json").write_text(json.dumps(note(of), indent=1) + "\n", encoding="ascii")
    return Library(FOLDER, kind)


def pkg_config(version: str, kind: str) -> str:
    """The file that tells `pkg-config` of an installed library."""
    text = (SOURCES / "registryd.pc.in").read_text(encoding="ascii")
    return text.replace("@VERSION@", version).replace("@PROVED@", "yes" if kind == programs.PROVED else "no")
