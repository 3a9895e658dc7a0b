"""Which program stands: the one that was proved of just these sources, else the one that was compiled from them.

`out/proved/NAME` was built from proofs, by `./test` or `tools/build --proved`; `out/compiled/NAME` was compiled, and
nothing was proved of it. `out/unchecked/NAME` was compiled without its checks, for measurements: it is never the one
that is to be run. Beside each stands `NAME.json` with what it was made from, as sums: one whose sources, kit or own
bytes are others now is not taken. A static library, `libNAME.a`, stands in the same way. Run by itself, this prints
what `./registryd --version` tells."""
import contextlib
import dataclasses
import functools
import hashlib
import json
import os
import re
import shutil
import subprocess
from collections.abc import Iterator
from pathlib import Path

from dev.building.progress import TOP, crates_below

NAME = "registryd"
PROVED, COMPILED, UNCHECKED = "proved", "compiled", "unchecked"
# What programs are made from, and what says their version.
SOURCES = ("crates", "crates.txt", "HANDLES", "VERSION")
# What a compilation takes on an idle machine.
SECONDS = 110
# How far the time of a file may lie behind the clock, in nanoseconds.
LAG = 20_000_000
STATES = {
    PROVED: "The program is proved: just these sources were proved before it was built.",
    COMPILED: "The program is compiled from these sources, with checks as it runs. It is not proved on this machine: "
              "./test does that.",
}


@dataclasses.dataclass(frozen=True)
class Program:
    path: Path
    kind: str
    # of the sources that it was made from
    sum: str


def names() -> list[str]:
    return sorted(crate for crate in crates_below() if (TOP / "crates" / crate / "src" / "main.rt").is_file())


def libraries() -> list[str]:
    return re.findall(r"^(\w+) staticlib\b", (TOP / "crates.txt").read_text(encoding="utf-8"), re.M)


def file_name(name: str) -> str:
    """The name of what is built of a program's crate or of a library's."""
    return f"lib{name}.a" if name in libraries() else name


def version() -> str:
    return (TOP / "VERSION").read_text(encoding="ascii").strip()


def commit() -> str:
    """The commit of the checkout in short, with `+changes` where its sources differ from it; `unknown` without git."""
    given = {name: text for name, text in os.environ.items() if not name.startswith("GIT_")}

    def git(*words: str) -> str:
        command = ["git", "--no-optional-locks", "-C", str(TOP), *words]
        return subprocess.run(command, env=given, stdin=subprocess.DEVNULL, stdout=subprocess.PIPE,
                              stderr=subprocess.DEVNULL, text=True, check=True).stdout.strip()

    try:
        # an unpacked archive may lie inside the repository of something else
        if Path(git("rev-parse", "--show-toplevel")).resolve() != TOP:
            return "unknown"
        changes = "+changes" if git("status", "--porcelain", "--", *SOURCES) else ""
        return git("rev-parse", "--short", "HEAD") + changes
    except (OSError, subprocess.CalledProcessError):
        return "unknown"


@functools.lru_cache
def kit_version() -> str:
    """The version of the kit, or nothing where there is none."""
    try:
        return subprocess.run(["rt", "version"], stdin=subprocess.DEVNULL, stdout=subprocess.PIPE,
                              stderr=subprocess.DEVNULL, text=True, check=True).stdout.strip()
    except (OSError, subprocess.CalledProcessError):
        return ""


def files_of(name: str, with_proofs: bool) -> Iterator[Path]:
    """What a program is made from, in order: the files of its crates, and those that say which crates there are."""
    yield TOP / "crates.txt"
    if with_proofs:
        yield TOP / "HANDLES"
    for crate in sorted(crates_below(name)):
        for part in ("src", "specs", "proofs") if with_proofs else ("src",):
            for at, folders, files in os.walk(TOP / "crates" / crate / part):
                folders.sort()
                yield from (Path(at, file) for file in sorted(files))


def sources_sum(name: str, with_proofs: bool, by: str | None = None) -> str:
    """A sum of what a program is made from, and of the version of the kit that makes it, or of the one here."""
    whole = hashlib.sha256((kit_version() if by is None else by).encode())
    for file in files_of(name, with_proofs):
        data = file.read_bytes() if file.is_file() else b""
        whole.update(f"\n{file.relative_to(TOP)} {len(data)}\n".encode() + data)
    return whole.hexdigest()


def sum_of(file: Path) -> str:
    return hashlib.sha256(file.read_bytes()).hexdigest()


def place(name: str, kind: str) -> tuple[Path, Path]:
    """Where a program of this kind stands, and what tells of it."""
    path = TOP / "out" / kind / file_name(name)
    return path, path.with_name(f"{name}.json")


def stand(name: str, kind: str, built: Path, of: str, by: str) -> Program:
    """Puts a built program in its place, in one step; `of` is the sum of its sources, `by` the version of the kit."""
    path, beside = place(name, kind)
    path.parent.mkdir(parents=True, exist_ok=True)
    note = json.dumps({"kind": kind, "sources": of, "kit": by, "program": sum_of(built)}, indent=1) + "\n"
    # in between, what stands beside it tells of other bytes: then neither is taken
    for data, to, mode in ((built.read_bytes(), path, 0o755), (note.encode(), beside, 0o644)):
        new = to.with_name(f"{to.name}.new.{os.getpid()}")
        new.write_bytes(data)
        new.chmod(mode)
        os.replace(new, to)
    return Program(path, kind, of)


def standing(name: str, kind: str) -> tuple[Program | None, bool]:
    """The program of a kind that stands with its own bytes, and whether it was made from just these sources."""
    path, beside = place(name, kind)
    try:
        note = json.loads(beside.read_bytes())
        program = Program(path, note["kind"], note["sources"])
        if sum_of(path) != note["program"] or not os.access(path, os.X_OK) or program.kind != kind:
            return None, False
        # without a kit there is no other that could make it anew
        return program, program.sum == sources_sum(name, kind == PROVED, kit_version() or note["kit"])
    except (OSError, ValueError, KeyError, TypeError):
        return None, False


def made(name: str, kind: str) -> Program | None:
    """The program of a kind that was made from just these sources, if it stands."""
    program, is_current = standing(name, kind)
    return program if is_current else None


def current(name: str) -> Program | None:
    """The program that is to be run: of just these sources the proved one, else the one with checks, else none."""
    return made(name, PROVED) or made(name, COMPILED)


def is_older(name: str) -> bool:
    """Whether a program stands, and none of just these sources."""
    return not current(name) and any(standing(name, kind)[0] for kind in (PROVED, COMPILED))


def gate_built(name: str) -> Path:
    """Where the gate builds a program; the next gate takes it away."""
    return TOP / "crates" / name / "out" / file_name(name)


def path_for_tests(name: str) -> str:
    """The path of the program that tests and measurements run: the one that the environment names (`REGISTRYD`,
    `PROBE`), as `./test` has it, else the one that is to be run; where none stands, the path at which one will."""
    program = None if os.environ.get(name.upper()) else current(name)
    return os.environ.get(name.upper()) or str(program.path if program else place(name, COMPILED)[0])


def remember(name: str) -> Program | None:
    """The program that is to be run, which is noted for `./registryd`: that looks only whether a file has changed
    since. So the note is as old as the moment before the first file is read here."""
    note = TOP / "out" / f"{name}.current"
    new, before = note.with_name(f"{note.name}.{os.getpid()}"), None
    with contextlib.suppress(OSError):
        for kind in (PROVED, COMPILED):
            place(name, kind)[0].parent.mkdir(parents=True, exist_ok=True)
        new.touch()
        before = new.stat().st_mtime_ns - LAG
    program = current(name)
    with contextlib.suppress(OSError):
        if program and before:
            new.write_text(f"{program.path.relative_to(TOP)}\n{shutil.which('rt') or ''}\n", encoding="utf-8")
            os.utime(new, ns=(before, before))
            os.replace(new, note)
        new.unlink(missing_ok=True)
    return program


def in_words(name: str) -> str:
    """What `--version` says: the version, the commit, and what the program is that would be run."""
    program = current(name)
    if program:
        state = STATES[program.kind]
    elif is_older(name):
        state = ("The sources have changed since the program was built: its next use compiles it anew, "
                 "which takes minutes.")
    else:
        state = "The program is not built yet: its first use compiles it, which takes minutes."
    return f"{name} {version()}, commit {commit()}\n{state}"


if __name__ == "__main__":
    print(in_words(NAME))
