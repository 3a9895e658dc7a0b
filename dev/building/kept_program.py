"""Finds the program among what the kit's gate has proved on this machine, where it was made of the same files."""
import hashlib
import json
import os
import shutil
from pathlib import Path
from typing import Any

from dev.building import kit_commands


def kept(rt: Any, top: Any) -> tuple[str, str] | None:
    """Where the gate keeps the program, with the sum of its bytes; nothing where it has not proved just these files.

    The gate keeps what it proves by a sum of all that the proof read, the libraries below as they were built among it.
    So libraries are looked up first, lowest first: each has a list of its own files and their sums."""
    rt.Crate.allowed = rt.handles_of(os.path.dirname(os.path.dirname(top.folder)))
    store = rt.Kept([*top.below(), top])
    made: list[tuple[str, str]] = []
    try:
        for crate in [*top.below(), top]:
            key = store.key(crate)
            with open(os.path.join(store.place(crate, False, key), "made.json"), encoding="utf-8") as file:
                made = [(path, of) for path, of in json.load(file)["files"]]
            store.rlibs[crate.name] = hashlib.sha256(repr(made).encode()).hexdigest()
    except (OSError, ValueError, KeyError):
        return None
    for number, (path, of) in enumerate(made):
        if path == top.name:
            return os.path.join(store.place(top, False, key), str(number)), of
    return None


def take(rt: Any, top: Any, to: str) -> bool:
    """Copies the program that the gate keeps, if it keeps one of these files; answers whether it did."""
    try:
        found = kept(rt, top)
    except (AttributeError, TypeError):
        return False  # another kit keeps it in another way, or nothing
    if not found:
        return False
    file, of = found
    os.makedirs(os.path.dirname(to), exist_ok=True)
    shutil.copyfile(file, f"{to}.new")
    if rt.rtlib.sum_of(f"{to}.new") != of:
        os.remove(f"{to}.new")
        return False
    os.chmod(f"{to}.new", 0o755)
    os.replace(f"{to}.new", to)
    return True


def taken(top: Path, name: str, folder: str | Path) -> Path | None:
    """The program's file, copied into a folder, if this kit keeps one of just these files."""
    to = os.path.join(folder, name)
    try:
        rt = kit_commands.load()
        crate = rt.rtlib.Crate(os.path.join(top, "crates", name), str(top), {})
        return Path(to) if take(rt, crate, to) else None
    except (Exception, SystemExit):
        # another kit has no such call, or the sources are not as the kit wants them: whoever builds tells that
        return None
