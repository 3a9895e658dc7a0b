"""The reader of crates.io's index."""
import json
import os
from pathlib import Path

from ..files import read_plain
from ..shapes import Any
from .index import Crate, Index, Release, Unusable, need


class CratesIo(Index):
    """A checkout of the index, or Cargo's `.cache` of it with zero bytes between lines: see The Cargo Book."""

    def __init__(self, top: str) -> None:
        super().__init__()
        self.top = Path(top, ".cache") if Path(top, ".cache").is_dir() else Path(top)
        self.files: dict[str, Path] = {}
        for folder, folders, files in os.walk(self.top):
            folders[:] = sorted(it for it in folders if not it.startswith("."))
            for name in sorted(files):
                path = Path(folder, name)
                if name == name.lower() and path == self.top / self.place(name) and self.enter(name):
                    self.files[name] = path
        if not self.files:
            where = "at the place that the index of crates.io has for it, as se/rd/serde"
            raise Unusable(f"{self.top} has no file {where}")

    @staticmethod
    def place(name: str) -> str:
        """Where the file of a crate is: by the length of its name, or by the first letters of it."""
        short = {1: f"1/{name}", 2: f"2/{name}", 3: f"3/{name[0]}/{name}"}
        return short.get(len(name), f"{name[:2]}/{name[2:4]}/{name}")

    def crate(self, name: str) -> Crate:
        crate = Crate(name)
        text = read_plain(self.files[name])
        is_cache = not text.startswith(b"{")
        for number, row in enumerate(text.split(b"\0" if is_cache else b"\n"), 1):
            if row.startswith(b"{") or (row and not is_cache):
                self.read(number, row, crate)
        return crate

    def read(self, number: int, row: bytes, crate: Crate) -> None:
        try:
            entry = json.loads(row)
            names = (entry["name"], entry["vers"])
            if not all(isinstance(it, str) for it in names) or entry["name"].lower() != crate.name:
                raise ValueError("not a line of this crate")
            found = [it for it in entry["deps"] if self.is_needed(it, entry["vers"], crate)]
            needs = [(it.get("package") or it["name"], it["req"]) for it in found]
            if not all(isinstance(text, str) for pair in needs for text in pair):
                raise ValueError("no dependency")
            release = Release(entry["vers"], needs, entry["yanked"] is True)
        except (ValueError, KeyError, TypeError, AttributeError, RecursionError):
            place = f"{os.path.relpath(self.files[crate.name], self.top)}:{number}"
            crate.notes.left_out("lines that are of no known form", f"{place}: {row[:60].decode(errors='replace')}")
            return
        if entry["name"] != crate.name:
            crate.notes.otherwise("versions of crates with capitals in their names, in small letters", entry["name"])
        crate.releases.append(release)

    @staticmethod
    def is_needed(dependency: dict[str, Any], version: str, crate: Crate) -> bool:
        example = need(crate.name, version, dependency["name"])
        why = ("dev dependencies" if dependency.get("kind") == "dev"
               else "optional dependencies" if dependency.get("optional")
               else "dependencies from another registry" if dependency.get("registry") else None)
        if why:
            crate.notes.left_out(why, example)
        return why is None
