"""The reader of Cargo's manifests and its Cargo.lock."""
from __future__ import annotations

import os
import tomllib
from collections import defaultdict
from pathlib import Path

from ..check_derivation import read_version
from ..files import read_plain
from ..shapes import Dependency, Iterator, Pairs, Table
from .index import Crate, Index, Release, Unusable, by_precedence, need

KINDS = ("dependencies", "build-dependencies", "build_dependencies", "dev-dependencies", "dev_dependencies")


def read_toml(path: Path) -> Table:
    """The table of a file; raises `ValueError` where it is no TOML, or not UTF-8."""
    try:
        return tomllib.loads(read_plain(path).decode())
    except RecursionError:
        raise ValueError("its values nest too deeply") from None


class Cargo(Index):
    """A workspace, or what `cargo vendor` writes, with its Cargo.lock, and an index for crates that are not there. See
    The Cargo Book, "The Manifest Format" and "Specifying Dependencies"."""

    def __init__(self, top: str, index: Index | None = None) -> None:
        super().__init__()
        self.top, self.index = Path(os.path.abspath(top)), index
        self.manifests: dict[Path, Table] = {}  # by folder
        for path, folders, files in os.walk(self.top):
            # what Cargo builds has this file
            folders[:] = [] if "CACHEDIR.TAG" in files else sorted(it for it in folders if not it.startswith("."))
            if "Cargo.toml" in files:
                self.read(Path(path))
        self.lock = self.read_lock()
        if self.top.is_file():
            raise Unusable(f"{top} is no folder; did you mean {os.path.dirname(top) or '.'}?")
        if not self.manifests and not self.lock:
            raise Unusable(f"{top} has neither a Cargo.toml that can be read nor a Cargo.lock")
        self.packages: dict[str, list[Path]] = defaultdict(list)  # folders by name
        for folder, name in [(it, found[0]) for it in self.manifests if (found := self.named(it))]:
            if self.enter(name):
                self.packages[name.lower()].append(folder)
        for name in self.lock:
            self.enter(name)

    def read(self, folder: Path) -> None:
        try:
            self.manifests[folder] = read_toml(folder / "Cargo.toml")
        except ValueError as fault:  # no TOML, or not UTF-8
            place = f"{os.path.relpath(folder, self.top)}/Cargo.toml"
            self.notes.left_out("manifests that can't be read", f"{place}: {fault}")

    def read_lock(self) -> dict[str, list[Table]]:
        path = self.top / "Cargo.lock"
        packages: dict[str, list[Table]] = defaultdict(list)
        if path.exists():
            try:
                told = read_toml(path)
                for it in [*told.get("package", []), *([told["root"]] if "root" in told else [])]:
                    packages[it["name"]].append({"source": None, "dependencies": [], **it, "version": it["version"]})
            except (ValueError, KeyError, TypeError, AttributeError) as fault:
                raise Unusable(f"{path} can't be read: {fault}") from None
        return packages

    def named(self, folder: Path) -> tuple[str, str] | None:
        """The name and version of the package of a folder; none where its manifest has no package."""
        package = self.manifests[folder].get("package")
        if not isinstance(package, dict) or not isinstance(package.get("name"), str):
            return None
        version = package.get("version", "0.0.0")
        if isinstance(version, dict):  # version.workspace = true
            version = self.workspace(folder)[1].get("package", {}).get("version", "")
        return package["name"], str(version)

    def workspace(self, folder: Path) -> tuple[Path, Table]:
        for above in (folder, *folder.parents):
            if "workspace" in self.manifests.get(above, {}):
                return above, self.manifests[above]["workspace"]
        return folder, {}

    def has(self, name: str) -> bool:
        return super().has(name) or (self.index is not None and self.index.has(name))

    def spelled(self, name: str) -> str:
        return super().spelled(name) if super().has(name) or not self.index else self.index.spelled(name)

    def crate(self, name: str) -> Crate:
        """Of the manifests; else of the index; else of Cargo.lock, which knows the versions that were taken alone."""
        crate = Crate(name)
        crate.releases = [self.release(it, crate) for it in self.packages.get(name, [])]
        known = {read_version(it.version) for it in crate.releases}
        if not known and self.index and self.index.has(name):
            return self.index.crate(self.index.spelled(name))
        for it in (it for spelling, held in self.lock.items() if spelling.lower() == name for it in held):
            if read_version(it["version"]) not in known:
                kind = "versions that only Cargo.lock has, with the dependencies that it locks"
                crate.notes.otherwise(kind, f"{name} {it['version']}")
                crate.releases.append(Release(it["version"], [self.taken(text) for text in it["dependencies"]]))
        crate.releases = by_precedence(crate.releases)
        return crate

    def taken(self, text: str) -> Dependency:
        """A dependency as Cargo.lock has it: a name, then a version where the file has several of that name."""
        name, version, *_ = *text.split(" "), None
        held = [it["version"] for it in self.lock.get(name, [])]
        version = version or (held[0] if len(held) == 1 else None)
        return name, f"={version}" if version else "*"

    def tables(self, folder: Path) -> Iterator[tuple[bool, str, Table, Path | None]]:
        """Of each dependency whether it is for tests alone, its name there, what is said of it, and its folder."""
        for table in (self.manifests[folder], *self.manifests[folder].get("target", {}).values()):
            for kind in KINDS:
                for alias, value in table.get(kind, {}).items():
                    at, entry = folder, value if isinstance(value, dict) else {"version": value}
                    if entry.get("workspace"):
                        at, workspace = self.workspace(folder)
                        shared = workspace.get("dependencies", {}).get(alias, {})
                        shared = shared if isinstance(shared, dict) else {"version": shared}
                        entry = {**shared, "optional": entry.get("optional")}
                    path = Path(os.path.normpath(at / entry["path"])) if "path" in entry else None
                    yield kind.startswith("dev"), alias, entry, path

    def release(self, folder: Path, crate: Crate) -> Release:
        """The package of a folder, which has a name, with what it needs to run and to build, but for options."""
        _, version = self.named(folder) or ("", "")
        needs: list[Dependency] = []
        for is_dev, alias, entry, path in self.tables(folder):
            name = entry.get("package", alias)
            there = self.named(path) if path in self.manifests else None
            example = need(crate.name, version, name)
            if is_dev or entry.get("optional"):
                crate.notes.left_out("dev dependencies" if is_dev else "optional dependencies", example)
            elif "version" in entry:
                needs.append((name, str(entry["version"])))
            elif there:
                needs.append((name, f"={there[1]}"))
            else:
                crate.notes.otherwise("dependencies without a version, of git or on a path outside, as dependencies on "
                                      "any version", example)
                needs.append((name, "*"))
        return Release(version, needs)

    def own(self) -> list[Dependency]:
        """The folder's package, its workspace's members and what these need by a path; else Cargo.lock's own ones."""
        if self.top not in self.manifests:
            return sorted((name, it["version"]) for name, held in self.lock.items() for it in held if not it["source"])
        workspace = self.manifests[self.top].get("workspace", {})
        left_out = {Path(os.path.normpath(self.top / it)) for it in workspace.get("exclude", [])}
        members = (it for pattern in workspace.get("members", []) for it in self.top.glob(pattern))
        waiting = [self.top, *members]
        taken: set[Path] = set()
        while waiting:
            folder = Path(os.path.normpath(waiting.pop()))
            if folder in self.manifests and folder not in taken and not left_out & {folder, *folder.parents}:
                taken.add(folder)
                waiting += [path for _, _, _, path in self.tables(folder) if path]
        return sorted(it for it in map(self.named, taken) if it)

    def locked(self) -> Pairs:
        """A lock line for each crate of Cargo.lock: of several versions the highest."""
        for name, held in self.lock.items():
            if len(held) > 1:
                versions = ", ".join(it["version"] for it in held)
                self.notes.left_out("lower versions of a crate that Cargo.lock has several times", f"{name} {versions}")
        highest = {name: by_precedence(Release(it["version"], []) for it in held)[-1].version
                   for name, held in self.lock.items()}
        return sorted([self.spelled(name), version] for name, version in highest.items() if read_version(version))
