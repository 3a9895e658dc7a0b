"""The wrong bodies under `edits/NAME`: what each changes in the crate NAME, and in which functions.

An edit is a file of lines: `file: PATH` of the crate, then pairs `old: TEXT` and `new: TEXT`. With a line `only:
FUNCTION` each run of the tests tries it."""
import os
import re
from collections.abc import Iterable, Iterator, Mapping, Sequence
from functools import cache
from pathlib import Path
from typing import NamedTuple

from dev.building.progress import TOP

CRATES, EDITS = str(TOP / "crates"), str(TOP / "edits")

Change = tuple[str, str, str]  # a file, the old text, and the new one


class Function(NamedTuple):
    """A function of a source file: its path as the prover writes it, and its first and last line."""
    path: str
    first: int
    last: int


class Edit(NamedTuple):
    crate: str
    file: str
    # the function that each run tries the edit by
    only: str | None
    changes: tuple[Change, ...]


def changes(text: str) -> Iterator[Change]:
    """The texts that an edit takes away, each with its file and what stands there then."""
    path = old = ""
    for line in text.split("\n"):
        if line.startswith("file: "):
            path = line.removeprefix("file: ")
        elif line.startswith("old: "):
            old = line.removeprefix("old: ")
        elif line.startswith("new:"):
            yield path, old, line.removeprefix("new:").removeprefix(" ")


def edits_of(crate: str) -> Iterator[Edit]:
    """The edits of a crate, by their names."""
    for file in sorted(Path(EDITS, crate).glob("*")):
        text = file.read_text(encoding="utf-8")
        only = re.search(r"^only: (\S+)$", text, re.M)
        yield Edit(crate, file.name, only[1] if only else None, tuple(changes(text)))


def name_of(words: str, own: Iterable[str]) -> str:
    """A type or a trait as the prover names it in an impl: its words in a row, but for the impl's own parameters."""
    plain = re.findall(r"\b\w+\b", re.sub(r"'\w+|\b\w+::", "", words))
    return "".join(word[0].upper() + word[1:] for word in plain if word not in (*own, "mut"))


def owner_of(line: str, module: Sequence[str], homes: Mapping[str, Sequence[str]]) -> list[str] | None:
    """What the functions below a head `impl` or `trait` stand under, or None where the line is none. The methods of a
    type stand under it wherever they are written, those of a trait where they are written."""
    trait = re.match(r"(?:pub(?:\(\w+\))? )?trait (\w+)", line)
    if trait:
        return [*module, trait[1]]
    head = re.match(r"(?:unsafe )?impl(<.*?>)? (?:(\S.*) for )?(\S.*) \{", line)
    if not head:
        return None
    own = re.findall(r"[<,] *(\w+)", head[1] or "")
    found = re.match(r"(?:&(?:'\w+ )?(?:mut )?)?(?:\w+::)*(\w*)", head[3])
    of = found[1] if found else ""
    if not head[2]:
        return [*homes.get(of, module), of]
    # an impl for each type that meets a bound is one for any
    return [*module, ("Any" if of in own else of[:1].upper() + of[1:]) + name_of(head[2], own)]


def module_of(path: str) -> list[str]:
    module = path.removeprefix("src/").removesuffix(".rt")
    return [] if module in ("lib", "main") else module.split("/")


def functions(path: str, text: str, homes: Mapping[str, Sequence[str]]) -> Iterator[Function]:
    """The functions of a source file that have a body: by its layout a line of `}` or `{}` under a head ends it."""
    module = module_of(path)
    owner: list[str] | None = None
    begun: tuple[str, int, tuple[str, str]] | None = None
    marked: int | None = None
    for number, line in enumerate(text.split("\n"), 1):
        owner = owner_of(line, module, homes) or owner
        head = re.match(r'( {4}|)(?:pub(?:\(\w+\))? )?(?:const )?(?:unsafe )?(?:extern "C" )?fn (\w+)', line)
        if head:
            above = owner if head[1] and owner else module
            begun = "::".join([*above, head[2]]), marked or number, (head[1] + "}", head[1] + "{}")
        if begun and (line in begun[2] or head and line.endswith("}")):
            yield Function(*begun[:2], number)
            begun = None
        # what the prover says of a function may stand at its first attribute
        if re.match(r"\s*#\[", line):
            marked = marked or number
        elif not re.match(r"\s*//", line):
            marked = None
        if line == "}":
            owner = begun = None


def functions_in(folder: str) -> list[tuple[str, Function]]:
    """The functions of a crate that stands in a folder, each with its file."""
    texts = {str(file.relative_to(folder)): file.read_text(encoding="utf-8")
             for file in Path(folder, "src").rglob("*.rt")}
    declared = r"^(?:pub(?:\(\w+\))? )?(?:struct|enum|union) (\w+)"
    homes = {name: module_of(path) for path, text in texts.items() for name in re.findall(declared, text, re.M)}
    return [(path, function) for path, text in sorted(texts.items()) for function in functions(path, text, homes)]


@cache
def functions_by_file(crate: str) -> dict[str, list[Function]]:
    found: dict[str, list[Function]] = {}
    for path, function in functions_in(os.path.join(CRATES, crate)):
        found.setdefault(path, []).append(function)
    return found


def functions_of(edit: Edit) -> set[tuple[str, Function]]:
    """The functions whose text an edit changes, with their files; nothing where it changes a text outside one."""
    found = set()
    for path, old, _ in edit.changes:
        before, _, behind = Path(CRATES, edit.crate, path).read_text(encoding="utf-8").partition(old)
        first = before.count("\n") + 1
        within = [function for function in functions_by_file(edit.crate)[path]
                  if function.first <= first and first + old.count("\n") <= function.last]
        if not behind or not within:
            return set()
        found.add((path, within[0]))
    return found


def put_in_place(edits: Iterable[Edit], folder: str) -> None:
    """Puts edits in their places in a copy of their crate, each where its text stands before any of them is there."""
    places: dict[str, list[tuple[str, str]]] = {}
    for edit in edits:
        for path, old, new in edit.changes:
            places.setdefault(path, []).append((old, new))
    for path, pairs in places.items():
        file = Path(folder, path)
        text = file.read_text(encoding="utf-8")
        for old, _ in pairs:
            if text.count(old) != 1:
                raise ValueError(f"{old} does not stand once in {path}")
        end = len(text)
        for begin, old, new in sorted(((text.index(old), old, new) for old, new in pairs), reverse=True):
            if begin + len(old) > end:
                raise ValueError(f"{old} overlaps with another edit of {path}")
            text, end = text[:begin] + new + text[begin + len(old):], begin
        file.write_text(text, encoding="utf-8")
