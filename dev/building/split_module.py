"""Splits a module of LLVM, as text, into some of about equal size that are compiled side by side and linked.

All functions of a module are its own but `main`, or what a library exports. Those that are long stand in one part each,
by the order in which they are reached from there, so that most calls stay in their part. Short ones stand in each part
that calls them, so that they can be inlined there as in the whole. What nothing reaches is left out."""
from __future__ import annotations

import dataclasses
import re
from collections.abc import Iterator, Mapping, Sequence

# A function of more lines than these is long.
SHORT = 200
NAME = re.compile(r'@("[^"]*"|[-\w.$]+)')
TEXT = re.compile(r' c"[^"]*"')
PIECE = re.compile(r"define .*\n(?:.*\n)*?\}\n|.*\n")
# A constant that may be a copy in each part: nothing asks for its address.
IS_COPIED = re.compile(r"@\S+ = private unnamed_addr constant ")
IS_SHARED = re.compile(r"(@\S+ = )private ((?:constant|global) )")
# The function of a program that a linker finds.
MAIN = ("main",)
# The type of what another part has.
ELSEWHERE = "%elsewhere = type opaque\n"


class Unknown(Exception):
    """The module is of another form."""


@dataclasses.dataclass
class Module:
    """The pieces of a module by their names, and those that each part has; `exported` is what a linker finds."""
    exported: Sequence[str] = MAIN
    functions: dict[str, str] = dataclasses.field(default_factory=dict)
    globals: dict[str, str] = dataclasses.field(default_factory=dict)
    declared: dict[str, str] = dataclasses.field(default_factory=dict)
    head: list[str] = dataclasses.field(default_factory=list)
    tail: list[str] = dataclasses.field(default_factory=list)
    uses: dict[str, set[str]] = dataclasses.field(default_factory=dict)
    lines: dict[str, int] = dataclasses.field(default_factory=dict)

    @classmethod
    def of(cls, text: str, exported: Sequence[str]) -> Module:
        module = cls(exported)
        for found in PIECE.finditer(text):
            module.add(found[0])
        defined = {**module.functions, **module.globals}
        # a text may hold what looks like a name
        bare = {name: TEXT.sub("", piece) if ' c"' in piece else piece for name, piece in defined.items()}
        module.uses = {name: {*NAME.findall(piece)} - {name} for name, piece in bare.items()}
        module.lines = {name: piece.count("\n") for name, piece in module.functions.items()}
        known = {*defined, *module.declared}
        if not {*exported} <= module.functions.keys() or not all(used <= known for used in module.uses.values()):
            raise Unknown(f"it lacks one of {' '.join(exported)}, or names what it does not have")
        return module

    def add(self, piece: str) -> None:
        found = NAME.search(piece)
        name = found[1] if found else ""
        if piece.startswith("define internal ") or piece.startswith("define ") and name in self.exported:
            self.functions[name] = piece
        elif IS_COPIED.match(piece) or IS_SHARED.match(piece):
            self.globals[name] = piece
        elif piece.startswith("declare "):
            self.declared[name] = piece
        elif piece.startswith(("source_filename", "target ")):
            self.head.append(piece)
        elif piece.startswith(("attributes ", "!")):
            self.tail.append(piece)
        elif piece.strip() and not piece.startswith(";"):
            raise Unknown(f"a line of another kind: {piece[:80]}")

    def reached(self) -> list[str]:
        """The functions that the exported ones reach, each before those that it is the first to call."""
        found: dict[str, bool] = {}
        waiting = [*reversed(self.exported)]
        while waiting:
            name = waiting.pop()
            if name in self.uses and name not in found:
                found[name] = name in self.functions
                waiting += sorted(self.uses[name], reverse=True)
        return [name for name, is_function in found.items() if is_function]


def owners(module: Module, order: Sequence[str], count: int) -> dict[str, int]:
    """The part in which each long function stands."""
    whole, before = sum(module.lines[name] for name in order), 0
    found: dict[str, int] = {}
    for name in order:
        if module.lines[name] > SHORT or name in module.exported:
            found[name] = before * count // whole
        before += module.lines[name]
    return found


def stands_in(module: Module, owner: Mapping[str, int], part: int) -> tuple[set[str], set[str]]:
    """What stands in a part, and what it uses of others."""
    here: set[str] = set()
    elsewhere: set[str] = set()
    waiting = [name for name, of in owner.items() if of == part]
    while waiting:
        name = waiting.pop()
        if owner.get(name, part) != part or name in module.declared:
            elsewhere.add(name)
        elif name not in here:
            here.add(name)
            waiting += module.uses[name]
    return here, elsewhere


def written(module: Module, order: Sequence[str], parts: Sequence[tuple[set[str], set[str]]],
            number: int) -> Iterator[str]:
    here, elsewhere = parts[number]
    called: set[str] = set().union(*(others for _, others in parts))
    yield from [*module.head, ELSEWHERE]
    for name, piece in module.globals.items():
        shared = IS_SHARED.match(piece)
        if name not in here or not shared:
            yield from [piece] if name in here else []
        elif any(name in before for before, _ in parts[:number]):
            yield f"{shared[1]}external hidden {shared[2]}%elsewhere\n"
        else:
            yield IS_SHARED.sub(r"\1hidden \2", piece)
    for name in order:
        if name in here:
            seen = "define hidden " if name in called else "define internal "
            yield module.functions[name].replace("define internal ", seen, 1)
    for name in sorted(elsewhere):
        head = module.functions.get(name, "").partition("\n")[0]
        yield module.declared.get(name) or declaration(head)
    yield from module.tail


def declaration(head: str) -> str:
    """What stands in a part for a function of another one, by its first line."""
    head = head.replace("define internal ", "declare hidden ", 1).replace("define ", "declare ", 1)
    return head.removesuffix(" {") + "\n"


def split(text: str, count: int, exported: Sequence[str] = MAIN) -> list[str]:
    """The texts of so many parts, where these functions are to be found by a linker."""
    if count == 1:
        return [text]
    module = Module.of(text, exported)
    order = module.reached()
    owner = owners(module, order, count)
    parts = [stands_in(module, owner, part) for part in range(count)]
    return ["".join(written(module, order, parts, number)) for number in range(count)]
