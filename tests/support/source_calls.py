"""Which functions of the crates a call can come to, by the calls in their sources.

Names decide, not types: `x.len()` counts as a call of every method `len` of a crate that stands below. So a function
too many may be found to be reached, but none that is reached is missed."""
import collections
import dataclasses
import glob
import os
import re
from collections.abc import Collection, Container, Iterator, Mapping

WORD = r"[A-Za-z_]\w*"
FUNCTION = re.compile(
    rf"^ *(?P<pub>pub )?(?:pub\(\w+\) )?(?:(?:const|unsafe|extern \"C\") )*fn (?P<name>{WORD})", re.M)
OWNER = re.compile(
    rf"^(?:unsafe )?(?:impl(?:<[^\n]*?>)? (?:[^\n]*? for )?(?P<type>{WORD})|(?:pub )?trait (?P<trait>{WORD}))", re.M)
IMPORT = re.compile(r"^(?:pub )?use (\w+)(?:::\w+)*::(?:\{([^}]*)\}|(\w+));", re.M)
# `name(` and `Type::name(`, with what stands before it
CALL = re.compile(rf"(?P<dot>\.)?(?:\b(?P<owner>{WORD})(?:::<[^()]*?>)?::)?\b(?P<name>{WORD})(?:::<[^()]*?>)?\(")
# `Type::name` that is handed over
HANDED = re.compile(r"\b(?P<owner>[A-Z]\w*)::(?P<name>[a-z_]\w*)(?=[,)])")
# a comment, the text of a string and a ghost's words call nothing
SILENT = re.compile(r"//[^\n]*|\"(?:[^\"\\\n]|\\.)*\"|^ *(?:requires|ensures|ghost)\b[^\n]*", re.M)


@dataclasses.dataclass(frozen=True)
class Function:
    """A function of a crate: its file below `crates`, the type or trait that has it, if one has, and its name."""
    path: str
    owner: str
    name: str
    is_public: bool

    @property
    def crate(self) -> str:
        return self.path.partition(os.sep)[0]

    @property
    def full_name(self) -> str:
        return "::".join(part for part in (self.crate, self.owner, self.name) if part)


def blocks(text: str) -> Iterator[tuple[int, int, str]]:
    """Each block of an `impl` or a `trait`: where it begins, where it ends, and whose it is."""
    for found in OWNER.finditer(text):
        end = text.find("\n}", found.end())
        yield found.start(), len(text) if end < 0 else end, found["type"] or found["trait"]


def functions_of(path: str, text: str) -> Iterator[tuple[Function, str]]:
    """Each function of a source, with the text from its name to the next function."""
    owners = list(blocks(text))
    found = list(FUNCTION.finditer(text))
    for one, after in zip(found, [*found[1:], None]):
        owner = next((of for start, end, of in owners if start <= one.start() < end), "")
        function = Function(path, owner, one["name"], bool(one["pub"]))
        yield function, text[one.end():after.start() if after else len(text)]


def imports_of(text: str, crates: Container[str]) -> dict[str, str]:
    """The crate of each name that a source imports from another one of these."""
    return {name.strip(): found[1] for found in IMPORT.finditer(text) if found[1] in crates
            for name in (found[2] or found[3]).split(",") if name.strip()}


def calls_in(body: str, own: str) -> Iterator[tuple[bool, str, str]]:
    """What a function's text calls or hands over: whether as a method, of which owner, and by which name."""
    for call in CALL.finditer(body):
        yield bool(call["dot"]), own if call["owner"] == "Self" else call["owner"] or "", call["name"]
    for handed in HANDED.finditer(body):
        yield False, own if handed["owner"] == "Self" else handed["owner"], handed["name"]


def sources_below(top: str) -> dict[str, str]:
    """The text of each source below a folder's `crates`, by its path there."""
    texts = {}
    for path in sorted(glob.glob(os.path.join(top, "crates", "*", "src", "**", "*.rt"), recursive=True)):
        with open(path, encoding="utf-8") as source:
            texts[os.path.relpath(path, os.path.join(top, "crates"))] = source.read()
    return texts


def is_law(body: str) -> bool:
    """Whether a function is a statement alone: it takes nothing, answers nothing, and so does nothing."""
    return bool(re.match(r"(?:<[^()]*>)?\(\)\s*(?:$|[^-\s])", body))


class Sources:
    """All functions of these sources, and what each of them may call."""

    def __init__(self, texts: Mapping[str, str]) -> None:
        self.named: collections.defaultdict[str, set[Function]] = collections.defaultdict(set)
        texts = {path: SILENT.sub("", text) for path, text in texts.items()}
        bodies = {function: body for path, text in texts.items() for function, body in functions_of(path, text)}
        self.laws = {function for function, body in bodies.items() if is_law(body)}
        for function in bodies:
            self.named[function.name].add(function)
        crates = {function.crate for function in bodies}
        imports = {path: imports_of(text, crates) for path, text in texts.items()}
        self.calls = {function: set().union(*(self.meant(function, imports[function.path], *call)
                                              for call in calls_in(body, function.owner)))
                      for function, body in bodies.items()}

    def meant(self, caller: Function, imports: Mapping[str, str], is_method: bool, owner: str,
              name: str) -> set[Function]:
        """The functions that a call in a function may mean."""
        there = self.named.get(name, set())
        if is_method:
            return {one for one in there if one.owner}
        if owner and owner[0].isupper():
            # a parameter's or a trait's function is any type's
            return {one for one in there if one.owner == owner} or {one for one in there if one.owner
                                                                    and len(owner) < 3}
        found = {one for one in there if not one.owner and one.crate == imports.get(name, caller.crate)}
        # a name alone means the file's own function, where it has one
        own = {one for one in found if one.path == caller.path}
        return own if own and not owner else found

    def reached(self, roots: Collection[Function]) -> set[Function]:
        """All functions to which the roots lead, they among them."""
        found, waiting = set(roots), list(roots)
        while waiting:
            more = self.calls[waiting.pop()] - found
            found |= more
            waiting += more
        return found

    def find(self, said: str) -> set[Function]:
        """The functions that a page names as `name` or `Type::name`."""
        owner, _, name = said.rpartition("::")
        return {one for one in self.named.get(name, set()) if not owner or one.owner == owner}
