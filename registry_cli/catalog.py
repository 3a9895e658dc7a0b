"""What a registry has. Of a journal's text only what is asked for is read: 49,152 commands take more than a second."""
from __future__ import annotations

import json
import re
from collections import namedtuple
from functools import cached_property, lru_cache

from .failures import Refused
from .shapes import Iterator, Listed, Pairs, Precedence, Request, Sequence, Yanked

# Patterns, each compiled where it is used first. Commands as a journal has them, byte for byte: the program loads no
# others. Those of one package most often follow each other
RUN = rb'\{"name":"([^"]+)",.*\n(?:\{"name":"\1",.*\n)*'
# a command as letters, without what it needs
LISTED = r'\{"name":"([^"]+)",(?:"needs":.*,)?"op":"(\w+)","version":"([^"]+)"\}'
PUBLICATION = rb'"needs":(.*),"op":"publish","version":"([^"]+)"\}'
YANK = rb'"op":"(yank|unyank)","version":"([^"]+)"\}'
PIECE = 65_536  # bytes
RELEASE = (1,)  # as in check_derivation.py, which is loaded only where a version has more than numbers
LEARN = b'"op":"learn"}'
MENTION = rb'(?:\{"name":|\[)"([^"]+)",'  # a command's package, or what it needs


class Version(namedtuple("Version", "text is_yanked needing", defaults=[b"[]"])):
    text: str
    is_yanked: bool
    needing: bytes

    @property
    def needs(self) -> Pairs:
        pairs: Pairs = json.loads(self.needing)
        return pairs

    @property
    def is_pre_release(self) -> bool:
        return bool(precedence(self.text)[3] != RELEASE)


@lru_cache(maxsize=None)
def precedence(text: str) -> Precedence:
    """A published version as it compares. Most have numbers alone, which are told sooner."""
    if text.replace(".", "").isdigit():
        return *map(int, text.split(".")), RELEASE
    from .check_derivation import precedence as whole
    return whole(text)


@lru_cache(maxsize=None)
def rank(text: str) -> tuple[bool, Precedence]:
    """By what is taken where nothing else is asked for: a pre-release only where there is nothing else."""
    numbers = precedence(text)
    return numbers[3] == RELEASE, numbers


def newest(versions: Sequence[Yanked]) -> Yanked:
    """The one that is taken where nothing else is asked for: a yanked one only where there is nothing else."""
    return max([it for it in versions if not it[1]] or versions, key=lambda it: rank(it[0]))


def pieces(text: bytes) -> Iterator[bytes]:
    """Parts of whole lines: a search in each takes a fifth less time than one in the whole, since memory is reused."""
    at = 0
    while at < len(text):
        end = text.find(b"\n", at + PIECE) + 1 or len(text)
        yield text[at:end]
        at = end


def commands_in(text: bytes) -> list[bytes]:
    lines = text.split(b"\n")[1:-2]
    return [it for it in lines if not it.endswith(LEARN)] if LEARN in text else lines


def listed_in(text: bytes) -> dict[str, list[Listed]]:
    """By package its versions in order of publication, each with whether it is yanked."""
    listed: dict[str, list[Listed]] = {}
    yanked: dict[tuple[str, Precedence], bool] = {}
    for piece in pieces(text):
        for name, op, version in re.findall(LISTED, piece.decode(errors="replace")):
            if op == "publish":
                listed.setdefault(name, []).append((version, False))
            else:
                yanked[name, precedence(version)] = op == "yank"
    # a yank is of the version that has the same precedence
    for name in {name for name, _ in yanked}:
        listed[name] = [(it, yanked.get((name, precedence(it)), False)) for it, _ in listed.get(name, ())]
    return listed


def line_of(command: Request) -> bytes:
    """A command as a journal has it."""
    return json.dumps(command, sort_keys=True, separators=(",", ":"), ensure_ascii=False).encode()


class Catalog:
    """The packages of a journal's text, and the lines that each has there."""

    def __init__(self, text: bytes) -> None:
        self.text = text
        found: dict[bytes, list[bytes]] = {}
        for it in re.finditer(RUN, text):
            found.setdefault(it[1], []).append(it[0])
        self.lines = {name.decode(errors="replace"): b"".join(runs) for name, runs in found.items()}

    @cached_property
    def revision(self) -> int:
        return sum(it.count(b"\n") for it in self.lines.values())

    def published(self, name: str) -> list[Version]:
        lines = self.lines.get(name, b"")
        versions = [Version(text.decode(), False, needs) for needs, text in re.findall(PUBLICATION, lines)]
        yanked = {precedence(text.decode()): op == b"yank" for op, text in re.findall(YANK, lines)}
        # a yank is of the version that has the same precedence
        if not yanked:
            return versions
        return [it._replace(is_yanked=yanked.get(precedence(it.text), False)) for it in versions]

    def ranked(self, name: str) -> list[Version]:
        """The versions of a package by precedence, the newest first."""
        return sorted(self.published(name), key=lambda it: precedence(it.text), reverse=True)

    def versions(self, name: str) -> list[Version]:
        if name not in self.lines:
            from .refusals import unpublished
            raise Refused(unpublished(name, self.lines))
        return self.ranked(name)

    def version(self, name: str, text: str) -> Version:
        from .check_derivation import read_version
        versions = self.versions(name)
        found = next((it for it in versions if precedence(it.text) == read_version(text)), None)
        if found is None:
            from .refusals import not_there
            held = [(it.text, it.is_yanked) for it in versions]
            raise Refused(not_there({"name": name, "version": text}, {name: held}))
        return found

    def newest(self, name: str) -> Version:
        return newest(self.versions(name))

    def needing(self, name: str) -> Iterator[tuple[str, str, str]]:
        """Of each package with a version that needs this one, by name: its newest such version, and the requirement."""
        target = f'["{name}","'.encode()
        need = re.compile(re.escape(target) + rb'([^"]+)"\].*"version":"([^"]+)"\}')
        for other, lines in sorted(self.lines.items()):
            found = need.findall(lines) if target in lines else ()
            if found:
                requirement, version = max(found, key=lambda it: precedence(it[1].decode()))
                yield other, version.decode(), requirement.decode()

    def commands(self, name: str) -> Iterator[Request]:
        return map(json.loads, self.lines.get(name, b"").splitlines())

    @cached_property
    def mentioned(self) -> list[str]:
        """All names, also of what is only needed, in the order in which they are first mentioned."""
        # what was learnt names no others
        return [it.decode(errors="replace") for it in dict.fromkeys(re.findall(MENTION, self.text))]

    @cached_property
    def listed(self) -> dict[str, list[Listed]]:
        return listed_in(self.text)


@lru_cache(maxsize=1)
def catalog_of(text: bytes) -> Catalog:
    """What a journal's text has. The same text is read once."""
    return Catalog(text)
