"""What is wrong with a request line, judged as the program judges it before it asks the registry."""
from __future__ import annotations

import json
from collections.abc import Callable, Iterable
from typing import NamedTuple

from . import placed_json
from .fault import Bad, Fault, shown
from .limits import MOST_LINE_BYTES, MOST_NEEDS
from .placed_json import Value
from .request_forms import Forms, has_form
from .texts import name_fault, requirement_fault, version_fault

# what the registry has found of the version that a line names, by the number of the refusal
FOUND = {7: "is published already", 11: "is not published", 12: "is yanked already", 13: "is not yanked"}
LOCK_FILE = {"needs": Forms.needs, "revision": Forms.whole, "selected": Forms.lock}


def faults(line: bytes) -> list[Fault]:
    """None where the registry would be asked. The first one is the refusal that the program answers."""
    return found_in(line, "line", lambda noted, value: value.members if has_form(noted, value) else None)


def lock_faults(text: bytes) -> list[Fault]:
    """The same of a lock file in bytes: of a lock list, or an object that has one."""
    if text.strip()[:1].isascii() and not text.strip().startswith((b"[", b"{")):
        return [Fault(19, 0, 'a lock list is an array of pairs of a name and a version, as [["b","1.0.0"]]')]

    def members(noted: Forms, value: Value) -> dict[str, Value] | None:
        if isinstance(value.held, dict) and not LOCK_FILE.keys().isdisjoint(value.held):
            if not noted.object(value, "a lock file", LOCK_FILE):
                return None
            return {"needs": value.held["needs"], "lock": value.held["selected"]}
        noted.lock(value, "a lock list")
        return None if noted.faults else {"lock": value}
    return found_in(text, "file", members)


def found_in(line: bytes, whose: str, members: Callable[[Forms, Value], dict[str, Value] | None]) -> list[Fault]:
    """What is no JSON, what has not its form, else the faults of the texts of its members."""
    if len(line) > MOST_LINE_BYTES:
        return [Fault(19, 0, f"the {whose} has more than {MOST_LINE_BYTES:,} bytes")]
    try:
        text = line.decode()
    except UnicodeDecodeError as broken:
        return [no_utf8(line, broken.start, whose)]
    try:
        value = placed_json.read(text, whose)
    except Bad as bad:
        return [Fault(19, bad.place, bad.what, bad.edit)]
    noted = Forms(text)
    held = members(noted, value)
    return in_order(noted.faults if held is None else Judge(text, held).faults())


def in_order(found: Iterable[Fault]) -> list[Fault]:
    return sorted(found, key=lambda fault: (fault.number, fault.place))


def text_fault(number: int, fault_of: Callable[[str], Bad | None], text: str, place: int) -> Fault | None:
    """The fault of a text that stands at a place, by one rule; none where it keeps that."""
    bad = fault_of(text)
    if not bad:
        return None
    edit = (place, place + len(text), json.dumps(bad.edit[2], ensure_ascii=False)) if bad.edit else None
    return Fault(number, place + bad.place, bad.what, edit)


def no_utf8(line: bytes, at: int, whose: str) -> Fault:
    """A byte that is of no text in UTF-8. The letters before it are."""
    told = f"byte {at + 1} of the {whose}, 0x{line[at]:02X}, is not UTF-8"
    if line.startswith((b"\xff\xfe", b"\xfe\xff")):
        told += ": the file begins as one in UTF-16"
    elif at + 1 < len(line) and not 0x80 <= line[at + 1] < 0xc0 and line[at] >= 0xa0:
        told += f": in Latin-1 it is {shown(bytes([line[at]]).decode('latin-1'))}"
    return Fault(19, len(line[:at].decode()), told)


class Judge:
    def __init__(self, text: str, members: dict[str, Value]) -> None:
        self.text, self.members = text, members

    def pairs(self, name: str) -> list[list[Value]]:
        return [pair.items for pair in self.members[name].items] if name in self.members else []

    def premises(self) -> list[Value]:
        lines = self.members["derivation"].items if "derivation" in self.members else []
        causes = [cause.members for line in lines for cause in line.members["causes"].items]
        return [cause["need"] for cause in causes if "need" in cause]

    def faults(self) -> list[Fault]:
        needs, lock = self.pairs("needs"), self.pairs("lock")
        own, version = ([self.members[member]] if member in self.members else [] for member in ("name", "version"))
        found = self.texts(1, name_fault, [*own, *(name for name, _ in needs), *(name for name, _ in lock)])
        found += self.texts(2, version_fault, [*version, *(text for _, text in lock)])
        found += self.texts(3, requirement_fault, [*(text for _, text in needs), *self.premises()])
        found += self.repeated(needs, "needs") + self.repeated(lock, "lock")
        if own:
            found += [Fault(5, name.start, f"{name.text} depends on itself") for name, _ in needs
                      if name.held == own[0].held]
        if len(needs) > MOST_NEEDS:
            found.append(Fault(6, needs[MOST_NEEDS][0].start, f"{len(needs):,} needs; the limit is {MOST_NEEDS}"))
        return found

    def texts(self, number: int, fault_of: Callable[[str], Bad | None], values: Iterable[Value]) -> list[Fault]:
        found = []
        for value in values:
            bad = fault_of(value.text)
            if bad:
                edit = (value.start, value.end, json.dumps(bad.edit[2], ensure_ascii=False)) if bad.edit else None
                found.append(Fault(number, placed_json.place_in(self.text, value, bad.place), bad.what, edit))
        return found

    def repeated(self, pairs: Iterable[list[Value]], whose: str) -> list[Fault]:
        seen: set[str] = set()
        found = []
        for name, _ in pairs:
            if name.text in seen:
                found.append(Fault(4, name.start, f"{name.text} appears twice in {shown(whose)}"))
            seen.add(name.text)
        return found


# ---- which text of a refused line is at fault

class Culprit(NamedTuple):
    """What a line is refused for. `where` names its member, as `version` or `needs[3]`, or is empty for the line as a
    whole; `package` is the package that this is about, and `text` what stands there. `meant` is what was probably
    meant, where there is telling."""
    where: str
    package: str
    text: str
    told: str
    meant: str | None = None

    def __str__(self) -> str:
        place = ", ".join(part for part in (self.where, self.package) if part) if self.where else ""
        return f"{place}: {self.told}" if place else self.told


def culprit(number: int, line: bytes) -> Culprit | None:
    """What a line, without its line feed, is refused for by a number; none where it is for nothing in the line."""
    if number in FOUND:
        asked = json.loads(line)
        named = f"{asked['name']} {asked['version']}"
        return Culprit("", asked["name"], asked["version"], f"{named} {FOUND[number]}")
    fault = next((fault for fault in faults(line) if fault.number == number), None)
    return culprit_of(fault, line) if fault else None


def culprit_of(fault: Fault, line: bytes) -> Culprit:
    try:
        value = placed_json.read(line.decode())
    except (UnicodeDecodeError, Bad):
        return Culprit("", "", "", fault.told, fault.meant)
    where, package, value = descended(value, fault.place)
    text = value.held if isinstance(value.held, str) else ""
    return Culprit(where, package, text, fault.told, meant(fault))


def descended(value: Value, place: int) -> tuple[str, str, Value]:
    """The member at a place of the line with its item, the package that it is about, and the innermost value there."""
    where, package = "", ""
    while isinstance(value.held, (dict, list)):
        parts: Iterable[tuple[str | int, Value]]
        if isinstance(value.held, dict):
            parts = value.held.items()
        else:
            parts = enumerate(value.held)
        within = next(((key, part) for key, part in parts if part.start <= place < part.end), None)
        if within is None:
            break
        key, part = within
        if isinstance(value.held, dict) and not where:
            where, package = str(key), text_of(value.held.get("name"))
        elif where in ("needs", "lock", "derivation"):
            where += f"[{key}]"
            package = text_of(part.held[0]) if isinstance(part.held, list) and part.held else ""
        value = part
    return where, package, value


def text_of(value: Value | None) -> str:
    return value.held if value is not None and isinstance(value.held, str) else ""


def meant(fault: Fault) -> str | None:
    """What was probably meant, as a text where it is one of JSON."""
    try:
        value = json.loads(fault.meant or "null")
    except ValueError:
        return fault.meant
    return value if isinstance(value, str) else fault.meant
