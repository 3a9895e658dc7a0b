"""The rules of names, versions and requirements: where a text breaks them, and what was probably meant: see
docs/REGISTRY.md and, of requirements, The Cargo Book as the crate `semver` reads it."""
from __future__ import annotations

import re
import unicodedata
from collections.abc import Callable
from functools import lru_cache

from .fault import Bad, Edit, shown
from .limits import MOST_NAME_BYTES, MOST_REQUIREMENT_BYTES, MOST_VERSION_BYTES

BEYOND_NUMBERS = 2 ** 64
NAME = re.compile(r"[a-z][a-z0-9_-]{0,63}")
OUTSIDE = re.compile(r"[^a-z0-9_-]")
DIGITS = re.compile(r"[0-9]+")
IDENTIFIER = re.compile(r"[0-9A-Za-z-]*")
PARTS = ("major", "minor", "patch")


def fault_of(read: Callable[[str], object], text: str) -> Bad | None:
    """The Bad that a reader of texts raises, or none."""
    try:
        read(text)
    except Bad as bad:
        return bad
    return None


def whole(text: str, new: str | None) -> Edit | None:
    """The edit that puts a new text in the place of a whole one, if there is a new one."""
    return None if new is None or new == text else (0, len(text), new)


def past(pattern: re.Pattern[str], text: str, at: int) -> int:
    """Where what a pattern finds at a place ends: there, where it finds nothing."""
    found = pattern.match(text, at)
    return found.end() if found else at


@lru_cache(maxsize=100_000)
def name_fault(text: str) -> Bad | None:
    return None if NAME.fullmatch(text) else bad_name(text)


def bad_name(text: str) -> Bad:
    meant = whole(text, name_meant(text))
    if not text:
        return Bad(0, "a name is empty")
    outside = OUTSIDE.search(text)
    if outside:
        letter = outside[0]
        kind = "the capital letter" if letter.isascii() and letter.isupper() else "the character"
        place = len(text[:outside.start()].encode()) + 1
        return Bad(outside.start(), f"{kind} {shown(letter)}, byte {place} of the name {shown(text)}, "
                   "is not one of a-z, 0-9, - and _", meant)
    if not "a" <= text[0] <= "z":
        return Bad(0, f"the name {shown(text)} does not begin with a letter a-z", meant)
    return Bad(MOST_NAME_BYTES, f"a name of {len(text)} bytes; the limit is {MOST_NAME_BYTES}")


def name_meant(text: str) -> str | None:
    """In small letters without accents, with - for what a name can't have; none of one with a requirement."""
    if re.search("[=<>~^!]|.@", text):
        return None
    plain = "".join(letter for letter in unicodedata.normalize("NFKD", text) if not unicodedata.combining(letter))
    # @scope/name, as npm has it
    folded = re.sub(r"[^a-z0-9_-]+", "-", plain.strip().lower().lstrip("@")).strip("-")
    return folded if plain.isascii() and NAME.fullmatch(folded) else None


@lru_cache(maxsize=100_000)
def version_fault(text: str) -> Bad | None:
    bad = fault_of(read_version, text)
    return Bad(bad.place, bad.what, whole(text, version_meant(text))) if bad else None


def read_version(text: str) -> None:
    """Reads a version: three numbers, a pre-release and build metadata behind them if there are any."""
    if len(text.encode()) > MOST_VERSION_BYTES:
        raise Bad(0, f"a version of {len(text.encode())} bytes; the limit is {MOST_VERSION_BYTES}")
    if not text:
        raise Bad(0, "a version is empty")
    at = number(text, 0, "major", "version")
    for part in PARTS[1:]:
        if not text.startswith(".", at):
            raise Bad(at, f"the version {shown(text)} has no {part} number" if at == len(text) or text[at] in "-+"
                      else f"{shown(text[at])} can't follow a number of the version {shown(text)}")
        at = number(text, at + 1, part, "version")
    at = tail(text, at)
    if at < len(text):
        more = text[at] == "."
        raise Bad(at, f"the version {shown(text)} has more than three numbers" if more
                  else f"{shown(text[at])} can't follow the end of the version {shown(text)}")


def number(text: str, at: int, part: str, whose: str) -> int:
    """Reads a number and answers where it ends."""
    found = DIGITS.match(text, at)
    if not found:
        raise Bad(at, f"the {part} number of the {whose} {shown(text)} is missing" if at == len(text)
                  else f"expected the {part} number of the {whose} {shown(text)}, not {shown(text[at])}")
    if len(found[0]) > 1 and found[0][0] == "0":
        raise Bad(at, f"the {part} number {shown(found[0])[1:-1]} of the {whose} {shown(text)} has a leading zero")
    if len(found[0]) > 20 or int(found[0]) >= BEYOND_NUMBERS:
        raise Bad(at, f"the {part} number of the {whose} {shown(text)} has more than 64 bits")
    return found.end()


def tail(text: str, at: int) -> int:
    """Reads a pre-release and build metadata, where they stand, and answers where they end."""
    for sign, kind in (("-", "pre-release"), ("+", "build metadata")):
        if text.startswith(sign, at):
            at = identifiers(text, at + 1, kind)
    return at


def identifiers(text: str, at: int, kind: str) -> int:
    """Reads identifiers that dots part, and answers where they end."""
    while True:
        end = past(IDENTIFIER, text, at)
        found = text[at:end]
        if not found:
            raise Bad(at, f"an identifier of the {kind} of {shown(text)} is empty")
        if kind == "pre-release" and found.isdigit() and len(found) > 1 and found[0] == "0":
            raise Bad(at, f"the number {shown(found)[1:-1]} in the pre-release of {shown(text)} has a leading zero")
        if not text.startswith(".", end):
            return end
        at = end + 1


# .x in the place of a number is a wildcard of a requirement: there is no telling which version that is
LOOSE = re.compile(r"[\s=^~vV]*(\d+)(?!\.[xX])(?:\.(\d+)(?!\.[xX])(?:\.(\d+))?)?"
                   r"(?:[-._]?([A-Za-z][0-9A-Za-z.-]*|-[0-9A-Za-z.-]+))?(\+[0-9A-Za-z.-]+)?\s*", re.ASCII)


def version_meant(text: str) -> str | None:
    """With 0 for numbers that are missing, and without what stands before or behind it."""
    found = LOOSE.fullmatch(text)
    if not found:
        return None
    numbers = ".".join(without_zeros(part or "0") for part in found.groups()[:3])
    pre = ".".join(map(without_zeros, found[4].lstrip("-").split("."))) if found[4] else ""
    made = numbers + (f"-{pre}" if pre else "") + (found[5] or "")
    return None if fault_of(read_version, made) else made


def without_zeros(part: str) -> str:
    """A number without leading zeros, where a text is one that is not very long."""
    return str(int(part)) if part.isdigit() and len(part) < 30 else part


# ---- requirements

MOST_COMPARATORS = 32
SIGNS = re.compile(r"[=<>~^!|&]+")
OPERATOR = re.compile(r">=|<=|[=<>~^]")
SPACES = re.compile(" *")
WILDCARDS = tuple("*xX")
ABROAD = {"~>": "Ruby", "~=": "Python", "==": "Python", "!=": "Python", "||": "npm", "<<": "Debian", ">>": "Debian"}


@lru_cache(maxsize=100_000)
def requirement_fault(text: str) -> Bad | None:
    bad = fault_of(read_requirement, text)
    return Bad(bad.place, bad.what, whole(text, requirement_meant(text))) if bad else None


def read_requirement(text: str) -> None:
    """Reads a requirement: a wildcard alone, or comparators that commas part."""
    if len(text.encode()) > MOST_REQUIREMENT_BYTES:
        raise Bad(0, f"a requirement of {len(text.encode())} bytes; the limit is {MOST_REQUIREMENT_BYTES}")
    at = past(SPACES, text, 0)
    if at == len(text):
        raise Bad(at, "a requirement is empty")
    if text[at] in WILDCARDS:
        behind = past(SPACES, text, at + 1)
        if behind < len(text):
            raise Bad(behind, f"{shown(text[at])} must be the whole requirement, with nothing after it")
        return
    for _ in range(MOST_COMPARATORS):
        at = comparator(text, at)
        if at == len(text):
            return
        if text[at] != ",":
            raise no_comma(text, at)
        at = past(SPACES, text, at + 1)
    raise Bad(at, f"a requirement of more than {MOST_COMPARATORS} comparators")


def comparator(text: str, at: int) -> int:
    """Reads an operator, one to three numbers and what may stand behind them, and answers where it ends."""
    signs = SIGNS.match(text, at)
    found = OPERATOR.match(text, at)
    if signs and (not found or found[0] != signs[0]):
        raise unknown_operator(at, signs[0])
    at = past(SPACES, text, found.end() if found else at)
    first = text[at:at + 1]
    if first in ("", ","):
        raise Bad(at, f"a comparator of the requirement {shown(text)} is missing" if not found
                  else f"the operator {found[0]} of the requirement {shown(text)} has no version behind it")
    if first in WILDCARDS:
        raise Bad(at, f"{shown(first)} must be the whole requirement, without an operator or a comma")
    at, parts = number(text, at, "major", "requirement"), ["minor", "patch"]
    is_wild = False
    while parts and text.startswith(".", at):
        part = parts.pop(0)
        if text.startswith(WILDCARDS, at + 1):
            at, is_wild = at + 2, True
        elif is_wild:
            raise Bad(at + 1, f"behind a wildcard the requirement {shown(text)} has no more numbers")
        else:
            at = number(text, at + 1, part, "requirement")
    if not parts and not is_wild:
        at = tail(text, at)
    return past(SPACES, text, at)


def unknown_operator(at: int, signs: str) -> Bad:
    whose = f" of {ABROAD[signs[:2]]}" if signs[:2] in ABROAD else ""
    if signs[0] == "|":
        return Bad(at, f"the operator {signs}{whose} is not one of Cargo's, which has no \"or\": "
                   "all comparators of a requirement must hold")
    return Bad(at, f"the operator {signs}{whose} is not one of Cargo's, which are ^ ~ = > >= < <=")


def no_comma(text: str, at: int) -> Bad:
    """What stands behind a comparator that is whole."""
    signs = SIGNS.match(text, at)
    if signs and signs[0][0] in "|&!":
        return unknown_operator(at, signs[0])
    if text[at] == "-" and text.startswith(" ", at - 1):
        return Bad(at, "the operator - of npm, a range, is not one of Cargo's")
    if text[at] in "-+":
        return Bad(at, "a pre-release or build metadata needs three numbers before it, "
                   f"as in 1.2.0{text[at]}rc, not in {shown(text)}")
    if text[at] == ".":
        return Bad(at, f"a comparator of the requirement {shown(text)} has more than three numbers")
    if text[at - 1] == " " or signs:
        return Bad(at, f"a comma is missing between two comparators of {shown(text)}")
    return Bad(at, f"{shown(text[at])} can't follow a comparator of the requirement {shown(text)}")


# ---- what was probably meant by a requirement

ANYTHING = ("", "latest", "any", "all", "newest")
SAME = {"=>": ">=", "=<": "<=", "==": "=", "===": "=", "<<": "<", ">>": ">", "≥": ">=", "≤": "<=", "^=": "^",
        "~=": "~>"}
WHOLE = re.compile(r"([=<>~^]*) *[vV]?(\d+)(?:\.(\d+|[xX*]))?(?:\.(\d+|[xX*]))?"
                   r"(?:[-.]?([A-Za-z][0-9A-Za-z.-]*|-[0-9A-Za-z.-]+))?(?:\+[0-9A-Za-z.-]+)?", re.ASCII)
BETWEEN = re.compile(r"(?<=[0-9A-Za-z*]) +(?=[=<>~^vV\d])")
CARET = re.compile(r"\^?(\d+)(?:\.(\d+))?(?:\.(\d+))?(?:\.[xX*])?", re.ASCII)
INTERVAL = re.compile(r"([\[(]) *([^,\[\]()]*) *, *([^,\[\]()]*) *([\])])")


def requirement_meant(text: str) -> str | None:
    """A requirement that Cargo reads for one that it does not; none where there is no telling."""
    if len(text) > MOST_REQUIREMENT_BYTES:
        return None
    plain = re.sub(r"\s+", " ", text).strip()
    if plain.lower() in ANYTHING:
        return "*"
    made = either(plain) if "||" in plain else interval(plain) or hyphened(plain) or every(plain)
    return made if made and not fault_of(read_requirement, made) else None


def every(plain: str) -> str | None:
    """Comparators that all must hold, parted in some way."""
    plain = re.sub(r"&&|\band\b|[()]|;", ",", plain)
    plain = re.sub(r"([=<>~^≥≤]) +", r"\1", plain)
    parts = [part.strip() for part in BETWEEN.sub(",", plain).split(",") if part.strip()]
    made = [one(part) for part in parts if not re.fullmatch(r"[=<>~^]*[*xX]", part)]
    known = [part for part in made if part is not None]
    return (", ".join(known) or "*") if parts and len(known) == len(made) else None


def one(part: str) -> str | None:
    for abroad in sorted(SAME, key=len, reverse=True):
        if part.startswith(abroad):
            part = SAME[abroad] + part[len(abroad):]
            break
    found = WHOLE.fullmatch(part)
    if not found:
        return None
    sign, *numbers, pre = found.groups()
    numbers = [str(int(text)) if text.isdigit() else "*" for text in numbers if text]
    if "*" in numbers:
        numbers = numbers[:numbers.index("*") + 1]
    if sign == "~>":
        return pessimistic(numbers, pre)
    if pre:
        numbers += ["0"] * (3 - len(numbers))
    return sign + ".".join(numbers) + (f"-{pre.lstrip('-')}" if pre else "")


def pessimistic(numbers: list[str], pre: str | None) -> str:
    """Ruby's `~>`: the last number may rise, those before it may not."""
    text = ".".join(numbers) + (f"-{pre.lstrip('-')}" if pre else "")
    if len(numbers) == 3:
        return f"~{text}"
    return f"^{text}" if numbers[0] != "0" else f">={text}, <1"


def hyphened(plain: str) -> str | None:
    """npm's range, `1.2.3 - 2.3.4`."""
    low, dash, high = plain.partition(" - ")
    return f">={low.strip()}, <={high.strip()}" if dash else None


def interval(plain: str) -> str | None:
    """Maven's and NuGet's range, `[1.0,2.0)`."""
    found = INTERVAL.fullmatch(plain)
    if not found:
        return None
    opened, low, high, closed = found.groups()
    parts = [(">=" if opened == "[" else ">") + low.strip()] if low.strip() else []
    parts += [("<=" if closed == "]" else "<") + high.strip()] if high.strip() else []
    return ", ".join(parts) or "*"


def either(plain: str) -> str | None:
    """Carets of which each begins where the one before it ends are one range."""
    carets = plain.split("||")
    found = (CARET.fullmatch(caret.strip()) for caret in carets)
    bounds = [bound for bound in found if bound]
    if len(bounds) < len(carets):
        return None
    majors = [int(bound[1]) for bound in bounds]
    joined = majors == list(range(majors[0], majors[0] + len(majors))) and majors[0] > 0
    joined = joined and all(not int(bound[2] or 0) and not int(bound[3] or 0) for bound in bounds[1:])
    first = ".".join(number for number in bounds[0].groups() if number)
    return f">={first}, <{majors[-1] + 1}" if joined else None
