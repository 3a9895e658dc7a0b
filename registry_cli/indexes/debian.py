"""The reader of Debian's package index, and its intervals of versions as requirements."""
from __future__ import annotations

import itertools
import math
import re
import subprocess
from collections import defaultdict

from ..shapes import Dependency, Fields, Interval, Numbers, Sequence
from .index import Crate, Index, Release, Unusable, by_precedence, need

# an interval of Debian's: from a version on, below another; versions are triples of numbers
NOTHING: Numbers = (0, 0, 0)
BEYOND: Numbers = (math.inf, math.inf, math.inf)


def raised(numbers: Sequence[float], place: int) -> Numbers:
    """The lowest version above all that begin with the numbers up to this place."""
    return (*numbers[:place], numbers[place] + 1, 0, 0)[:3]


def padded(numbers: Sequence[float]) -> Numbers:
    return (*numbers, 0, 0)[:3]


def comparator(interval: Interval) -> str:
    """The shortest requirement that admits what lies in an interval."""
    low, high = interval
    # `^` fixes the numbers up to the first that is not zero, `~` the first two, `=` all three
    for sign, length in (("^", 1), ("^", 2), ("^", 3), ("~", 2), ("~", 3), ("=", 3)):
        numbers = low[:length]
        leading = next((place for place, it in enumerate(numbers) if it), length - 1)
        fixed = {"^": leading, "~": 1, "=": 2}[sign]
        if padded(numbers) == low and raised(numbers, fixed) == high:
            return sign + ".".join(map(str, numbers))
    bounds = [(">=", low)] * (low != NOTHING) + [("<", high)] * (high != BEYOND)
    texts = (re.sub(r"(\.0){1,2}$", "", sign + ".".join(map(str, numbers))) for sign, numbers in bounds)
    return ", ".join(texts) or "*"


def joined(intervals: Sequence[Interval]) -> Interval | None:
    """The interval that intervals make up together; none where they leave something out between them."""
    low, high = min(intervals)
    for start, end in sorted(intervals):
        if start > high:
            return None
        high = max(high, end)
    return low, high


class Debian(Index):
    """The crates that Debian packages, from stanzas as `apt-cache` prints them and as a file `Packages` has them.

    A package `librust-NAME-dev` provides `librust-NAME-1-dev`, `librust-NAME-1.2-dev` and `librust-NAME-1.2.3-dev`:
    these tell the name and the version, in Debian's spelling, where `_` is `-`. See Debian's Rust policy, and debcargo,
    which writes them.
    """

    NUMBERED = r"([a-z0-9-]+)-([0-9]+(?:\.[0-9]+){0,2})"
    ITEM = r"librust-([a-z0-9.-]+?)(?:\+[a-z0-9.+-]+)?-dev(?::[a-z0-9]+)?(?: *\((<<|<=|=|>=|>>) *([^ )]+)\))?"

    def __init__(self, text: str) -> None:
        super().__init__()
        # by crate: a version, and the fields of the package that has it
        self.packages: dict[str, list[tuple[str, Fields]]] = defaultdict(list)
        self.features: dict[str, list[str]] = defaultdict(list)  # by crate: packages of its features
        stanzas = re.split(r"\n[ \t]*\n", "\n" + text)
        for stanza in (it.strip("\n") for it in stanzas if "\nPackage: librust-" in "\n" + it):
            fields: Fields = dict(re.findall(r"(?m)^([A-Za-z0-9-]+):[ \t]*(.*(?:\n[ \t].*)*)$", stanza))
            if "+" in fields["Package"]:
                for name in self.provided(fields, r"\+[a-z0-9.+-]+"):
                    self.features[name].append(fields["Package"])
            else:
                self.take(fields)
        if not self.packages:
            raise Unusable("there are no packages librust-..-dev: on a Debian machine `apt-get update` fetches the "
                           "index")

    @staticmethod
    def of_this_machine() -> str:
        try:
            done = subprocess.run(["apt-cache", "dumpavail"], stdout=subprocess.PIPE, check=True)
        except (OSError, subprocess.CalledProcessError) as fault:
            raise Unusable(f"apt-cache can't be asked: {fault}") from None
        return done.stdout.decode(errors="replace")

    @staticmethod
    def upstream(fields: Fields) -> str:
        return re.sub(r"^[0-9]+:", "", fields.get("Version", "")).rpartition("-")[0]

    def provided(self, fields: Fields, feature: str = "") -> dict[str, str]:
        """The crates that a package provides, or has a feature of, each with its version."""
        told: dict[str, str] = {}  # the most numbers of each version
        for item in fields.get("Provides", "").split(","):
            found = re.fullmatch(f"librust-{self.NUMBERED}{feature}-dev", item.partition("(")[0].strip())
            if found and len(found[2]) > len(told.get(found[1], "")):
                told[found[1]] = found[2]
        for name, version in list(told.items()):
            if version.count(".") < 2:  # the crate sha-1 provides librust-sha-1-dev, which is no sha of version 1
                del told[name]
                # web-sys has so many names that it leaves the longest out
                if self.upstream(fields).startswith(version + "."):
                    told[name] = self.upstream(fields)
        return told

    def take(self, fields: Fields) -> None:
        told = self.provided(fields)
        for name, version in told.items():
            if self.enter(name):
                self.packages[name].append((version, fields))
        if not told:
            self.notes.left_out("packages that provide no librust-NAME-VERSION-dev", fields["Package"])

    def crate(self, name: str) -> Crate:
        crate = Crate(name)
        for version, fields in self.packages[name]:
            items = (item.strip() for item in fields.get("Depends", "").split(","))
            needs = [self.need(item, version, crate) for item in items if item]
            crate.releases.append(Release(version, [it for it in needs if it]))
            if re.match(rf"{re.escape(version)}~(?!dfsg|ds)", self.upstream(fields)):
                kind = "pre-releases, which Debian provides by their numbers alone"
                crate.notes.otherwise(kind, f"{name} {self.upstream(fields)}")
        for package in self.features[name]:
            crate.notes.left_out("packages of features, with what they need", package)
        crate.releases = by_precedence(crate.releases)
        return crate

    def need(self, item: str, version: str, crate: Crate) -> Dependency | None:
        """Of alternatives on one crate without a gap between them all are taken, else the first that is there."""
        read = [it for it in map(self.interval, item.split("|")) if it]
        if not read:
            crate.notes.left_out("dependencies on packages that are no crates", need(crate.name, version, item))
            return None
        whole = joined([interval for _, interval in read]) if len({name for name, _ in read}) == 1 else None
        if whole and len(read) == item.count("|") + 1:
            return read[0][0], comparator(whole)
        crate.notes.left_out("alternatives after the first", need(crate.name, version, item))
        name, interval = next((it for it in read if self.has(it[0])), read[0])
        return name, comparator(interval)

    def interval(self, item: str) -> tuple[str, Interval] | None:
        """Numbers in the package's name begin the version; bounds are read without Debian's part and pre-release."""
        found = re.fullmatch(self.ITEM, item.strip())
        if not found:
            return None
        name, low, high = found[1], NOTHING, BEYOND
        numbered = re.fullmatch(self.NUMBERED, name)
        if numbered and not self.has(name):
            name, numbers = numbered[1], [int(it) for it in numbered[2].split(".")]
            low, high = padded(numbers), raised(numbers, len(numbers) - 1)
        if found[2]:
            upstream = re.split("[-~+]", found[3].partition(":")[2] or found[3])[0]
            bound = padded([int(it) for it in itertools.islice(re.findall("[0-9]+", upstream), 3)])
            low = max(low, bound) if found[2] in ("=", ">=", ">>") else low
            high = min(high, {"<<": bound}.get(found[2], raised(bound, 2))) if found[2] in ("=", "<=", "<<") else high
        return name, (low, high)
