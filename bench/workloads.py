"""Registries with requests for them, the same for the same sizes.

Each workload is a list of publish lines and a list of resolve lines.
"""
from __future__ import annotations

import json
import random
from collections.abc import Iterable, Sequence
from typing import Any

from registry_cli.limits import MOST_NEEDS

Numbers = tuple[int, int, int]
Need = list[str]  # a name and a requirement
Package = tuple[str, list[Numbers]]
Workload = tuple[list[str], list[str]]


def compact(value: Any) -> str:
    return json.dumps(value, separators=(",", ":"))


def publish(name: str, version: Numbers, needs: Sequence[Need]) -> str:
    return compact({"op": "publish", "name": name, "version": "%d.%d.%d" % version, "needs": needs})


def minor(name: str, number: int, *needs: Need) -> str:
    """Publishes version 1.NUMBER.0."""
    return publish(name, (1, number, 0), list(needs))


def resolve(needs: Iterable[Need]) -> str:
    return compact({"op": "resolve", "needs": needs})


def rising_versions(rng: random.Random) -> list[Numbers]:
    """10 to 60 versions of one major number, in rising order."""
    versions = [(1, 0, 0)]
    for _ in range(rng.randint(10, 60) - 1):
        _, number, patch = versions[-1]
        versions.append((1, number + 1, 0) if rng.random() < 0.4 else (1, number, patch + 1))
    return versions


def lived_in(size: int, rng: random.Random) -> tuple[list[Package], list[str]]:
    """`size` packages, each of which needs up to ten before it; some needs leave out the newest versions. Answers their
    names and versions, and the lines that publish them."""
    packages: list[Package] = []
    lines = []
    for place in range(size):
        name = "p%05d" % place
        # packages with low numbers are popular
        targets = sorted({int(place * rng.random() ** 3) for _ in range(min(place, rng.randint(3, 10)))})
        versions = rising_versions(rng)
        for version in versions:
            lines.append(publish(name, version, [requirement(rng, *packages[at]) for at in targets]))
        packages.append((name, versions))
    return packages, lines


def requests_for(packages: Sequence[Package], rng: random.Random, count: int) -> list[str]:
    """Requests for 20 packages of the later half each."""
    size = len(packages)
    asked = [[requirement(rng, *packages[at]) for at in rng.sample(range(size // 2, size), 20)] for _ in range(count)]
    return [resolve(sorted(needs)) for needs in asked]


def lockfile(size: int, seed: int = 1, count: int = 6) -> Workload:
    """A registry that is lived in, and so many requests. The newest versions of all packages don't fit together, and
    the answer is found without going back: what an upper bound leaves, each other need admits."""
    rng = random.Random(seed)
    packages, lines = lived_in(size, rng)
    return lines, requests_for(packages, rng, count)


def requirement(rng: random.Random, name: str, versions: Sequence[Numbers]) -> Need:
    """A need on a package that admits versions round the third quarter of the list, whatever else it admits."""
    low, high = rng.choice(versions[:len(versions) // 2]), versions[3 * len(versions) // 4]
    if rng.random() < 0.1:
        return [name, ">=%d.%d.%d, <=%d.%d.%d" % (low + high)]
    return [name, "^%d.%d.%d" % low]


TALL = 6


def tower(size: int, _seed: int = 1) -> Workload:
    """`size` storeys of two packages each, of which every version needs both packages below; the two lowest want the
    same version of one package and different ones of another.

    So the request is refused, and each version of each storey has to be ruled out by conflicts."""
    lines = [minor("%s%03d" % (side, storey), number, *below(size, storey, side, number))
             for storey in range(size) for number in range(TALL) for side in "lr"]
    lines += [minor(name, number) for number in range(TALL + 1) for name in ("foot", "key")]
    return lines, [resolve([["l000", "^1"], ["r000", "^1"]])]


def below(size: int, storey: int, side: str, number: int) -> list[Need]:
    if storey + 1 == size:
        return [["foot", "~1.%d.0" % (number if side == "l" else number + 1)], ["key", "~1.%d.0" % number]]
    span = ">=1.%d.0, <1.%d.0" % (max(0, number - 1), number + 1)
    return [["%s%03d" % (side, storey + 1), span] for side in "lr"]


# ---- hard searches

def through_hubs(names: Sequence[str], prefix: str) -> tuple[list[Need], list[str]]:
    """Needs for all these packages, and the lines of packages that need 60 of them each, where they are too many for a
    request."""
    if len(names) <= MOST_NEEDS:
        return [[name, "^1"] for name in names], []
    hubs, lines = [], []
    for at in range(0, len(names), 60):
        hubs.append("%s%04d" % (prefix, at // 60))
        lines.append(minor(hubs[-1], 0, *([name, "^1"] for name in names[at:at + 60])))
    needs, more = through_hubs(hubs, prefix + "h")
    return needs, lines + more


def partial(size: int, _seed: int = 1) -> Workload:
    """`size` times the conflict by which PubGrub's document explains partial satisfiers, each with packages of its own,
    in one request. None of these conflicts has to do with another."""
    lines, names = [], []
    for copy in range(size):
        words = ("foo", "left", "right", "shared", "target", "both")
        foo, left, right, shared, target, both = ("%s%04d" % (word, copy) for word in words)
        lines += [minor(foo, 0), minor(foo, 1, [left, "^1"], [right, "^1"]), minor(left, 0, [shared, ">=1.0.0"]),
                  minor(right, 0, [shared, "<1.1.0"]), minor(shared, 0, [target, "~1.0.0"]), minor(shared, 1),
                  minor(target, 0), minor(target, 1), minor(both, 0, [foo, "^1"], [target, "~1.1.0"])]
        names.append(both)
    needs, hubs = through_hubs(names, "hub")
    return lines + hubs, [resolve(needs)]


def clauses(size: int, rng: random.Random) -> list[list[tuple[int, int]]]:
    """A random formula: 4.26 clauses a variable, of three literals each, where half of such formulas hold of no
    values."""
    return [[(variable, rng.randint(0, 1)) for variable in rng.sample(range(size), 3)]
            for _ in range(round(4.26 * size))]


def sat(size: int, seed: int = 1, count: int = 6) -> Workload:
    """So many random formulas of `size` variables, and a request for each. The two versions of a variable's package are
    its values, the three of a clause's package need one of its literals each."""
    rng = random.Random(seed)
    lines, requests = [], []
    for formula in range(count):
        names = []
        for variable in range(size):
            lines += [minor("x%d-%03d" % (formula, variable), value) for value in (0, 1)]
        for number, literals in enumerate(clauses(size, rng)):
            names.append("k%d-%04d" % (formula, number))
            lines += [minor(names[-1], place, ["x%d-%03d" % (formula, variable), "~1.%d.0" % value])
                      for place, (variable, value) in enumerate(literals)]
        needs, hubs = through_hubs(names, "hub%d-" % formula)
        lines += hubs
        requests.append(resolve(needs))
    return lines, requests


VERSIONS, WINDOW = 5, 3


def conflicting(size: int, seed: int = 1, count: int = 16) -> Workload:
    """A random registry of `size` packages of five versions, of which each needs two others by a window of three
    versions, and so many requests. There are many selections for most, and which one a search finds first hangs on what
    was learnt before."""
    rng = random.Random(seed)
    names = ["w%03d" % place for place in range(size)]
    lines = [minor(name, number, *([other, window(rng)] for other in rng.sample([it for it in names if it != name], 2)))
             for name in names for number in range(VERSIONS)]
    requests = []
    for _ in range(count):
        forms = ["*", "*", "^1.%d.0" % rng.randrange(VERSIONS), "<=1.%d.0" % rng.randrange(VERSIONS)]
        requests.append(resolve([[name, rng.choice(forms)] for name in rng.sample(names, rng.randint(1, 4))]))
    return lines, requests


def window(rng: random.Random) -> str:
    """A requirement for some versions in a row: three, or, of three in ten, fewer at the upper end."""
    low = rng.randrange(VERSIONS)
    low = min(low, VERSIONS - WINDOW) if rng.random() < 0.7 else low
    return ">=1.%d.0, <1.%d.0" % (low, low + WINDOW)


# ---- requests that share conflicts

SESSION = 200


def worn(size: int, seed: int = 1) -> Workload:
    """A registry that is lived in, in which the newest version of each third package can't be had: it needs a package
    that needs an older version of the first. So a request meets a conflict for each of them that it reaches."""
    rng = random.Random(seed)
    packages, lines = lived_in(size, rng)
    for name, versions in packages[::3]:
        major, number, _ = versions[-1]
        lines.append(publish(name, (major, number + 1, 0), [[name + "-next", "^1"]]))
        lines.append(minor(name + "-next", 0, [name, "<%d.%d.0" % (major, number + 1)]))
    return lines, requests_for(packages, rng, SESSION)


def towers(size: int, seed: int = 1) -> Workload:
    """`tower`, and requests that begin at any two storeys, which are refused for the same reason. The first is that of
    `tower`."""
    lines, requests = tower(size)
    pairs = [(left, right) for left in range(size) for right in range(size) if (left, right) != (0, 0)]
    random.Random(seed).shuffle(pairs)
    return lines, requests + [resolve([["l%03d" % left, "^1"], ["r%03d" % right, "^1"]])
                              for left, right in pairs[:SESSION - 1]]


def linked(size: int, versions: int = 10) -> list[str]:
    """`size` packages of so many versions, of which each needs the next one; the last needs other versions of `x` than
    `y` does."""
    lines = [publish("x", (1, number, patch), []) for number in range(2) for patch in range(8)]
    lines += [minor("y", number, ["x", "~1.1.0"]) for number in range(16)]
    for link in range(size):
        need = ["x", "~1.0.0"] if link + 1 == size else ["c%03d" % (link + 1), "^1"]
        lines += [minor("c%03d" % link, number, need) for number in range(versions)]
    return lines


def chain(size: int, seed: int = 1) -> Workload:
    """`linked` packages. The requests are for `y` and for the first link, or for any two."""
    pairs = [(one, other) for other in range(size) for one in range(other)]
    random.Random(seed).shuffle(pairs)
    return linked(size), [resolve([["c000", "^1"], ["y", "^1"]])] + [
        resolve([["c%03d" % one, "^1"], ["c%03d" % other, "^1"], ["y", "^1"]]) for one, other in pairs[:SESSION - 1]]


# ---- what fills a store: each request leads to a conflict for each package that it asks for

def in_parts(names: Sequence[str], needs: Sequence[Need]) -> list[str]:
    """Requests for so many packages each, and for these needs."""
    most = MOST_NEEDS - len(needs)
    return [resolve([*needs, *([name, "*"] for name in names[at:at + most])]) for at in range(0, len(names), most)]


def dead_ends(count: int) -> Workload:
    """Packages whose newest version needs one that needs the older: that it can't be had is learnt of each, and names
    that package alone."""
    lines, names = [], ["d%05d" % number for number in range(count)]
    for name in names:
        lines += [minor(name, 0), minor(name, 1, ["for-" + name, "^1"]), minor("for-" + name, 0, [name, "<1.1.0"])]
    return lines, in_parts(names, [])


ROWS = 8


def about_one(count: int) -> Workload:
    """Packages whose newest version goes with the first version of `hub` alone: it needs a version of `x` that needs
    that. It is learnt of each, and names it and `hub`. And what `crossed` asks for."""
    names = ["d%05d" % number for number in range(count)]
    lines = [publish("x", (1, row, patch), [["hub", "~1.0.0"]] if row == 1 else [])
             for row in range(ROWS + 1) for patch in range(3)]
    lines += [minor("hub", 0), minor("hub", 1), minor("low", 0, ["x", "<1.2.0"]),
              minor("high", 0, ["x", ">=1.1.0, <1.3.0"])]
    for row in range(ROWS):
        lines += [minor("k", row), minor("l", row, ["x", "~1.%d.0" % row], ["k", "~1.%d.0" % row]),
                  minor("r", row, ["x", "~1.%d.0" % (row + 1)], ["k", "~1.%d.0" % row])]
    for name in names:
        lines += [minor(name, 0), minor(name, 1, ["high", "^1"], ["low", "^1"])]
    return lines, in_parts(names, [["hub", "~1.1.0"]])


def crossed() -> str:
    """A request for `hub`, and of many conflicts on `x`: no version of `l` goes with one of `r`."""
    return resolve([["hub", "~1.1.0"], ["l", "^1"], ["r", "^1"]])


SHARED = {"tower": (towers, 16), "chain": (chain, 30), "worn": (worn, 300)}
WORKLOADS = {"lockfile": (lockfile, (100, 300, 900)), "tower": (tower, (7, 20, 60)),
             "partial": (partial, (30, 170, 1000)), "sat": (sat, (20, 40, 80))}
