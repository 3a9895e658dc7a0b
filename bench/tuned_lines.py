"""Lines that feel a constant of the program which no other workload feels: publications, and then requests.

    python3 -m bench.tuned_lines NAME     prints the lines of a workload; without a name, the names

docs/BENCHMARKS.md, Constants, has what they showed. The same name gives the same lines.
"""
from __future__ import annotations

import random
import sys
from collections.abc import Callable

from bench.workloads import Workload, about_one, crossed, linked, minor, publish, resolve, through_hubs

STEP = 1_099_511_628_211  # of the key of a requirement, and the chains that keys fall into
CHAINS = 16_384


def chain_of(versions: int, length: int = 60) -> Workload:
    """As the workload `chain`, of so many versions each."""
    return linked(length, versions), [resolve([["c000", "^1"], ["y", "^1"]])]


def pigeons(count: int, holes: int) -> Workload:
    """Each pigeon needs a hole for itself."""
    lines = [publish("h%d" % hole, (pigeon + 1, 0, 0), []) for hole in range(holes) for pigeon in range(count)]
    lines += [minor("p%d" % pigeon, hole, ["h%d" % hole, "^%d" % (pigeon + 1)])
              for pigeon in range(count) for hole in range(holes)]
    return lines, [resolve([["p%d" % pigeon, "*"] for pigeon in range(count)])]


def dead_chain(name: str, version: int, length: int) -> list[str]:
    """Packages in a row, the last of which rules this version of a package out."""
    names = ["e%02d-%s" % (place, name) for place in range(length)]
    needs = [[[after, "^%d" % version]] for after in names[1:]] + [[[name, "<1.%d.0" % version]]]
    lines = [publish(own, (version, 0, 0), need) for own, need in zip(names, needs)]
    return lines + [minor(name, version, [names[0], "^%d" % version])]


def dead_chains(versions: int, count: int = 5, length: int = 20) -> Workload:
    """Packages of which so many versions can't be had, which is found so many packages further."""
    names = ["d%d" % number for number in range(count)]
    lines = [minor(name, 0) for name in names]
    for name in names:
        for version in range(1, versions + 1):
            lines += dead_chain(name, version, length)
    return lines, [resolve([[name, "*"] for name in names])]


def wide_formulas(size: int = 16, clauses: int = 14, versions: int = 200, bounds: int = 24, count: int = 3) -> Workload:
    """As `sat`, but a variable has so many versions, and a literal is one of so many bounds on them, from below or
    above; so many clauses a variable."""
    rng, lines, requests = random.Random(1), [], []
    for formula in range(count):
        names = ["k%d-%04d" % (formula, number) for number in range(clauses * size)]
        variables = ["x%d-%03d" % (formula, variable) for variable in range(size)]
        lines += [minor(variable, version) for variable in variables for version in range(versions)]
        for name in names:
            for place, variable in enumerate(rng.sample(variables, 3)):
                bound = versions * rng.randint(1, bounds) // (bounds + 1)
                lines.append(minor(name, place, [variable, "%s1.%d.0" % (rng.choice([">=", "<"]), bound)]))
        needs, hubs = through_hubs(names, "hub%d-" % formula)
        lines += hubs
        requests.append(resolve(needs))
    return lines, requests


def needs_each(needs: int, count: int = 2_000) -> Workload:
    """Publications with so many needs each, and no request."""
    rng, names = random.Random(needs), ["n%03d" % number for number in range(500)]
    return [minor("p%03d" % rng.randrange(500), version, *([name, "^1"] for name in rng.sample(names, needs)))
            for version in range(count)], []


def long_requirements(count: int = 3_000) -> Workload:
    """Publications whose requirements have some 10 to 60 bytes and come again, and no request."""
    rng, forms, names = random.Random(5), [], ["n%03d" % number for number in range(200)]
    for number in range(60):
        low = rng.randrange(10, 90)
        bounds = (">=1", low), ("<2", low), (">=1", low - 1), ("<2", low + 1), (">1", low - 2)
        parts = ["%s.%d.0" % bound for bound in bounds]
        forms.append(", ".join(parts[:1 + number % 5]))
    return [minor("p%03d" % (version % 250), version, *([name, rng.choice(forms)] for name in rng.sample(names, 6)))
            for version in range(count)], []


def chain_number(text: str, key: int = 0) -> int:
    """The chain into which a requirement falls, but for what its package adds."""
    for byte in text.encode():
        key = (key * STEP + byte) % CHAINS
    return key


def in_one_chain(count: int) -> list[str]:
    """So many requirements that fall into one chain: the key adds up what both of their numbers give."""
    by_chain: dict[int, list[int]] = {}
    found = []
    for last in range(1_000, 10_000):
        by_chain.setdefault(chain_number(str(last)), []).append(last)
    for first in range(1_000, 10_000):
        rest = -chain_number("%d." % first) * STEP ** 4 % CHAINS
        found += [">=2.0.0, <3.%d.%d" % (first, last) for last in by_chain.get(rest, [])]
    return found[:count]


def one_chain(sets: int = 17, versions: int = 120) -> Workload:
    """Refusals that rest on requirements of one package, all of which fall into one chain. Each requirement is looked
    for three times."""
    needs = in_one_chain(sets * versions)
    lines = [publish("q", (major, 0, 0), []) for major in (1, 2)] + [minor("one", 0, ["q", "^1"])]
    for number in range(sets):
        own = needs[number * versions:(number + 1) * versions]
        lines += [minor("a%02d" % number, version, ["q", need]) for version, need in enumerate(own)]
        lines += [minor("r%02d%s" % (number, turn), 0, ["a%02d" % number, "*"], ["one", "*"]) for turn in "xyz"]
    return lines, [resolve([["r%02d%s" % (number, turn), "*"]]) for turn in "xyz" for number in range(sets)]


def refused(count: int = 40) -> Workload:
    """So many requests, none of which has a version."""
    lines = [minor("p%03d" % number, 0) for number in range(count)]
    return lines, [resolve([["p%03d" % number, "^2"]]) for number in range(count)]


def one_hub(count: int = 1_024) -> Workload:
    """So many members of a store that all name a package, the requests for them among the lines, and a request for that
    package."""
    lines, fill = about_one(count)
    return lines + fill, [crossed()]


TUNED: dict[str, Callable[[], Workload]] = {
    "chain of 3": lambda: chain_of(3), "chain of 6": lambda: chain_of(6), "pigeons": lambda: pigeons(6, 5),
    "more pigeons": lambda: pigeons(8, 7), "dead chains": lambda: dead_chains(8),
    "longer dead chains": lambda: dead_chains(14), "needs of 6": lambda: needs_each(6),
    "needs of 12": lambda: needs_each(12), "long requirements": long_requirements, "one chain": one_chain,
    "refused": refused, "one hub": one_hub, "wide formulas": wide_formulas}


def main() -> None:
    name = " ".join(sys.argv[1:])
    if name not in TUNED:
        sys.exit("\n".join(TUNED))
    lines, requests = TUNED[name]()
    print(*lines, *requests, sep="\n")


if __name__ == "__main__":
    main()
