"""Lines of which each asks for as much as it can, and the registries for that, the same for the same sizes.

Each workload is a list of publish lines, and a list of lines that are asked then, all of them answered in the same way.
"""
from __future__ import annotations

from bench.workloads import Need, Workload, compact, minor, publish, resolve
from registry_cli.limits import MOST_NEEDS
from registry_cli.limits import MOST_VERSIONS as VERSIONS

MEGABYTE = 1_040_000  # bytes, some less than a line may have
ZED = ["zed", "*"]  # a need that can't be met
# a refutation by the first need, where that stands first
REFUTED: dict[str, object] = {"causes": [{"fact": "need", "index": 0}, {"fact": "root"}], "conclusion": [], "pivot": ""}
NONE = ",".join([">=1.0.0"] * 31 + [">=9.0.0"])  # as many comparators as there may be, which no version 1 passes
MAJORS = [publish("q", (major, 0, 0), []) for major in (1, 2)]  # of `q`
ABOVE = [resolve([["a", "*"], ["q", "^1"]])]  # where each version of `a` needs one of `q` above 1


def above(version: int) -> Need:
    """A need of a version of `a`, in words of its own."""
    return ["q", ">=2.0.0, <3.%d.0" % version]


def check(needs: list[Need], rows: list[dict[str, object]]) -> str:
    return compact({"op": "check", "needs": needs, "derivation": rows})


def as_often_as_fits(row: dict[str, object], used: int = 0) -> list[dict[str, object]]:
    """A line of a derivation as often as a line of a megabyte has room for, of which so much is used."""
    return [row] * ((MEGABYTE - used) // (len(compact(row)) + 1))


def versions_of(name: str, count: int) -> list[str]:
    return [minor(name, version) for version in range(count)]


def versions_of_each(names: list[str], count: int) -> list[str]:
    return [line for name in names for line in versions_of(name, count)]


# ---- what each version says anew

def bumped(bumps: int, versions: int) -> Workload:
    """A package of so many versions with 64 dependencies each, and so many of them with another requirement than in the
    version before, in turn, the one on `q` always. A request for it and for the versions of `q` that none of them
    admits, which is refused for as many reasons as there are versions."""
    names = ["t%02d" % number for number in range(MOST_NEEDS - 1)]
    lines = [minor(name, 0) for name in names] + MAJORS
    last = [0] * len(names)
    for version in range(versions):
        for step in range(bumps - 1):
            last[(version * (bumps - 1) + step) % len(names)] = version
        needs = [[name, ">=0.%d.%d" % (at, number)] for number, (name, at) in enumerate(zip(names, last))]
        lines.append(minor("a", version, *needs, above(version)))
    return lines, ABOVE


def all_bumped(versions: int = VERSIONS) -> Workload:
    return bumped(MOST_NEEDS, versions)


def two_bumped(versions: int = VERSIONS) -> Workload:
    return bumped(2, versions)


def beyond(versions: int = 2048, packages: int = 11) -> Workload:
    """A package of which each version needs `q` and these packages in words of its own, more of them than the
    requirements of a package whose sets are kept, and each has as many versions. And a request that none of them goes
    with."""
    names = ["n%02d" % number for number in range(packages)]
    lines = versions_of_each(names, versions) + MAJORS
    for version in range(versions):
        needs = [[name, ">=0.%d.0" % version] for name in names]
        lines.append(minor("a", version, *needs, above(version)))
    return lines, ABOVE


def explained(versions: int = 1024) -> Workload:
    """A package of which each version needs `q` in words of its own, and a request that none of them meets, to be
    explained: by a line for each version."""
    lines = MAJORS + [minor("a", version, above(version)) for version in range(versions)]
    return lines, [compact({"op": "resolve", "needs": [["a", "*"], ["q", "^1"]], "explain": True})]


# ---- derivations of a megabyte that follow

def cited_need(versions: int = VERSIONS) -> Workload:
    """All lines cite the request's one need."""
    return versions_of("a", versions), [check([["a", NONE]], as_often_as_fits(REFUTED))]


def cited_needs(versions: int = VERSIONS, packages: int = 11) -> Workload:
    """The lines cite one of several needs each."""
    names = ["n%02d" % number for number in range(packages)]
    rows = [REFUTED | {"causes": [{"fact": "need", "index": number}, {"fact": "root"}]} for number in range(packages)]
    rows = [rows[number % packages] for number in range(len(as_often_as_fits(rows[-1])))]
    return versions_of_each(names, versions), [check([[name, NONE] for name in names], rows)]


def cited_premise(versions: int = VERSIONS) -> Workload:
    """All lines but the last cite one short premise twice: a version of `a` needs one of `b` that is not there."""
    lines = versions_of("b", versions) + [minor("a", version, ["b", "^2"]) for version in range(versions)]
    premise = {"fact": "premise", "name": "a", "need": "^2", "target": "b", "versions": [0], "within": []}
    row = {"causes": [premise, premise], "conclusion": [["a", True, [0]]], "pivot": "a"}
    return lines, [check([ZED], as_often_as_fits(row, 200) + [REFUTED])]


def cited_versions(versions: int = VERSIONS) -> Workload:
    """The same with premises of all versions of both packages."""
    every = list(range(versions))
    lines = versions_of("b", versions) + [minor("a", version, ["b", "^1"]) for version in range(versions)]
    premise = {"fact": "premise", "name": "a", "need": "^1", "target": "b", "versions": every, "within": every}
    row = {"causes": [premise, premise], "conclusion": [["b", False, every], ["a", True, every]], "pivot": "a"}
    return lines, [check([ZED], as_often_as_fits(row, 200) + [REFUTED])]


def cited_beyond(versions: int = VERSIONS) -> Workload:
    """The lines cite one short premise twice each, by requirements of a package beyond those whose sets are kept."""
    lines = versions_of("b", versions) + [minor("a", version, ["b", "^2.%d" % version]) for version in range(versions)]
    half, count = versions // 2, len(as_often_as_fits(cited_once(versions - 1), 200))
    return lines, [check([ZED], [*(cited_once(half + number % half) for number in range(count)), REFUTED])]


def cited_once(version: int) -> dict[str, object]:
    """A line of two premises: this version of `a` needs one of `b` that is not there."""
    need = "^2.%d" % version
    premise = {"fact": "premise", "name": "a", "need": need, "target": "b", "versions": [version], "within": []}
    return {"causes": [premise, premise], "conclusion": [["a", True, [version]]], "pivot": "a"}


def cited_line(ordinals: int = 30_000) -> Workload:
    """A line that names many versions far from each other, which all lines behind it cite."""
    lines = [minor("a", 0)]
    far = [64 * number for number in range(1, ordinals + 1)]
    first = {"causes": [{"fact": "disallowed", "name": "a", "versions": far}, {"fact": "root"}],
             "conclusion": [["a", True, far]], "pivot": ""}
    row = {"causes": [{"line": 1}, {"fact": "need", "index": 1}], "conclusion": [["", True, [0]]], "pivot": "a"}
    rows = [first, *as_often_as_fits(row, len(compact(first)) + 200), REFUTED]
    return lines, [check([ZED, ["a", "^2"]], rows)]


# ---- other long lines

def long_needs(versions: int = VERSIONS, packages: int = 11) -> Workload:
    """Needs of as many comparators as there may be, which no version meets."""
    names = ["n%02d" % number for number in range(packages)]
    return versions_of_each(names, versions), [resolve([[name, NONE] for name in names])]


def long_texts(versions: int = VERSIONS) -> Workload:
    """Versions that differ in the last letters of a long pre-release, and a need that none of them meets."""
    before = "1.0.0-" + "a" * 240 + "."
    lines = [compact({"op": "publish", "name": "a", "version": before + str(version), "needs": []})
             for version in range(versions)]
    return lines, [resolve([["a", ">=" + before + "99999"]])]


def long_lock(names: int = 38_000) -> Workload:
    """As long a lock as fits a line."""
    lock = [["%x" % (0xa0000 + number), "1.0.0"] for number in range(names)]
    return [minor("a", 0)], [compact({"op": "resolve", "needs": [["a", "*"]], "lock": lock})]


def long_publication(needs: int = 60_000) -> Workload:
    """As many dependencies as fit a line, which are too many."""
    return [minor("a", 0)], [minor("b", 0, *(["b%d" % number, "^1"] for number in range(needs)))]


def listing(versions: int = VERSIONS, packages: int = 12) -> Workload:
    """All that a session may have is listed."""
    return versions_of_each(["n%02d" % number for number in range(packages)], versions), ['{"op":"list"}']


# ---- publications beside what was said of a package

def requirements(count: int = 6_000, versions: int = 500) -> Workload:
    """So many requirements on `t`, and then versions of it, each of which is tested against those whose sets are
    kept."""
    lines = [minor("u%d" % (number // VERSIONS), number % VERSIONS, ["t", ">=0.%d.0" % number])
             for number in range(count)]
    return lines, versions_of("t", versions)


def many_requirements(count: int = 24_000) -> Workload:
    """The same at the limits of a session and of a package."""
    return requirements(count, VERSIONS)


def resting(count: int = 200, versions: int = 100, needs: int = 77) -> Workload:
    """So many packages of which it is learnt that they can't be had, each time from so many requirements on `q`: a step
    for each, and three more. Of a refusal by more than 80 steps nothing would be learnt. The requests for the packages
    are sent with the lines. Then versions of `q` that end nothing of it."""
    lines = MAJORS + [minor("a", version, above(version)) for version in range(needs)]
    lines += [minor("one", 0, ["q", "^1"])]
    names = ["r%04d" % number for number in range(count)]
    lines += [minor(name, 0, ["a", "*"], ["one", "*"]) for name in names] + [resolve([[name, "*"]]) for name in names]
    return lines, [publish("q", (0, version, 0), []) for version in range(versions)]


HOSTILE = {
    "all bumped": all_bumped, "two bumped": two_bumped, "beyond": beyond, "explained": explained,
    "cited need": cited_need, "cited needs": cited_needs, "cited premise": cited_premise,
    "cited versions": cited_versions, "cited beyond": cited_beyond, "cited line": cited_line, "long needs": long_needs,
    "long texts": long_texts, "long lock": long_lock, "long publication": long_publication, "listing": listing,
    "requirements": requirements, "many requirements": many_requirements, "resting": resting}
