"""Which releases of an index become publish and yank lines, and what is told of those that don't."""
from __future__ import annotations

import bisect

from registryd_lines.nearest import nearest

from .check_derivation import NAME, admits, precedence, read_requirement, read_version
from .indexes.index import Crate, Index, Notes, Release, Unusable, folded, need
from .limits import MOST_COMMANDS, MOST_NEEDS, MOST_PACKAGES, MOST_VERSIONS
from .needs import needs_of
from .refusals import misspelled
from .shapes import Callable, Chosen, Collection, Dependency, Iterable, Iterator, Pairs, Precedence, Request, Sequence


def merged(needs: Iterable[Dependency], spelled: Callable[[str], str]) -> Iterator[tuple[str, str, int]]:
    """Dependencies with each crate once: it has to meet all that was asked of it."""
    asked: dict[str, list[str]] = {}
    for target, requirement in needs:
        asked.setdefault(spelled(target), []).append(requirement.strip(" "))
    for target, requirements in asked.items():
        # beside others these ask for nothing
        several = [it for it in dict.fromkeys(requirements) if it not in ("*", "x", "X")]
        yield target, ", ".join(several) if several else "*", len(several)


class Shelf:
    def __init__(self, index: Index) -> None:
        self.index = index
        self.crates: dict[str, Crate] = {}
        self.ranks: dict[str, dict[str, int]] = {}

    def crate(self, name: str) -> Crate:
        if name not in self.crates:
            crate = self.index.crate(name)
            crate.releases = self.fitting(crate)
            self.crates[name] = crate
        return self.crates[name]

    def fitting(self, crate: Crate) -> list[Release]:
        """The releases that the rules accept, in order of publication: each precedence once, and as many as may be."""
        held: dict[Precedence, Release] = {}
        for release in crate.releases:
            version = read_version(release.version)
            if version is not None and version in held:
                crate.notes.left_out("versions whose precedence another one has", f"{crate.name} {release.version}")
                continue
            fit = self.fit(crate, release, version)
            if fit and version is not None:
                held[version] = fit
        kept = set(sorted(held)[-MOST_VERSIONS:])
        for version in sorted(set(held) - kept):
            below = f"versions below the {MOST_VERSIONS} newest ones of their crate"
            crate.notes.left_out(below, f"{crate.name} {held[version].version}")
        return [it for version, it in held.items() if version in kept]

    def fit(self, crate: Crate, release: Release, version: Precedence | None) -> Release | None:
        """A release with each dependency once; none where it has to be left out."""
        example = f"{crate.name} {release.version}"
        needs: list[Dependency] = []
        if version is None or not NAME.fullmatch(crate.name):
            crate.notes.left_out("versions whose text, or whose crate's name, is refused", example)
            return None
        for target, requirement, times in merged(release.needs, self.index.spelled):
            asked = need(crate.name, release.version, f'{target} "{requirement}"')
            if not NAME.fullmatch(target) or read_requirement(requirement) is None:
                crate.notes.left_out("versions that need what is refused as a name or a requirement", asked)
                return None
            if target == crate.name and not admits(requirement, version):
                crate.notes.left_out("versions that need another version of their own crate", asked)
                return None
            if target == crate.name:
                crate.notes.left_out("dependencies of a version on itself", asked)
                continue
            if times > 1:
                crate.notes.otherwise("crates needed by several requirements, all of which have to be met", asked)
            needs.append((target, requirement))
        if len(needs) > MOST_NEEDS:
            crate.notes.left_out(f"versions with more than {MOST_NEEDS} dependencies", example)
            return None
        return Release(release.version, needs, release.yanked)

    def newest(self, name: str, most: int) -> list[Release]:
        """So many of the highest versions, those that are not yanked first; in order of publication."""
        releases = self.crate(name).releases
        if name not in self.ranks:
            ranked = sorted(releases, key=lambda it: (not it.yanked, precedence(it.version)), reverse=True)
            self.ranks[name] = {it.version: rank for rank, it in enumerate(ranked)}
        return [it for it in releases if self.ranks[name][it.version] < most]


def reach(shelf: Shelf, roots: Sequence[str], most: int) -> dict[str, list[Release]] | None:
    """The releases that crates lead to, so many of each crate; none where they are more than one session takes."""
    chosen: dict[str, list[Release]] = {}
    named, waiting, commands = set(roots), list(roots), 0
    while waiting and commands <= MOST_COMMANDS and len(named) <= MOST_PACKAGES:
        name = waiting.pop()
        if name not in chosen:
            chosen[name] = shelf.newest(name, most)
            commands += sum(1 + it.yanked for it in chosen[name])
            targets = {target for it in chosen[name] for target, _ in it.needs}
            named |= targets
            waiting += [it for it in targets if it not in chosen and shelf.index.has(it)]
    return None if commands > MOST_COMMANDS or len(named) > MOST_PACKAGES else chosen


def choose(shelf: Shelf, roots: Sequence[str], most: int) -> tuple[dict[str, list[Release]], int]:
    """The releases by crate that are written: of each crate so many of the newest as fit into one session."""
    chosen = reach(shelf, roots, most)
    if chosen is None:
        most = bisect.bisect_left(range(1, most), True, key=lambda it: reach(shelf, roots, it) is None)
        if not most:
            raise Unusable(f"the newest versions of the crates alone are more than the {MOST_COMMANDS} lines and "
                           f"{MOST_PACKAGES} names of one session: name the crates to begin with by --from")
        chosen = reach(shelf, roots, most) or {}
    return dict(sorted(chosen.items())), most


def commands_of(chosen: Chosen) -> Iterator[Request]:
    """Crate by crate in order of publication, with a yank line right behind what is yanked."""
    for name, releases in chosen.items():
        for release in releases:
            needs = [list(it) for it in release.needs]
            yield {"op": "publish", "name": name, "version": release.version, "needs": needs}
            if release.yanked:
                yield {"op": "yank", "name": name, "version": release.version}


def other_spellings(chosen: Chosen, published: Collection[str]) -> list[tuple[str, str]]:
    """The names of which a package is published that differs in `-` and `_` alone; each with that."""
    spelled = {folded(it): it for it in published}
    names = {*chosen, *(target for releases in chosen.values() for it in releases for target, _ in it.needs)}
    return sorted((it, spelled[folded(it)]) for it in names if it not in published and folded(it) in spelled)


def counted(chosen: Chosen) -> str:
    releases = [it for held in chosen.values() for it in held]
    return f"{len(releases)} versions of {len(chosen)} crates, {sum(it.yanked for it in releases)} of them yanked"


def noted(shelf: Shelf, chosen: Chosen, most: int, notes: Notes) -> list[str]:
    """What was left out, is told otherwise or is missing, a line for each kind."""
    needs: dict[Dependency, str] = {}
    for name, releases in chosen.items():
        notes.take(shelf.crate(name).notes)
        written = {it.version for it in releases}
        for version in [it.version for it in shelf.crate(name).releases if it.version not in written]:
            notes.left_out(f"versions below the {most} newest ones of their crate", f"{name} {version}")
        for release in releases:
            for target, requirement in release.needs:
                needs.setdefault((target, requirement), need(name, release.version, f'{target} "{requirement}"'))
    for (target, requirement), example in needs.items():
        held = reversed(chosen.get(target, ()))
        if not any(admits(requirement, precedence(it.version)) for it in held):
            is_there = target in chosen
            notes.missing("requirements that no version there meets" if is_there
                          else "requirements on crates that are not there", example)
    return notes.lines()


def roots(index: Index, crates: Sequence[str] | None) -> list[Dependency]:
    """The needs to begin with, as pairs of a crate and a requirement; none where all that is there is wanted."""
    if crates:
        asked = [(index.spelled(name), requirement) for name, requirement in needs_of(crates)]
        for name, requirement in asked:
            if not index.has(name):
                near = nearest(name, index.names())
                raise Unusable(f"there is no crate {name} in the index" + (f"; did you mean {near}?" if near else ""))
            if read_requirement(requirement) is None:
                raise Unusable(misspelled({"op": "resolve", "needs": [[name, requirement]]}, 3))
        return asked
    own = index.own()
    return sorted((index.spelled(name), f"={version}") for name, version in own if read_version(version))


def request(index: Index, needs: Sequence[Dependency], locked: Pairs) -> Request:
    if not needs:
        raise Unusable("there is nothing to ask for: name it by --from")
    for name, _ in needs[MOST_NEEDS:]:
        index.notes.left_out(f"packages that are asked for beyond the {MOST_NEEDS} needs of a request", name)
    asked: Request = {"op": "resolve", "needs": [list(it) for it in needs[:MOST_NEEDS]]}
    if locked:
        asked["lock"] = locked
    asked["explain"] = True
    return asked
