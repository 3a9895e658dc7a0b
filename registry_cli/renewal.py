"""What is kept where a journal begins anew: what lock files select, the newest versions of each package, and what those
need by the program's selection: so whatever is kept can be selected as before, alone and by its lock file."""
from __future__ import annotations

from typing import NamedTuple

from .check_derivation import precedence
from .limits import MOST_NEEDS, MOST_REQUIREMENT_BYTES
from .needs import needs_known
from .shapes import (
    Asking, Bar, Collection, Iterable, Iterator, Key, Mapping, Pairs, Precedence, Releases, Reply, Request,
)

BUDGET = 10_000  # conflicts of one request


class Release(NamedTuple):
    name: str
    text: str
    needs: Pairs  # of a name and a requirement
    is_yanked: bool

    @property
    def key(self) -> Key:
        return self.name, precedence(self.text)

    @property
    def need(self) -> list[str] | None:
        """The need that this version alone meets; none where it would be too long for a requirement."""
        exactly = "=" + self.text.partition("+")[0]
        return [self.name, exactly] if len(exactly) <= MOST_REQUIREMENT_BYTES else None


def releases_of(commands: Iterable[Request]) -> dict[Key, Release]:
    found: dict[Key, Release] = {}
    for it in commands:
        key = it["name"], precedence(it["version"])
        if it["op"] == "publish":
            found[key] = Release(it["name"], it["version"], it["needs"], False)
        else:
            found[key] = found[key]._replace(is_yanked=it["op"] == "yank")
    return found


def newest(releases: Releases, most: int) -> set[Key]:
    """The keys of so many of the highest versions of each package that are not yanked."""
    by_name: dict[str, list[Precedence]] = {}
    for (name, version), it in releases.items():
        if not it.is_yanked:
            by_name.setdefault(name, []).append(version)
    return {(name, version) for name, versions in by_name.items() for version in sorted(versions, reverse=True)[:most]}


def selected(reply: Reply) -> set[Key]:
    return {(name, precedence(text)) for name, text in reply.get("selected", [])}


class Lock:
    """A lock file, and the requests by which it is selected as it is."""

    def __init__(self, path: str, versions: Mapping[str, str], releases: Releases) -> None:
        self.path = path
        self.keys = {(name, precedence(text)) for name, text in versions.items()}
        held = {it.name: it for key, it in releases.items() if key in self.keys}
        self.missing = sorted(name for name in versions if name not in held)
        lock = sorted([name, text] for name, text in versions.items())
        needs = [it for it in (held[name].need for name in roots(held)) if it]
        asked = [needs[at:at + MOST_NEEDS] for at in range(0, len(needs), MOST_NEEDS)]
        known = needs_known((), path)
        if known is not None:
            asked.append(known)
        self.requests = [request(it, lock) for it in asked]
        self.replies: list[Reply] = []

    def ask(self, session: Asking) -> list[Reply]:
        replies = [it.copy() for it in session.ask(*self.requests)]
        for it in replies:
            it.pop("revision", 0)
        return replies

    def remember(self, session: Asking) -> set[Key]:
        """Notes what is answered, and answers the keys that have to be kept so that it is answered again."""
        self.replies = self.ask(session)
        return self.keys.union(*map(selected, self.replies))

    @property
    def is_selected(self) -> bool:
        """Whether just its own versions are selected."""
        chosen = set().union(*map(selected, self.replies))
        return all("selected" in it for it in self.replies) and chosen == self.keys


def roots(held: Mapping[str, Release]) -> list[str]:
    """Names that lead to all of these along their needs: those that no other one needs, then one of each circle."""
    needed = {target for it in held.values() for target, _ in it.needs if target != it.name}
    found: list[str] = []
    reached: set[str] = set()
    for name in [*sorted(set(held) - needed), *sorted(held)]:
        if name not in reached:
            found.append(name)
            waiting = [name]
            while waiting:
                here = waiting.pop()
                if here in held and here not in reached:
                    reached.add(here)
                    waiting += [target for target, _ in held[here].needs]
    return found


def request(needs: Pairs, lock: Iterable[list[str]] = ()) -> Request:
    return {"op": "resolve", "needs": needs, "lock": list(lock), "budget": BUDGET}


def needed(session: Asking, releases: Releases, kept: Collection[Key], bar: Bar) -> set[Key]:
    """The keys of what releases need that are kept: of each the selection that it has alone."""
    found: set[Key] = set()
    # what others need was published before them, mostly: then it is in their selections
    for key in reversed([it for it in releases if it in kept]):
        bar.step()
        need = releases[key].need
        if key not in found and need:
            (reply,) = session.ask(request([need]))
            found |= selected(reply)
    return found


def commands_of(releases: Releases, kept: Collection[Key]) -> Iterator[Request]:
    for key, it in releases.items():
        if key in kept:
            yield {"op": "publish", "name": it.name, "version": it.text, "needs": it.needs}
            if it.is_yanked:
                yield {"op": "yank", "name": it.name, "version": it.text}
