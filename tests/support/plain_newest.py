"""The newest selection of a request, by its definition, over all selections that meet the request. It shares nothing
with the program; what versions and requirements mean is read by `plain_search`."""
from collections.abc import Callable
from functools import cache
from typing import Any

from tests.support import plain_search
from tests.support.plain_search import key


class Published(plain_search.Published):
    """What was published, and what is the newest selection of a request there."""

    def in_preference(self, name: str, lock: Any) -> list[str]:
        """The versions of a package that may be had, the most preferred first: the lock's, then by precedence."""
        locked = [key(version) for package, version in lock if package == name]
        rows = sorted(self.allowed(name, lock), key=lambda row: key(row[0]), reverse=True)
        return sorted((text for text, _ in rows), key=lambda text: key(text) not in locked)

    def needs_of(self, name: str, version: str) -> Any:
        return next(needs for text, needs, _ in self.versions[name] if text == version)

    def next_package(self, needs: Any, taken: dict[str, str],
                     needs_of: Callable[[str, str], Any] | None = None) -> str | None:
        """The first package that is asked for behind those that were taken, in their order: by the needs in the order
        of their names, then by what each of them depends on, as it was published. None where each has its version."""
        lines = sorted(needs)
        for name, version in taken.items():
            lines += (needs_of or self.needs_of)(name, version)
        return next((name for name, _ in lines if name not in taken), None)

    def newest(self, needs: Any, lock: Any) -> list[list[str]] | None:
        """Package by package, the most preferred version of a selection that meets the request and has what was
        taken."""
        left = [dict(selection) for selection in self.selections(needs, lock)]
        taken: dict[str, str] = {}
        while left and (name := self.next_package(needs, taken)):
            version = next(it for it in self.in_preference(name, lock)
                           if any(selection[name] == it for selection in left))
            taken[name] = version
            left = [selection for selection in left if selection[name] == version]
        return sorted([name, version] for name, version in taken.items()) if left else None

    def first_found(self, needs: Any, lock: Any) -> list[list[str]] | None:
        """The same, as a search that tries the most preferred versions first and goes back one step at a time ends."""
        in_preference, needs_of = cache(lambda name: self.in_preference(name, lock)), cache(self.needs_of)

        def search(taken: dict[str, str]) -> list[list[str]] | None:
            asked = [*needs, *(line for name, version in taken.items() for line in needs_of(name, version))]
            if any(name in taken and not self.matches(requirement, taken[name]) for name, requirement in asked):
                return None
            name = self.next_package(needs, taken, needs_of)
            if name is None:
                return sorted([name, version] for name, version in taken.items())
            tried = (search({**taken, name: version}) for version in in_preference(name))
            return next((found for found in tried if found is not None), None)

        return search({})
