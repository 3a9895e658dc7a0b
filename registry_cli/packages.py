"""The registry in Python that refusals are told of, by the rules carried out once more; and walks of selections."""
from __future__ import annotations

from itertools import chain

from .check_derivation import Registry, demand, precedence
from .failures import Failed
from .shapes import Catalog, Iterable, Mapping, Pairs, Request, Row, Sequence


def registry_of(commands: Sequence[Request], names: Iterable[str]) -> Registry:
    """The registry after these commands, with the releases of these packages alone: no others are asked for."""
    mentioned = (it for command in commands
                 for it in [command["name"], *(target for target, _ in command.get("needs", []))])
    wanted = set(names)
    return filled(mentioned, (it for it in commands if it["name"] in wanted), len(commands))


def registry_in(catalog: Catalog, names: Iterable[str]) -> Registry:
    """The same of what a journal has. No commands but those of these packages are read."""
    return filled(catalog.mentioned, chain.from_iterable(map(catalog.commands, set(names))), catalog.revision)


def filled(mentioned: Iterable[str], commands: Iterable[Request], revision: int) -> Registry:
    """A registry that knows packages in this order, and has obeyed some commands of those that lead to a revision."""
    registry = Registry()
    for it in mentioned:
        registry.numbers.setdefault(it, len(registry.numbers))
        registry.releases.setdefault(it, [])
    for command in commands:
        demand(registry.obey(command, {"ok": True}), "the journal has a command that the rules refuse", Failed)
    registry.revision = revision
    return registry


def named(request: Request, rows: Iterable[Row]) -> set[str]:
    causes = [cause for row in rows for cause in row["causes"]]
    of_causes = {name for cause in causes for name in (cause.get("name"), cause.get("target")) if name is not None}
    return {*dict(request["needs"]), *dict(request.get("lock", [])), *of_causes}


def walk(needs: Pairs, selected: Mapping[str, str], registry: Registry) -> list[str]:
    """First the needs, by name, and then what each listed package depends on, as it was published."""
    listed = dict.fromkeys(sorted(dict(needs)))
    waiting = list(listed)
    for name in waiting:  # which grows
        release = registry.find(name, selected[name])
        if not release:
            raise ValueError(f"{name} {selected[name]} was selected and is not published")
        for target in release.needs:
            if target not in listed:
                listed[target] = None
                waiting.append(target)
    return waiting


def is_preferred(one: str, other: str, locked: str | None = None) -> bool:
    """Whether of two versions of a package the first is preferred: the one that the lock names, else the higher one."""
    first, second, kept = precedence(one), precedence(other), precedence(locked) if locked else None
    return first != second and (first == kept or (second != kept and first > second))
