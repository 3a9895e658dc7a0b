"""`registry lock check`: whether a lock file holds: each version is there, and the lock has what each needs."""
from __future__ import annotations

from ..catalog import catalog_of
from ..check_derivation import admits, precedence
from ..failures import REFUSED
from ..locks import lock_of
from ..needs import needs_known
from ..packages import registry_in, walk
from ..refusals import accepted, listed, not_there
from ..session import reading
from ..shapes import Iterable, Iterator, Listed, Mapping, Options, Output, Registry, Request, Sequence


def run(options: Options, out: Output) -> int | None:
    path, lock, needs = options.file, lock_of(options.file).selected, needs_known(options.need, options.file)
    # the program says whether these are needs
    judged: Request = {"op": "check", "needs": needs or [], "derivation": []}
    with reading(options) as session:
        accepted(session, judged, *session.ask(judged))
        packages, registry = listed(session), registry_in(catalog_of(session.journal()), lock)
    found = list(faults(lock, needs or [], registry, packages))
    if not found and needs is not None:
        unneeded = sorted(set(lock) - set(walk(needs, lock, registry)))
        found = [(name, f"nothing needs {name} {lock[name]}") for name in unneeded]
    count = f"{len(lock):,} package{'' if len(lock) == 1 else 's'}"
    told = [f"{out.style(f'{path}:', 'bold')} {what}" for _, what in found]
    out.give({"file": path, "packages": len(lock), "faults": [{"name": name, "what": what} for name, what in found],
              "revision": registry.revision}, told or [f"{path}: whole: {count}, revision {registry.revision}"])
    return REFUSED if found else None


def faults(lock: Mapping[str, str], needs: Iterable[Sequence[str]], registry: Registry,
           packages: Mapping[str, Sequence[Listed]]) -> Iterator[tuple[str, str]]:
    for name, text in sorted(lock.items()):
        release = registry.find(name, text)
        if release is None:
            yield name, not_there({"name": name, "version": text}, packages)
            continue
        if release.yanked:
            yield name, f"{name} {text} is yanked"
        for _, what in unmet(f"{name} {text}", release.needs.items(), lock):
            yield name, what
    yield from unmet("the request", needs, lock)


def unmet(who: str, needs: Iterable[Sequence[str]], lock: Mapping[str, str]) -> Iterator[tuple[str, str]]:
    for target, requirement in needs:
        if target not in lock or not admits(requirement, precedence(lock[target])):
            yield target, f"{who} depends on {target} {requirement}; the lock has {lock.get(target, f'no {target}')}"
