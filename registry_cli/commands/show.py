"""`registry show`: one package, its versions, what the newest needs, and who needs it."""
from __future__ import annotations

from ..session import reading
from ..shapes import Iterable, Iterator, Named, Output, Sequence, Version


def run(options: Named, out: Output) -> None:
    with reading(options) as session:
        from ..catalog import catalog_of
        catalog = catalog_of(session.journal())
        versions, newest = catalog.versions(options.name), catalog.newest(options.name)
        shown = catalog.version(options.name, options.version) if options.version else newest
        needing = list(catalog.needing(options.name))
    out.give({"name": options.name,
              "versions": [{"version": it.text, "yanked": it.is_yanked, "needs": it.needs} for it in versions],
              "newest": newest.text,
              "needed_by": [{"name": name, "version": version, "requirement": requirement}
                            for name, version, requirement in needing]},
             in_words(options.name, versions, shown, needing, out))


def in_words(name: str, versions: Iterable[Version], shown: Version, needing: Sequence[tuple[str, str, str]],
             out: Output) -> Iterator[str]:
    yield out.style(name, "bold")
    for it in versions:
        yield f"  {it.text}" + (out.style("  yanked", "yellow") if it.is_yanked else "")
    yield out.style(f"{shown.text} needs", "bold") + ("" if shown.needs else " nothing")
    for target, requirement in shown.needs:
        yield f"  {target} {requirement}"
    yield out.style("needed by", "bold") + ("" if needing else " nothing")
    for other, version, requirement in needing:
        yield f"  {other} {version}, as {name} {requirement}"
