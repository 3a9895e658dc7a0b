"""`registry list` and `registry search`: the packages, each with its newest version."""
from __future__ import annotations

from collections import namedtuple

from .. import shapes
from ..failures import REFUSED
from ..session import Reading, reading
from ..shapes import Iterator, Listed, Options, Output, Sequence


class Row(namedtuple("Row", "name newest versions yanked")):
    name: str
    newest: str
    versions: int
    yanked: int


def run(options: Options, out: Output) -> int | None:
    text = getattr(options, "text", "")
    with reading(options) as session:
        packages = packages_of(session)
        names = list(packages)
        rows = [row(name, packages[name]) for name in sorted(names) if text.lower() in name]
        shown = list(lines(rows, out))
        del packages  # to let go of many takes time, and the program still loads the journal
        if isinstance(session, Reading):
            session.finish()
    out.give([it._asdict() for it in rows], shown)
    if text and not rows:
        from registryd_lines.nearest import nearest
        near = nearest(text, names)
        out.note(f"no package's name has {text} in it" + (f"; did you mean {near}?" if near else ""))
        return REFUSED
    return None


def packages_of(session: shapes.Reading) -> dict[str, list[Listed]]:
    """A journal is read while the program loads it; what holds one already is asked for its list."""
    if isinstance(session, Reading):
        from ..catalog import listed_in
        return listed_in(session.text)
    from ..refusals import listed
    return listed(session)


def row(name: str, versions: Sequence[Listed]) -> Row:
    from ..catalog import rank
    held = [text for text, is_yanked in versions if not is_yanked]
    newest = max(held or [text for text, _ in versions], key=rank)
    return Row(name, newest, len(versions), len(versions) - len(held))


def lines(rows: Sequence[Row], out: Output) -> Iterator[str]:
    wide = max((len(it.name) for it in rows), default=0)
    newest = max((len(it.newest) for it in rows), default=0)
    for it in rows:
        counted = f"{it.versions} version{'s' * (it.versions > 1)}" + (f", {it.yanked} yanked" if it.yanked else "")
        yield f"{out.style(it.name.ljust(wide), 'bold')}  {it.newest.ljust(newest)}  {out.style(counted, 'faint')}"
