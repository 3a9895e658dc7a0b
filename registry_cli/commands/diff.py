"""`registry diff`: what changed between two lock files."""
from ..failures import REFUSED
from ..locks import changed, changes, coloured, counted, lock_of
from ..shapes import Options, Output


def run(options: Options, out: Output) -> int | None:
    old, new = lock_of(options.old).selected, lock_of(options.new).selected
    lines = changes(old, new)
    out.give(changed(old, new), [*coloured(lines, out), counted(lines)])
    return REFUSED if lines and options.exit_status else None
