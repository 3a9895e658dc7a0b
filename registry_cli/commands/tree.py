"""`registry tree`: a selection as a tree, each package with its needs once, as `cargo tree` shows it."""
from __future__ import annotations

import sys

from registryd_lines.nearest import nearest

from ..failures import Refused
from ..needs import answered, need_of, needs_selected, refused, request_of
from ..session import reading
from ..shapes import Callable, Iterator, Mapping, Options, Output, Sequence

UTF8 = {"tee": "├── ", "corner": "└── ", "down": "│   ", "none": "    "}
ASCII = {"tee": "|-- ", "corner": "`-- ", "down": "|   ", "none": "    "}


def run(options: Options, out: Output) -> int | None:
    request = request_of(options)
    with reading(options) as session:
        reply = answered(session, request)
        if "selected" not in reply:
            return refused(session, request, reply, out)
        selected = dict(reply["selected"])
        needs = needs_selected(session, selected)
    below = {name: sorted(dict(needs[name])) for name in selected}
    roots = [name for name, _ in request["needs"]]
    if options.invert:
        if options.invert not in selected:
            near = nearest(need_of(options.invert)[0], selected)
            raise Refused(f"{options.invert} is not selected" + (f"; did you mean {near}?" if near else ""))
        roots, below = [options.invert], inverted(below)
    packages = [{"name": name, "version": version, "needs": needs[name]} for name, version in selected.items()]
    out.give({"revision": reply["revision"], "roots": roots, "packages": packages},
             drawn(roots, below, lambda name: f"{out.style(name, 'bold')} {selected[name]}", options.depth, out))
    return None


def inverted(below: Mapping[str, Sequence[str]]) -> dict[str, list[str]]:
    above: dict[str, list[str]] = {name: [] for name in below}
    for name, targets in below.items():
        for it in targets:
            above[it].append(name)
    return above


def strokes() -> dict[str, str]:
    try:
        "".join(UTF8.values()).encode(sys.stdout.encoding or "ascii")
    except (UnicodeEncodeError, LookupError):
        return ASCII
    return UTF8


def drawn(roots: Sequence[str], below: Mapping[str, Sequence[str]], label: Callable[[str], str], most: int | None,
          out: Output) -> Iterator[str]:
    """The lines of a tree. A package whose branches were drawn already is marked, and so is one inside itself."""
    stroke = strokes()
    shown: set[str] = set()
    # a line to draw: what stands before it, its own stroke, how deep it is, and the package
    waiting = [("", "", 0, name) for name in reversed(roots)]
    while waiting:
        before, own, depth, name = waiting.pop()
        is_repeated = name in shown and below[name]
        yield before + own + label(name) + (out.style(" (*)", "faint") if is_repeated else "")
        if is_repeated or (most is not None and depth >= most):
            continue
        shown.add(name)
        inner = before + {"": "", stroke["tee"]: stroke["down"], stroke["corner"]: stroke["none"]}[own]
        last = len(below[name]) - 1
        rows = [(inner, stroke["corner" if at == last else "tee"], depth + 1, it) for at, it in enumerate(below[name])]
        waiting += reversed(rows)
