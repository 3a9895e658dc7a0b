"""Has Graphviz draw which crate stands on which, from crates.txt, as docs/crates.svg.

A line is drawn only where no others say it already; what a crate takes from the kit stands in it in small letters."""
import subprocess
import sys
from collections.abc import Mapping, Sequence

from dev.building.progress import TOP, stands_on

PICTURE = TOP / "docs" / "crates.svg"
STYLE = """graph [bgcolor=white, fontname="sans-serif", nodesep=0.2, ranksep=0.4]
node [shape=box, style="rounded,filled", fillcolor="#f4f6f8", color="#44546a", fontname="sans-serif", fontsize=14]
edge [color="#7a8aa0", arrowhead=none]
"""


def reached(crates: Mapping[str, Sequence[str]], name: str) -> set[str]:
    """All crates of this repository below one."""
    found: set[str] = set()
    for below in crates[name]:
        if below in crates:
            found |= {below} | reached(crates, below)
    return found


def edges_of(crates: Mapping[str, Sequence[str]]) -> dict[str, list[str]]:
    """For each crate those directly below it, without those that stand below another of them."""
    direct = {name: [below for below in crates[name] if below in crates] for name in crates}
    return {name: [below for below in direct[name]
                   if not any(below in reached(crates, other) for other in direct[name])] for name in crates}


def graph() -> str:
    """The picture in the words of Graphviz."""
    crates, lines = stands_on(), []
    for name, below in edges_of(crates).items():
        kit = ", ".join(library for library in crates[name] if library not in crates)
        small = f'<br/><font point-size="9" color="#667788">{kit}</font>' if kit else ""
        lines += [f"{name} [label=<{name}{small}>]", *(f"{name} -> {lower}" for lower in below)]
    return "\n".join(["digraph crates {", STYLE, *lines, "}"])


def main() -> int:
    subprocess.run(["dot", "-Tsvg", "-o", PICTURE], input=graph(), text=True, check=True)
    return 0


if __name__ == "__main__":
    sys.exit(main())
