"""Builds the library for C where none stands of just these sources, and prints its folder.

It has within it the archive `embedded`: the one that `./test` has proved, else one that is compiled, which takes some
two minutes where none stands; nothing is proved of that one. The rest takes seconds, with make and a C compiler."""
import argparse
import subprocess
import sys
from collections.abc import Sequence

from dev.building import c_library, programs
from dev.building.c_library import ARCHIVE, Unbuilt
from dev.building.progress import TOP


def main(words: Sequence[str]) -> int:
    argparse.ArgumentParser(prog="tools/build_library", description=__doc__,
                            formatter_class=argparse.RawDescriptionHelpFormatter).parse_args(words)
    try:
        if not programs.current(ARCHIVE):
            build = [str(TOP / "tools" / "build"), ARCHIVE]
            status = subprocess.run(build, stdout=subprocess.DEVNULL, check=False).returncode
            if status:
                return status  # the reason is told
        print(c_library.built().folder)
    except (Unbuilt, OSError) as why:
        print(f"tools/build_library: {why}", file=sys.stderr)
        return 1
    return 0


if __name__ == "__main__":
    sys.exit(main(sys.argv[1:]))
