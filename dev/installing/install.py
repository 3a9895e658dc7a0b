"""Installs the program, the library for C where it stands, tools, clients, manual pages and completions below a prefix,
or removes them.

    tools/install PREFIX              the program that was proved from these sources
    tools/install PREFIX --unproved   else the one that was compiled from them; its --version says so
    tools/install --remove PREFIX     removes what an install put there, and nothing else

Nothing is built, and nothing is written outside of the prefix. docs/INSTALLING.md tells what goes where."""
import argparse
import shlex
import sys
from collections.abc import Sequence
from pathlib import Path

from dev.building.c_library import SHARED
from dev.building.programs import NAME, PROVED
from dev.installing import installed, prefix
from dev.installing.prefix import Refused


def options(words: Sequence[str]) -> argparse.Namespace:
    parser = argparse.ArgumentParser(prog="tools/install", description=__doc__,
                                     formatter_class=argparse.RawDescriptionHelpFormatter)
    parser.add_argument("prefix", metavar="PREFIX", help="where it goes, as /usr/local")
    parser.add_argument("--unproved", action="store_true",
                        help="the compiled program will do where no proved one stands")
    parser.add_argument("--remove", action="store_true", help="remove what was installed there")
    parser.add_argument("--destdir", metavar="DIR", help="write all below DIR instead, as for a package: to DIR/PREFIX")
    chosen = parser.parse_args(words)
    if not chosen.prefix:
        parser.error("the prefix is a folder's name")
    if chosen.destdir is not None and not Path(chosen.prefix).is_absolute():
        parser.error("with --destdir the prefix is an absolute path")
    return chosen


def main(words: Sequence[str]) -> int:
    chosen = options(words)
    where, place = Path(chosen.prefix), [chosen.prefix]
    if chosen.destdir is not None:
        where, place = Path(chosen.destdir, chosen.prefix.lstrip("/")), [chosen.prefix, "--destdir", chosen.destdir]
    try:
        if chosen.remove:
            for folder in prefix.remove(where):
                print(f"tools/install: {folder} stays, since there is something else in it", file=sys.stderr)
            return 0
        program = installed.program(chosen.unproved)
        library = installed.library(program)
        prefix.install(where, installed.pieces(program, str(Path(chosen.prefix).absolute()), library))
    except (Refused, OSError) as fault:
        print(f"tools/install: {fault}", file=sys.stderr)
        return 1
    states = {True: "proved", False: "not proved"}
    print(f"{where / 'bin' / NAME} is installed, and is {states[program.kind == PROVED]}")
    if library:
        print(f"{where / 'lib' / SHARED} is installed, and has code that is {states[library.kind == PROVED]}")
    else:
        print("the library for C is not installed, since none stands that may be: tools/build_library builds it")
    print(f"remove it by: {shlex.join(['tools/install', '--remove', *place])}")
    return 0


if __name__ == "__main__":
    sys.exit(main(sys.argv[1:]))
