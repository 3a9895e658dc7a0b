"""Makes a Debian package of what tools/install installs, and prints where it is.

    tools/package                  from the program that was proved from these sources, into the folder out
    tools/package --unproved       else from the one that was compiled from them; its version and --version say so
    tools/package --output DIR     into another folder

It needs debhelper, and nothing is built or installed. The same sources, program and debhelper give the same bytes."""
import argparse
import contextlib
import os
import shutil
import subprocess
import sys
import tempfile
from collections.abc import Sequence
from datetime import datetime, timezone
from email.utils import format_datetime
from pathlib import Path

from dev.building import programs
from dev.building.c_library import Library
from dev.building.programs import NAME, PROVED, Program
from dev.building.progress import TOP
from dev.installing import installed
from dev.installing.installed import DOC, STATES, Piece
from dev.installing.prefix import Refused, put

HERE = Path(__file__).resolve().parent
# The options of the service, which stay as the operator has them.
OPTIONS = f"etc/{NAME}/{NAME}.conf"
CHANGELOG = "{name} ({version}) unstable; urgency=medium\n\n  * See changelog.gz.\n\n -- {maintainer}  {date}\n"


def version(program: Program) -> str:
    """The package's version; a proved program of the same sources counts as a later one."""
    return f"{programs.version()}{'' if program.kind == PROVED else '~unproved'}-1"


def seconds() -> int:
    """When the package counts as made: as the environment says, else when the last commit was; else 1970."""
    if "SOURCE_DATE_EPOCH" in os.environ:
        return int(os.environ["SOURCE_DATE_EPOCH"])
    # an unpacked archive may lie inside the repository of something else, and there may be no git
    with contextlib.suppress(OSError):
        if (TOP / ".git").exists():
            done = subprocess.run(["git", "-C", TOP, "log", "-1", "--format=%ct"], stdin=subprocess.DEVNULL,
                                  stdout=subprocess.PIPE, stderr=subprocess.DEVNULL, text=True, check=False)
            return int(done.stdout.strip() or 0)
    return 0


def write(tree: Path, program: Program, library: Library | None) -> None:
    if (TOP / "LICENSE").exists():
        raise Refused("LICENSE states a license, and dev/installing/debian/copyright says that none is: change that")
    shutil.copytree(HERE / "debian", tree / "debian")
    maintainer = (tree / "debian/control").read_text(encoding="utf-8").partition("Maintainer: ")[2].partition("\n")[0]
    date = format_datetime(datetime.fromtimestamp(seconds(), timezone.utc))
    changelog = CHANGELOG.format(name=NAME, version=version(program), maintainer=maintainer, date=date)
    (tree / "debian/changelog").write_text(changelog, encoding="utf-8")
    found = {f"usr/{piece.path}".replace("zsh/site-functions", "zsh/vendor-completions"): piece
             for piece in installed.pieces(program, library=library)}
    found[OPTIONS] = Piece(OPTIONS, (HERE / f"systemd/{NAME}.conf").read_bytes())
    put(tree / "CHANGELOG.md", found.pop(f"usr/{DOC}/CHANGELOG.md"))
    put(tree / f"debian/{NAME}.service", found.pop(f"usr/lib/systemd/system/{NAME}.service"))
    for path, piece in found.items():
        (tree / "files" / path).parent.mkdir(parents=True, exist_ok=True)
        put(tree / "files" / path, piece)


def build(program: Program, folder: Path, library: Library | None = None) -> Path:
    """Makes the package in a folder, with a library for C if there is one; answers where it is."""
    if not shutil.which("dh"):
        raise Refused("dh is not there; Debian has it in its package debhelper")
    to = folder / f"{NAME}_{version(program)}_amd64.deb"
    with tempfile.TemporaryDirectory() as made:
        tree = Path(made, NAME)
        write(tree, program, library)
        # debhelper asks for root else, where debian/rules is called by itself
        environment = {**os.environ, "LC_ALL": "C.UTF-8", "SOURCE_DATE_EPOCH": str(seconds()),
                       "DEB_RULES_REQUIRES_ROOT": "no",
                       "REGISTRYD_TOLD": f"Commit {programs.commit()}. {STATES[program.kind]}"}
        done = subprocess.run(["debian/rules", "binary"], cwd=tree, env=environment, stdin=subprocess.DEVNULL,
                              stdout=subprocess.PIPE, stderr=subprocess.STDOUT, text=True, check=False)
        if done.returncode:
            raise Refused(f"debhelper could not make the package: {done.stdout.strip()}")
        folder.mkdir(parents=True, exist_ok=True)
        shutil.move(Path(made, to.name), to)
    return to


def main(words: Sequence[str]) -> int:
    parser = argparse.ArgumentParser(prog="tools/package", description=__doc__,
                                     formatter_class=argparse.RawDescriptionHelpFormatter)
    parser.add_argument("--unproved", action="store_true",
                        help="the compiled program will do where no proved one stands")
    parser.add_argument("--output", metavar="DIR", type=Path, default=TOP / "out",
                        help="where the package goes (else: the folder out)")
    chosen = parser.parse_args(words)
    try:
        program = installed.program(chosen.unproved)
        library = installed.library(program)
        if not library:
            print("tools/package: it has no library for C, since none stands that may be packed: "
                  "tools/build_library builds it", file=sys.stderr)
        print(build(program, chosen.output, library))
    except (Refused, OSError) as fault:
        print(f"tools/package: {fault}", file=sys.stderr)
        return 1
    return 0


if __name__ == "__main__":
    sys.exit(main(sys.argv[1:]))
