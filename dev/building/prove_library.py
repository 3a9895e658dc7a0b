"""Proves a static library over what the kit's gate has proved, and builds it where the gate builds a program.

The gate checks such a crate, and leaves nothing of it. Its libraries stand as they were built, with no more than they
state, so only the crate itself is proved here again."""
import os
import subprocess

from dev.building import kit_commands
from dev.building.programs import gate_built
from dev.building.progress import TOP


def build(name: str, room: str) -> tuple[bool, str]:
    """Proves and builds the library, over those that a room has of the libraries below it, and else over those in their
    folders; answers whether it stands, and what was said."""
    rtlib = kit_commands.load().rtlib
    crate = rtlib.Crate(str(TOP / "crates" / name), str(TOP), {})
    for below in crate.below():
        taken = os.path.join(room, f"{below.name}.rlib")
        below.rlib = taken if os.path.isdir(taken) else below.rlib
    library = gate_built(name)
    library.parent.mkdir(exist_ok=True)
    words = crate.words(["--jobs", "1"], keeps=False)
    words += ["--toolchain", os.path.join(rtlib.KIT, "toolchain"), "--backend", "llvm", "-o", str(library)]
    done = subprocess.run([rtlib.RATTLE, "build", *words], cwd=crate.folder, stdin=subprocess.DEVNULL,
                          stdout=subprocess.PIPE, stderr=subprocess.STDOUT, text=True, errors="replace", check=False)
    return done.returncode == 0, done.stdout
