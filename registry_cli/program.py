"""Where the program is that is asked."""
import os
import subprocess

from . import tied
from .failures import Failed

VARIABLE = "REGISTRY_PROGRAM"
TOP = os.path.dirname(os.path.dirname(os.path.abspath(__file__)))


def program() -> list[str]:
    """What the environment names, else the program beside this command, else that of the path."""
    named = os.environ.get(VARIABLE)
    beside = os.path.join(TOP, "registryd")
    found = named or (beside if os.path.isfile(beside) else None)
    if not found:
        import shutil
        found = shutil.which("registryd")
    if not found:
        raise Failed(f"the program registryd is not found: put it on the path, or name it by {VARIABLE}")
    return [found]


def version() -> str:
    done = tied.run([*program(), "--version"], stdout=subprocess.PIPE, stderr=subprocess.PIPE)
    if done.returncode:
        raise Failed("the program tells no version")
    return done.stdout.decode(errors="replace").strip()
