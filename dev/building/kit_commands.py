"""The kit's folder, and its commands as a module, for what they don't do by themselves."""
import functools
import shutil
import subprocess
import sys
from importlib.machinery import SourceFileLoader
from importlib.util import module_from_spec, spec_from_loader
from pathlib import Path
from typing import Any


def folder() -> Path:
    return folder_of(shutil.which("rt") or "rt")


@functools.cache  # the command is a Python that takes its time to begin
def folder_of(command: str) -> Path:
    done = subprocess.run([command, "doc"], stdin=subprocess.DEVNULL, stdout=subprocess.PIPE, text=True, check=True)
    return Path(done.stdout.strip()).parent


def load() -> Any:
    """The kit's module of its commands; its `rtlib` has those that prove crates."""
    loader = SourceFileLoader("rt_of_kit", str(folder() / "bin" / "rt"))
    spec = spec_from_loader(loader.name, loader)
    assert spec
    sys.modules[loader.name] = made = module_from_spec(spec)
    sys.dont_write_bytecode = True
    loader.exec_module(made)
    return made
