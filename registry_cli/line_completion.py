"""Completion of the shell's lines: what a shell of the system offers too, and versions behind `NAME@`."""
import glob
import os
import re
import readline
import shlex

from . import completion
from .table import FILE, FOLDER

VERSIONED = re.compile(r"([^@]+)@([=^~<>]*)")
OWN = ("exit",)


candidates: list[str] = []  # for the word that is typed


def complete(text: str, state: int) -> str | None:
    """The candidate of this number, none where there are no more: as readline asks for them."""
    global candidates
    if state == 0:
        candidates = offered(readline.get_line_buffer()[:readline.get_begidx()], text)
    return candidates[state] if state < len(candidates) else None


def offered(before: str, current: str) -> list[str]:
    try:
        words = shlex.split(before)
    except ValueError:
        return []
    words = words[1:] if words[:1] == ["registry"] else words
    named = VERSIONED.match(current)
    if named:
        versions = (f"{named[0]}{version}" for version in completion.published(words, named[1]))
        return [f"{it} " for it in versions if it.startswith(current)]
    kind, *found = completion.complete([*words, current])
    if kind in (FILE, FOLDER):
        found = sorted(glob.glob(glob.escape(current) + "*"))
        return [it + ("/" if os.path.isdir(it) else " ") for it in found if kind == FILE or os.path.isdir(it)]
    return [it + " " for it in [*found, *(own for own in OWN if not words and own.startswith(current))]]
