"""Tries all wrong bodies: `edits/NAME` holds edits of the crate NAME, each of which the prover has to refuse.

Each is tried by the function that it changes. One that this does not refuse, or that changes what is no function, is
tried by a proof of the whole crate, as the kit's gate does with `crates/NAME/must-fail`."""
import os
import re
import shutil
import subprocess
import tempfile
from collections.abc import Sequence
from concurrent.futures import ThreadPoolExecutor
from pathlib import Path

from dev.building.gate import copy_crates
from dev.building.progress import jobs, stands_on
from dev.draw_crates import reached
from dev.edits import try_rounds
from dev.edits.edit_files import EDITS, Edit, edits_of, functions_of
from dev.edits.try_rounds import BAD, BY_CLAUSE, BY_NAME, BY_PROOF, NOT_REFUSED, VALUES

# What else a try of a whole crate comes to, and the words by which `rt must-fail` tells it. It tells the beginning of
# one error: where that has no values, it counts as one of the proof.
BY_LIMIT, NOT_TRIED = "refused only by a limit of the prover", "not tried"
WORDS = {
    BY_NAME: "refused, as it must be (only because a proof file",
    BY_LIMIT: "refused, as it must be (only by a limit",
    BY_PROOF: "refused, as it must be",
    NOT_REFUSED: "NOT REFUSED",
    BAD: "BAD EDIT",
    NOT_TRIED: "NOT TRIED",
}
KINDS = (BY_CLAUSE, *WORDS)
REFUSED = (BY_CLAUSE, BY_PROOF, BY_NAME, BY_LIMIT)


def copy_with_edits(edits: Sequence[Edit], to: str) -> None:
    """Copies the crates with the libraries below those of the edits, and puts these where the kit's gate tries them."""
    crates = stands_on()
    copy_crates(crates, Path(to))
    for name in set().union(*(reached(crates, edit.crate) for edit in edits)):
        built = os.path.dirname(try_rounds.library(name))
        if os.path.isdir(built):
            try_rounds.link_all(built, os.path.join(to, "crates", name, "out", "rlib"))
    for edit in edits:
        there = os.path.join(to, "crates", edit.crate, "must-fail")
        os.makedirs(there, exist_ok=True)
        shutil.copy(os.path.join(EDITS, edit.crate, edit.file), there)


def try_whole(edits: Sequence[Edit]) -> dict[tuple[str, str], str]:
    """Tries edits by proofs of whole crates; answers what came of each of them."""
    kinds = dict.fromkeys(((edit.crate, edit.file) for edit in edits), NOT_TRIED)
    with tempfile.TemporaryDirectory() as room:
        copy_with_edits(edits, room)
        command = ["rt", "must-fail", *sorted({edit.crate for edit in edits})]
        with subprocess.Popen(command, cwd=room, env={"RT_JOBS": str(jobs()), **os.environ}, stdin=subprocess.DEVNULL,
                              stdout=subprocess.PIPE, stderr=subprocess.STDOUT, text=True,
                              errors="replace") as running:
            for line in running.stdout or ():
                print(line, end="", flush=True)
                told = re.match(r"(?:rt: )?must-fail (\w+)/(\S+): (.*)", line)
                if told and (told[1], told[2]) in kinds:
                    kind = next((kind for kind, words in WORDS.items() if told[3].startswith(words)), NOT_TRIED)
                    kinds[told[1], told[2]] = BY_CLAUSE if kind == BY_PROOF and VALUES.search(told[3]) else kind
    return kinds


def try_by_functions(edits: Sequence[Edit], room: str) -> dict[tuple[str, str], str]:
    """Tries edits of one crate by the functions that they change; answers what came of each that changes just one."""
    kinds = {}
    for edit, (kind, why) in try_rounds.try_in_rounds([edit for edit in edits if len(functions_of(edit)) == 1], room):
        print(f"{edit.crate}/{edit.file}: {kind}: {why[:160]}", flush=True)
        kinds[edit.crate, edit.file] = kind
    return kinds


def count(names: Sequence[str]) -> dict[str, dict[str, int]]:
    """Tries the edits of these crates, those with the most first; answers how many came to what, by crate."""
    crates = sorted((list(edits_of(name)) for name in names), key=len, reverse=True)
    kinds: dict[tuple[str, str], str] = {}
    with tempfile.TemporaryDirectory() as room, ThreadPoolExecutor(jobs()) as pool:
        for name in try_rounds.build_below(names):
            try_rounds.take(name, room)
        for found in pool.map(try_by_functions, crates, [room] * len(crates)):
            kinds.update(found)
    left = [edit for edits in crates for edit in edits if kinds.get((edit.crate, edit.file), BAD) in (NOT_REFUSED, BAD)]
    if left:
        kinds.update(try_whole(left))
    counts = {name: dict.fromkeys(KINDS, 0) for name in names}
    for (name, _), kind in kinds.items():
        counts[name][kind] += 1
    return counts


def edits(names: Sequence[str]) -> tuple[int, int]:
    """Tries the edits of these crates, or of all, and answers how many were refused and how many were not."""
    known = [name for name in sorted(os.listdir(EDITS)) if any(edits_of(name))]
    lacking = [name for name in names if name not in known]
    if lacking:
        raise SystemExit(f"no crate of this name has edits: {' '.join(lacking)}")
    counts = count(names or known)
    for name, kinds in counts.items():
        told = ", ".join(f"{number} {kind}" for kind, number in kinds.items() if number)
        print(f"{name}: {sum(kinds.values())} edits: {told}")
    whole = {kind: sum(kinds[kind] for kinds in counts.values()) for kind in KINDS}
    print("all: " + ", ".join(f"{number} {kind}" for kind, number in whole.items()))
    refused = sum(whole[kind] for kind in REFUSED)
    return refused, sum(whole.values()) - refused
