"""Tries wrong bodies by the functions that have to be refused, many at once.

A crate is copied with as many edits in their places as change functions that differ, and the prover is asked for those
functions alone, over the libraries that stand. The gate has proved all others, so that their proofs are holes here: a
hole stands for what the function promises. An edit is refused only by an error at its own function, so that none is
taken for refused because another is; where nothing says so or the contrary, it is tried once more alone."""
import contextlib
import os
import re
import shutil
import subprocess
import tempfile
from collections.abc import Iterable, Iterator, Mapping, Sequence
from pathlib import Path

from dev.building import kit_commands
from dev.building.progress import stands_on
from dev.draw_crates import reached
from dev.edits.edit_files import CRATES, EDITS, Edit, Function, edits_of, functions_in, functions_of, put_in_place

Verdict = tuple[str, str]  # what a try comes to, and what says so
Place = tuple[str, Function]  # a function that an edit changes, with its file

PARTS = ("src", "specs", "proofs")
# What a try comes to.
BY_CLAUSE, BY_PROOF = "refused by a clause", "refused only because a proof no longer fits"
BY_NAME, NOT_REFUSED, BAD = "refused only because a name is gone", "not refused", "bad"
# What the prover says is wrong at a place of a file.
ERROR = re.compile(r"\S+:\d+:\d+: error|note: \S+:\d+:\d+: (?:it is not proved|`search` found no proof)")
# What the prover says of a function that has no error, over holes or not.
HAS_NO_ERROR = ("no holes", "depends on a hole in ")
# A proof that names what the edit took away says nothing of the contract.
NAME_IS_GONE = re.compile(r"(\./)?proofs/.*(has no field|is not in scope|has no `|was not admitted)")
# What says that no proof can be given: values at which what is wanted is false, or a number in the place of another
# one. Any other error may be one of the proof alone, which may be put right where the edit promises the same.
NUMBER = r"`(?:\d+|mathlib\.Core\.Bool\.(?:true|false))`"
VALUES = re.compile(r"allow values at which this goal is false|the goal does not follow\b.*the goal fails, at "
                    r"|the two types (?:first differ|differ only) where "
                    rf"one has {NUMBER} \(expected\) and the other has {NUMBER} \(found\)")


def library(name: str) -> str:
    return os.path.join(CRATES, name, "out", "rlib", f"{name}.rlib")


def build_below(names: Iterable[str]) -> set[str]:
    """Builds the libraries below these crates where they are not all the gate's own: one that was built by hand has a
    stamp beside it, and does not go with others that have none."""
    crates = stands_on()
    below: set[str] = set().union(*(reached(crates, name) for name in names))
    stamped = [name for name in below if os.path.exists(os.path.join(os.path.dirname(library(name)), "stamp"))]
    if stamped or not all(os.path.isdir(library(name)) for name in below):
        for name in sorted(below, key=lambda name: len(reached(crates, name))):
            subprocess.run(["rt", "lib"], cwd=os.path.join(CRATES, name), stdin=subprocess.DEVNULL, check=True)
    return below


def link_all(folder: str, to: str) -> None:
    """Links the files of a folder, or copies them where they cannot be linked."""
    def link(source: str, target: str) -> None:
        try:
            os.link(source, target)
        except OSError:
            shutil.copy2(source, target)

    shutil.copytree(folder, to, copy_function=link)


def take(name: str, room: str) -> None:
    """Takes a library as it stands into a room for tries: what becomes of its place later changes nothing there."""
    link_all(library(name), os.path.join(room, f"{name}.rlib"))


def words(name: str, paths: Iterable[str], room: str) -> list[str]:
    """How the prover is asked for functions of a crate, over a room's libraries; what it keeps there serves later."""
    kit, crates = kit_commands.folder(), stands_on()
    root = next(root for root in ("src/lib.rt", "src/main.rt") if os.path.exists(os.path.join(CRATES, name, root)))
    asked = [f"{kit}/bin/rattle", "check", "--crate-name", name, root, "-L", f"dependency={kit}/rlibs"]
    for below in ["std", *crates[name]]:
        asked += ["--extern", f"{below}={room if below in crates else f'{kit}/rlibs'}/{below}.rlib"]
    kept = os.path.join(room, f"kept-{name}")
    # where the room is gone, nothing more is tried in it
    with contextlib.suppress(FileExistsError):
        os.mkdir(kept)
    asked += ["-L", f"dependency={room}", "--antt-project", f"{kit}/rattle/logic/antt-project.json",
              "--logic-built", f"{kit}/logic_built", "--incremental", kept, "--jobs", "1", "--allow-holes"]
    return asked + [word for path in paths for word in ("--only", path)]


def make_holes(name: str, paths: Iterable[str], folder: str) -> None:
    """Leaves of each other function of a crate what it promises: its body is gone, so that what it calls need not be
    looked at, and its proof is a hole. One that calls itself, or others that call it, stays as it is, since they share
    one proof."""
    for path, function in functions_in(folder):
        *above, last = function.path.split("::")
        source, proofs = Path(folder, path), Path(folder, "proofs", *above)
        if function.path in paths or (proofs / f"+{last}").is_dir() or is_marked(source, function):
            continue
        empty(source, function)
        at = proofs / last
        at.mkdir(parents=True, exist_ok=True)
        for file in ("Answers.antt", "Invariants.antt"):
            (at / file).unlink(missing_ok=True)
        hole = (f"use Rattle.{name}.proofs.{'.'.join([*above, last])}.Statement.{{statement}}\n\n"
                f"pub {last}_spec : {{M : Type 1}} → statement M\n{last}_spec = ?\n")
        (at / "Proof.antt").write_text(hole, encoding="utf-8")


def is_marked(source: Path, function: Function) -> bool:
    """Whether an attribute of a function names the cycle of calls that it is in."""
    lines = source.read_text(encoding="utf-8").split("\n")[function.first - 1:function.last]
    return any(line.strip().startswith("#[cycle(") for line in lines)


def empty(source: Path, function: Function) -> None:
    """Takes the body out of a function. Each line keeps its number."""
    lines = source.read_text(encoding="utf-8").split("\n")
    # behind clauses the body begins on a line of its own, at the depth at which it ends; else on the last line of the
    # head
    alone = lines[function.last - 1].replace("}", "{")
    opened = [number for number in range(function.first, function.last - 1) if lines[number - 1].endswith("{")]
    begin = next((number for number in opened if lines[number - 1] == alone), opened[0] if opened else 0)
    if begin:
        lines[begin:function.last - 1] = ["unreachable!()", *[""] * (function.last - begin - 2)]
        source.write_text("\n".join(lines), encoding="utf-8")


def asked_with(edits: Sequence[Edit], paths: Sequence[str], room: str) -> list[str]:
    """What the prover answers about these functions of a crate with these edits: its lines."""
    name = edits[0].crate
    with tempfile.TemporaryDirectory() as copy:
        for part in PARTS:
            if os.path.isdir(os.path.join(CRATES, name, part)):
                shutil.copytree(os.path.join(CRATES, name, part), os.path.join(copy, part))
        make_holes(name, paths, copy)
        put_in_place(edits, copy)
        done = subprocess.run(words(name, paths, room), cwd=copy, stdin=subprocess.DEVNULL, stdout=subprocess.PIPE,
                              stderr=subprocess.STDOUT, text=True, errors="replace", check=False)
    return done.stdout.rstrip("\n").split("\n")


def errors(lines: Iterable[str]) -> list[str]:
    """What the prover says is wrong at a place of a file, each with the lines that belong to it, as one."""
    found: list[str] = []
    is_one = False
    for line in lines:
        if is_one and line.startswith("  "):
            found[-1] += " " + line.strip()
            continue
        is_one = bool(ERROR.match(line))
        found += [line] if is_one else []
    return found


def kind_of(told: list[str]) -> Verdict:
    """By what these errors refuse an edit, and the one that says so."""
    kinds = {BY_CLAUSE: [line for line in told if VALUES.search(line)],
             BY_PROOF: [line for line in told if not NAME_IS_GONE.match(line)], BY_NAME: told}
    return next((kind, lines[0]) for kind, lines in kinds.items() if lines)


def is_at(line: str, path: str, function: Function) -> bool:
    """Whether an error stands in the text of a function or in its proof."""
    found = re.match(r"(?:note: )?(?:\./)?(\S+?):(\d+):", line)
    assert found
    file, number = found.groups()
    if file == path:
        return function.first <= int(number) <= function.last
    *above, last = function.path.split("::")
    # the proof of a function that calls itself stands under a sign of its own
    return bool(file.startswith(tuple("/".join(["proofs", *above, sign + last, ""]) for sign in ("", "+"))))


def judged(lines: Sequence[str], crate: str, path: str, function: Function) -> Verdict | None:
    """What the prover's answer says of an edited function, or None where it says nothing of it."""
    if not re.fullmatch(r"only=\d+ holes=\d+", lines[-1]):
        return None
    own = [line for line in errors(lines) if is_at(line, path, function)]
    if own and kind_of(own)[0] != BY_NAME:
        return kind_of(own)
    state = f"fn {crate}::{function.path}: "
    if any(line.startswith(state) and line.removeprefix(state).startswith(HAS_NO_ERROR) for line in lines):
        return NOT_REFUSED, f"{function.path} stands with this edit"
    return None


def judged_alone(lines: Sequence[str], crate: str, path: str, function: Function) -> Verdict:
    """The same of the only edit in its place: then each error is of its making."""
    verdict = judged(lines, crate, path, function)
    told = errors(lines)
    if verdict or not told or not lines[-1].startswith("only="):
        return verdict or (BAD, f"it did not come to a verdict: {lines[-1]}")
    return kind_of(told)


def first_of_each(places: Mapping[Edit, Place]) -> dict[Edit, Place]:
    """The first edit of each function, of those that wait."""
    round_of: dict[Place, Edit] = {}
    for edit, function in places.items():
        round_of.setdefault(function, edit)
    return {edit: function for function, edit in round_of.items()}


def try_alone(edit: Edit, path: str, function: Function, room: str) -> Verdict:
    try:
        return judged_alone(asked_with([edit], [function.path], room), edit.crate, path, function)
    except (OSError, ValueError) as fault:
        return BAD, str(fault)


def try_together(places: Mapping[Edit, Place], room: str) -> dict[Edit, Verdict]:
    """What comes of edits of functions that differ: of each that the prover's answer says something of."""
    try:
        lines = asked_with([*places], [function.path for _, function in places.values()], room)
    except (OSError, ValueError):
        return {}
    found = {edit: judged(lines, edit.crate, *place) for edit, place in places.items()}
    return {edit: verdict for edit, verdict in found.items() if verdict}


def try_round(places: Mapping[Edit, Place], room: str) -> dict[Edit, Verdict]:
    """The same of each that anything is said of; where nothing is, as beside one that can't be read, of each half."""
    if len(places) == 1:
        (edit, place), = places.items()
        return {edit: try_alone(edit, *place, room)}
    found = try_together(places, room)
    if found:
        return found
    every = [*places.items()]
    half = len(every) // 2
    return {**try_round(dict(every[:half]), room), **try_round(dict(every[half:]), room)}


def try_in_rounds(edits: Iterable[Edit], room: str) -> Iterator[tuple[Edit, Verdict]]:
    """Tries edits of one crate, each of which changes one function; yields each with what came of it."""
    waiting = {edit: next(iter(functions_of(edit))) for edit in edits}
    while waiting:
        for edit, verdict in try_round(first_of_each(waiting), room).items():
            del waiting[edit]
            yield edit, verdict


def listed() -> list[list[Edit]]:
    """The edits that each run tries, by crates."""
    crates = [[edit for edit in edits_of(name) if edit.only] for name in sorted(os.listdir(EDITS))]
    return [edits for edits in crates if edits]
