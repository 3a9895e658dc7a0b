"""Runs every test of the repository. The last line counts those that passed, failed and were skipped, since something
that they need is not on this machine; why each was skipped stands above it.

First the gate, `rt ci`: it proves every crate, from nothing unless the same files were proved on this machine before,
and runs the programs as two compilers build them. Beside it, over the libraries that it builds: the static library, and
wrong bodies, by the functions that have to be refused. Then the tests in Python under tests/ and bench/, on the
programs that it built. Where the gate passes, `./registryd` runs the proved program from then on.

    ./test                   all of it
    ./test --quick           most of the Python tests alone, on programs that are compiled
                             from the sources where none stand: nothing is proved. What it
                             leaves to ./test is named above the last line
    ./test --tools           the Python tests alone, on the programs that stand
    ./test --edits [NAME..]  all wrong bodies of these crates, or of all crates: they
                             stand under edits/, and each run tries a few of them

With `--nothing-skipped` before these words a skipped test is a failure, as for `.ci/run`.
"""
import os
import sys
from collections.abc import Callable, Mapping, Sequence
from typing import Any

from dev import measured
from dev.building import gate, programs
from dev.building.progress import SECONDS, TOP, Progress, crates_below, jobs
from dev.edits.try_beside import Tries
from dev.edits.try_edits import edits
from dev.testing.compiling import LIBRARY, TESTED, Builds
from dev.testing.counts import Counts
from dev.testing.run import run_all

# What `--quick` compiles: it leaves the static library to a whole run.
PROGRAMS = tuple(name for name in TESTED if name != LIBRARY)


def gated(tries: Tries) -> tuple[int, int]:
    """Runs the gate, shows what it says and how far it is, and answers what passed and failed."""
    crates = crates_below()
    progress = Progress("test", crates, jobs())
    proofs = measured.Proofs({name: TOP / "crates" / name for name in crates})

    def notice(crate: str, state: str) -> None:
        if state != gate.NOT_PROVED:
            proofs.tell(crate)
        tries.tell(crate, is_proved=state != gate.NOT_PROVED)

    passed, failed = gate.run(TOP, progress, lambda line: print(line, end="", flush=True), notice)
    if not failed and not progress.skipped:
        measured.note(TOP.joinpath(*SECONDS), proofs.took, crates)
    return passed, failed


def gate_and_wrong_bodies() -> Counts:
    """Both, side by side; answers their counts. The wrong bodies of crates that are not proved are not tried."""
    before = {name: programs.sources_sum(name, True) for name in TESTED}
    with Tries(jobs(), LIBRARY) as tries:
        passed, failed = gated(tries)
        # the wrong bodies go on meanwhile
        built = Counts() if failed else library(*tries.build_library().result())
        note_proved(before if not failed + built.failed else {})
        refused, others = tries.end(not failed)
    return built + Counts(passed + refused, failed + others)


def library(is_built: bool, output: str) -> Counts:
    """Shows what came of the static library; answers that as a count."""
    print(f"{LIBRARY}: the static library is proved and built" if is_built
          else f"{output}{LIBRARY}: the static library could not be built", flush=True)
    return Counts(passed=1) if is_built else Counts(failed=1)


def note_proved(before: Mapping[str, str]) -> None:
    """Puts the programs that the gate has proved where `./registryd` takes them, each with the sum that its sources had
    before: if that has changed meanwhile, nobody knows which ones were proved. The tests run what the gate built, in
    any case."""
    for name in TESTED:
        os.environ[name.upper()] = str(programs.gate_built(name))
    for name, of in before.items():
        if of == programs.sources_sum(name, True):
            programs.stand(name, programs.PROVED, programs.gate_built(name), of, programs.kit_version())
        else:
            print(f"{name}: its sources were changed while they were proved, so ./registryd does not take the program "
                  "that was built")


def tools(names: Sequence[str] = TESTED, **how: Any) -> Counts:
    for name in names:
        # each file of tests would look for it anew
        os.environ[name.upper()] = programs.path_for_tests(name)
        print(f"{name} under test: {os.environ[name.upper()]}", flush=True)
    return run_all(len(os.sched_getaffinity(0)), **how)


def lacking(names: Sequence[str] = TESTED) -> list[str]:
    """Which programs the tests would lack: those of which none stands, and that the environment doesn't name."""
    return [name for name in names if not os.environ.get(name.upper()) and not programs.current(name)]


def standing() -> Counts:
    """Runs the tests in Python on the programs that stand of just these sources."""
    names = lacking()
    if names:
        print(f"no {' or '.join(names)} stands of just these sources: ./test --quick compiles programs, "
              f"and tools/build {LIBRARY} the library")
        return Counts(failed=1)
    return tools()


def quick() -> Counts:
    """Compiles the programs that don't stand, side by side, and meanwhile begins with the tests in Python."""
    # an empty name says that there is none
    os.environ.setdefault(LIBRARY.upper(), "")
    with Builds(lacking(PROGRAMS)) as builds:
        counts = tools(PROGRAMS, builds=builds, is_quick=True)
    return counts + Counts(told=("nothing was proved in this run: ./test proves everything",))


def main(words: Sequence[str]) -> int:
    nothing_skipped = words[:1] == ["--nothing-skipped"]
    words = words[nothing_skipped:]
    if words[:1] == ["--edits"]:
        counts = Counts(*edits(words[1:]))
    elif words in ([], ["--quick"], ["--tools"]):
        parts: dict[str, list[Callable[[], Counts]]]
        parts = {"": [gate_and_wrong_bodies, tools], "--quick": [quick], "--tools": [standing]}
        counts = sum((part() for part in parts["".join(words)]), Counts())
    else:
        print(__doc__, file=sys.stderr)
        return 2
    print("\n".join(counts.lines()), flush=True)
    return counts.status(nothing_skipped)


if __name__ == "__main__":
    sys.exit(main(sys.argv[1:]))
