"""Builds a program where none stands of just these sources, runs nothing, and prints the program's path.

    tools/build               the program that ./registryd would run: it is compiled where none stands, in two minutes
    tools/build --compiled    the compiled program, even where a proved one stands
    tools/build --unchecked   the same without the checks as it runs, for measurements: ./registryd never runs it
    tools/build --proved      the proved program, which takes one to two hours on four processors
    tools/build NAME          another program, or the static library NAME

Nothing is proved of a compiled program: `./test` proves everything, and `./registryd` runs the proved program from then
on."""
import argparse
import contextlib
import fcntl
import io
import signal
import sys
import time
from collections.abc import Iterator

from dev.building import compile_library, compile_program, gate, kept_program, programs
from dev.building.compile_program import Failed, KitDiffers
from dev.building.programs import COMPILED, NAME, PROVED, UNCHECKED, Program
from dev.building.progress import TOP, Counter

OUT = TOP / "out"
KEPT = "What is proved is kept, so the same words go on from there"


def tell(name: str, text: str) -> None:
    print(f"{name}: {text}", file=sys.stderr, flush=True)


@contextlib.contextmanager
def alone(name: str) -> Iterator[None]:
    """One build of a program at a time: a second one waits, and then finds what the first has made."""
    OUT.mkdir(exist_ok=True)
    with open(OUT / f"{name}.lock", "w", encoding="ascii") as lock:
        try:
            fcntl.flock(lock, fcntl.LOCK_EX | fcntl.LOCK_NB)
        except BlockingIOError:
            tell(name, "another build of it is under way; this one waits for its end")
            fcntl.flock(lock, fcntl.LOCK_EX)
        yield


def compiled(name: str, kind: str) -> Program:
    by = programs.kit_version()
    of = programs.sources_sum(name, False, by)
    begun = time.monotonic()
    why = "its sources have changed, so it" if programs.is_older(name) else "it"
    tell(name, f"{why} is compiled first, which takes some two minutes; "
               "it is not proved on this machine until ./test has passed")
    with Counter(f"{name}: compiling", programs.SECONDS), compile_program.room(OUT, name) as folder:
        compile = compile_library.compiled if name in programs.libraries() else compile_program.compiled
        made = compile(compile_program.Kit(), TOP, name, folder, kind == COMPILED)
        if of != programs.sources_sum(name, False, by):
            raise Failed("a source was changed while it was compiled; the same words compile it anew")
        program = programs.stand(name, kind, made, of, by)
    without = "" if kind == COMPILED else ", without checks as it runs"
    tell(name, f"compiled in {time.monotonic() - begun:.0f} s{without}")
    return program


def proved(name: str) -> Program:
    by = programs.kit_version()
    if not by:
        raise Failed("the kit's command rt is not on the path, and only the kit can build it")
    of = programs.sources_sum(name, True, by)
    tell(name, "it is proved and built first; after that it starts at once")
    with compile_program.room(OUT, name) as folder:
        built = gate.prove(name, folder / "proof")
        if not built:
            raise Failed(f"it is not proved, for the reason above. {KEPT}, once that is mended (a source, or memory or "
                         "disk that ran out)")
        if of != programs.sources_sum(name, True, by):
            raise Failed(f"a source was changed while it was proved. {KEPT}")
        return programs.stand(name, PROVED, built, of, by)


def kept(name: str) -> Program | None:
    """The program that the kit's gate proved of the same files elsewhere on this machine, if the kit keeps one."""
    by = programs.kit_version()
    of = programs.sources_sum(name, True, by)
    with compile_program.room(OUT, name) as folder, contextlib.redirect_stderr(io.StringIO()):
        file = kept_program.taken(TOP, name, folder)
        if file and of == programs.sources_sum(name, True, by):
            return programs.stand(name, PROVED, file, of, by)
    return None


def to_run(name: str) -> Program:
    """The program that is to be run: the one that stands or is kept, else it is compiled, else proved."""
    program = programs.remember(name)
    if program:
        return program
    with alone(name):
        program = programs.current(name) or kept(name)
        if not program:
            try:
                program = compiled(name, COMPILED)
            except KitDiffers as why:
                if name != NAME:
                    raise
                tell(name, f"this kit cannot compile it without a proof, so it is proved: {why}")
                program = proved(name)
    # the note of what is to be run is older than all files that it speaks of
    time.sleep(2 * programs.LAG / 1e9)
    return programs.remember(name) or program


def of_kind(name: str, kind: str) -> Program:
    """The program of one kind, which is built where it does not stand."""
    with alone(name):
        program = programs.made(name, kind)
        if program or kind != PROVED:
            return program or compiled(name, kind)
        program = kept(name)
        if program:
            tell(name, "just these files were proved on this machine before, and the program was kept")
        return program or proved(name)


def options() -> argparse.Namespace:
    parser = argparse.ArgumentParser(prog="tools/build", description=__doc__,
                                     formatter_class=argparse.RawDescriptionHelpFormatter)
    kinds = parser.add_mutually_exclusive_group()
    for kind in (COMPILED, UNCHECKED, PROVED):
        kinds.add_argument(f"--{kind}", dest="kind", action="store_const", const=kind)
    parser.add_argument("name", nargs="?", default=NAME, choices=[*programs.names(), *programs.libraries()],
                        metavar="NAME", help=f"the program or the library (else: {NAME})")
    chosen = parser.parse_args()
    if chosen.kind == PROVED and chosen.name != NAME:
        sys.exit(f"{chosen.name} is proved by ./test alone")
    return chosen


def main() -> int:
    chosen = options()
    for signalled in (signal.SIGTERM, signal.SIGHUP):
        signal.signal(signalled, lambda number, _: sys.exit(128 + number))
    try:
        program = of_kind(chosen.name, chosen.kind) if chosen.kind else to_run(chosen.name)
    except KeyboardInterrupt:
        tell(chosen.name, f"broken off. {KEPT if chosen.kind == PROVED else 'The same words begin anew'}")
        return 130
    except KitDiffers as why:
        by = "tools/build --proved" if chosen.name == NAME else "./test"
        tell(chosen.name, f"this kit cannot compile it without a proof; {by} builds it: {why}")
        return 1
    except (Failed, OSError) as fault:
        print(getattr(fault, "output", ""), end="", file=sys.stderr)
        tell(chosen.name, f"it was not built: {fault}")
        return 1
    print(program.path)
    return 0


if __name__ == "__main__":
    sys.exit(main())
