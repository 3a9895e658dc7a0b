"""Runs one command line, and turns what may go wrong into one line on standard error and an exit status."""
import errno
import gc
import importlib
import os
import signal
import sys

from . import command_line
from .failures import DONE, FAILED, INTERRUPTED, NO_READER, USAGE, Failed, Failure, Usage, one_line
from .output import Output, choose, fail
from .shapes import NoReturn

FULL = (errno.ENOSPC, errno.EDQUOT, errno.EFBIG, errno.EIO)  # errors of a write


def run(words: list[str], out: Output) -> int:
    for place, it in enumerate(words, 1):
        if any("\ud800" <= letter <= "\udfff" for letter in it):
            raise Usage(f"word {place} is not UTF-8")
    choose()
    found, rest = command_line.split(command_line.asked_help(words))
    if found is None:
        return general(rest)
    options = command_line.read(found, rest)
    options.subcommand = found.name
    choose(options)
    module = importlib.import_module(f".commands.{found.module}", __package__)
    status: int | None = module.run(options, out)
    return status or DONE


def general(words: list[str]) -> int:
    """A command line without a subcommand. What it takes is loaded only here."""
    if words[:1] == ["--complete"]:
        from .completion import complete
        print(*complete(words[1:]), sep="\n")
    elif words[:1] == ["--completion"]:
        from .completion import SHELLS, script
        if words[1:2] == [] or words[1] not in SHELLS:
            raise Usage(f"--completion takes one of {', '.join(SHELLS)}")
        print(script(words[1]), end="")
    elif words == ["--manual"]:
        from .manual import page
        print(page(), end="")
    elif words in (["--version"], ["-V"]):
        from .program import version
        print(version())
    elif words[0:1] in (["--version"], ["-V"], ["--manual"]):
        raise Usage(f"nothing may follow {words[0]}: see {command_line.HELP}")
    else:
        from . import parsing
        wants_help = "--help" in words or "-h" in words
        print(parsing.overview(), end="", file=sys.stdout if wants_help else sys.stderr)
        return DONE if wants_help else USAGE
    return DONE


def guarded(words: list[str]) -> int:
    out = Output("--json" in words)
    try:
        status = run(words, out)
        sys.stdout.flush()
        return status
    except Failure as fault:
        return failed(out, fault)
    except BrokenPipeError:
        raise
    except OSError as fault:
        return failed(out, Failed(unwritten(fault)))
    except MemoryError:
        return failed(out, Failed("there is not enough memory"))


def failed(out: Output, fault: Failure) -> int:
    try:
        out.fail(fault)
    except BrokenPipeError:
        raise
    except OSError as other:  # nor can standard output be written
        fail(unwritten(other))
        return FAILED
    return fault.status


def unwritten(fault: OSError) -> str:
    """In one line. The error of a full standard output has no file, and nothing more goes there then."""
    if fault.errno in FULL and not fault.filename:  # whoever writes a file names it
        fault.filename = "standard output"
        write_no_more()
    return one_line(fault)


def write_no_more() -> None:
    """Lets nothing more go to standard output, also what is left of it as the interpreter ends."""
    os.dup2(os.open(os.devnull, os.O_WRONLY), sys.stdout.fileno())


def command() -> NoReturn:
    """Is the command: ends this process with its status."""
    gc.set_threshold(100_000)  # what is loaded and read stays: so it is seldom searched for cycles
    for number in (signal.SIGHUP, signal.SIGTERM):
        signal.signal(number, end_by_signal)
    status = main(sys.argv[1:])
    gc.freeze()  # so that what is left is not searched for cycles once more as the interpreter ends
    sys.exit(status)


def main(words: list[str]) -> int:
    """It is no fault that the reader has enough before the end, or that a key interrupts."""
    open_streams()
    try:
        return guarded(words)
    except BrokenPipeError:
        write_no_more()
        return NO_READER
    except KeyboardInterrupt:
        return INTERRUPTED
    except SystemExit as ended:  # argparse, when it has shown its help, and a signal that ends
        return status_of(ended)


def status_of(ended: SystemExit) -> int:
    return ended.code if isinstance(ended.code, int) else DONE if ended.code is None else FAILED


def open_streams() -> None:
    """Opens what of the standard streams was closed, so that no other file gets its number."""
    for number in range(3):
        try:
            os.fstat(number)
        except OSError:
            os.open(os.devnull, os.O_RDWR)
    for name in ("stdout", "stderr"):
        if getattr(sys, name) is None:
            setattr(sys, name, open(os.devnull, "w", encoding="utf-8"))
    sys.stdout.reconfigure(errors="replace")  # type: ignore[attr-defined]  # it is a stream of a file


class EndedBySignal(SystemExit):
    """A signal ends the command, and a shell that it stands in too."""


def end_by_signal(number: int, _: object) -> NoReturn:
    """Ends by a signal as by an exception: so what was begun is left in order, and no program goes on alone."""
    raise EndedBySignal(128 + number)
