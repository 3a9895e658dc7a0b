"""Has the program's own tests run on a session in process, in the place of the program."""
import re
from typing import Any, cast
from unittest import mock

from tests.program import test_durable_files, test_saved_files
from tests.support import durable_sessions, program
from tests.support.library import serving


class Told:
    """What a session in process says of a file that it can't save."""
    FORM = re.compile(rb"registryd: (output failed|journal [^:\n]*: (can't be \w+: [^:\n]* \(os error \d+\)|"
                      rb"in use by another session))\n")

    def __eq__(self, said: Any) -> bool:
        return self.FORM.fullmatch(said) is not None

    __hash__: Any = None


class InProcess:
    """Has the tests of a class run so. They are skipped where there is no library."""
    COMPILED: tuple[str, ...] = ()
    LOOKS = ("fstat", "stat")  # by which it is asked what stands there

    @classmethod
    def setUpClass(cls: Any) -> None:
        serve = serving(cls, *cls.COMPILED)
        for module in (program, durable_sessions, test_durable_files, test_saved_files):
            cls.enterClassContext(mock.patch.object(module, "PROGRAM", serve))
        for module, name in ((test_saved_files, "FAILED"), (test_durable_files, "UNSAVED")):
            cls.enterClassContext(mock.patch.object(module, name, Told()))
        cast(Any, super()).setUpClass()


class BySeat(InProcess):
    """By a seat that keeps its journal in a file."""
    COMPILED = ("-DBY_SEAT",)


def in_process(tests: type, way: type = InProcess) -> type:
    return type(tests.__name__, (way, tests), {})


def by_seat(tests: type) -> type:
    return in_process(tests, BySeat)
