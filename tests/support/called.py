"""The tools as commands that are called in this process: to begin Python anew takes longer than most of what they do.
What only a process of its own shows is left to tests that begin one."""
import io
import os
import sys
from collections.abc import Callable
from types import ModuleType
from typing import Any
from unittest import mock

from registry_cli import main
from tests.support.program import PROGRAM


def called(tool: ModuleType, *words: str, given: str = "") -> tuple[Any, ...]:
    """The status that the module of a tool ends with, called with these words and this standard input, and what it
    prints: on standard output, and on standard error."""
    return captured(lambda: tool.main(list(words)), given)


def registry(*words: object, given: str = "", **environment: str) -> tuple[Any, ...]:
    """The same of the command `registry`, over the program under test, with these variables alone."""
    variables = {"REGISTRY_PROGRAM": PROGRAM,
                 **{name: os.environ[name] for name in ("PATH", "HOME") if name in os.environ}, **environment}
    with mock.patch.dict(os.environ, variables, clear=True):
        return captured(lambda: main.main(list(map(str, words))), given)


def captured(call: Callable[[], object], given: str) -> tuple[Any, ...]:
    """What a call answers or exits with, and what it prints, with this standard input."""
    stdin, stdout, stderr = (io.TextIOWrapper(io.BytesIO(text), encoding="utf-8")
                             for text in (given.encode(), b"", b""))
    with mock.patch.multiple(sys, stdin=stdin, stdout=stdout, stderr=stderr):
        try:
            status = call()
        except SystemExit as ended:
            status = ended.code or 0
    return status, *(printed(stream) for stream in (stdout, stderr))


def printed(stream: Any) -> str:
    stream.flush()
    return str(stream.buffer.getvalue().decode())
