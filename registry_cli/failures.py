"""Why a subcommand ends without what was asked for: statuses, and exceptions with the line that people read."""
from collections.abc import Mapping

DONE, REFUSED, USAGE, FAILED = 0, 1, 2, 3
INTERRUPTED, NO_READER = 130, 141  # as a shell tells of a program that SIGINT or SIGPIPE ended


class Failure(Exception):
    """One line that says what happened and what to do; `members` are further ones of what `--json` prints of it."""
    status, kind = FAILED, "failed"

    def __init__(self, message: str = "", members: Mapping[str, object] | None = None) -> None:
        super().__init__(message)
        self.members = dict(members or {})


class Refused(Failure):
    """The registry refuses it, there is no selection, or what was asked for is not there."""
    status, kind = REFUSED, "refused"


class Unanswered(Failure):
    """A search that was ended before it had an answer."""
    status, kind = REFUSED, "refused"


class Usage(Failure):
    """The words are wrong."""
    status, kind = USAGE, "usage"


class Failed(Failure):
    """What is beyond the words and the registry: a file, the program, the machine."""


class InUse(Failed):
    """Another session has the journal."""


def one_line(fault: OSError) -> str:
    """An operating system's error in one line, with its file."""
    reason = fault.strerror or str(fault)
    return f"{fault.filename}: {reason}" if fault.filename else reason
