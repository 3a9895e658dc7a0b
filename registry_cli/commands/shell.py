"""`registry shell`: a prompt for the other subcommands, over one session that stays open."""
from .. import shell
from ..session import journal_of, patience_of, service_of
from ..shapes import Options, Output


def run(options: Options, out: Output) -> int:
    return shell.run(journal_of(options), service_of(options), patience_of(options))
