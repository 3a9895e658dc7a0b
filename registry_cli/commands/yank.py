"""`registry yank` and `registry unyank`: whether a version may be selected anew."""
from ..refusals import accepted
from ..session import writing
from ..shapes import Named, Output, Request


def run(options: Named, out: Output) -> None:
    command: Request = {"op": options.subcommand, "name": options.name, "version": options.version}
    with writing(options) as session:
        (reply,) = session.ask(command)
        accepted(session, command, reply)
        done = {"yank": "yanked", "unyank": "no longer yanked:"}[options.subcommand]
        out.give(reply, [f"{done} {options.name} {options.version} (revision {reply['revision']})"])
