"""`registry publish`: a version of a package, with what it needs."""
from ..needs import needs_of
from ..refusals import accepted, listed, unpublished
from ..session import writing
from ..shapes import Named, Output, Request


def run(options: Named, out: Output) -> None:
    needs = needs_of(options.need)
    command: Request = {"op": "publish", "name": options.name, "version": options.version, "needs": needs}
    with writing(options) as session:
        (reply,) = session.ask(command)
        accepted(session, command, reply)
        out.give(reply, [f"published {options.name} {options.version} (revision {reply['revision']})"])
        packages = listed(session) if needs else {}
    for name, _ in needs:
        if name not in packages:
            out.note(f"so far {unpublished(name, packages)}")
