"""`registry why`: why a request is refused, or a version not selected, from a derivation that is checked first."""
from __future__ import annotations

import sys
import time
from typing import cast

from ..cases import Case, tell
from ..catalog import catalog_of
from ..check_derivation import NAME, RESOLVE, demand, formed, read_journal, read_lines, read_version
from ..check_derivation import session as replayed
from ..failures import Failed, Refused, Usage
from ..files import write_file
from ..needs import request_of
from ..packages import registry_in
from ..searching import explaining
from ..session import Session, reading
from ..shapes import Callable, Iterable, Iterator, Object, Output, Registry, Reply, Request, Sequence, WhyOptions


def run(options: WhyOptions, out: Output) -> None:
    """Tells what is asked, and draws it; of several requests the last one."""
    check(options)
    picture: Callable[[bool], str] | None = None
    answers: list[dict[str, object]] = []
    begun: float | None = None
    try:
        for case in of_files(options, options.asked) if options.asked else of_journal(options):
            with explaining("selected" not in case.reply, begun):
                lines = case.why_not(options.version[0], options.version[1]) if options.version else case.answer()
            answers.append({"request": case.request, "reply": case.reply, "told": lines})
            if not out.is_json:
                out.give(None, [""] * (len(answers) > 1))
                tell(case, lines, sys.stdout, options.full or not sys.stdout.isatty(), "--full tells all of them")
            picture = case.draw
            begun = time.monotonic()  # the next one has seconds of its own
        if out.is_json:
            out.give(answers, [])
        if options.picture:
            if picture is None:
                raise Refused("there is nothing to draw")
            write_file(options.picture, picture(options.unfolded))
    except ValueError as fault:  # what the checker of derivations says of files that can't be judged
        raise Refused(str(fault)) from None


def check(options: WhyOptions) -> None:
    if options.asked and (options.need or options.lock or options.budget is not None):
        raise Usage("--asked reads requests from a file: it can't be used with needs, --lock or --budget")
    if options.asked and options.connect:
        raise Usage("--asked can't be used with --connect: it reads a session from files")
    if options.unfolded and not options.picture:
        raise Usage("--unfolded needs --picture FILE")
    if not options.asked and (options.told or options.request):
        raise Usage("--told and --request need --asked FILE")
    if options.version and not (NAME.fullmatch(options.version[0]) and read_version(options.version[1])):
        raise Usage(f"these are not a package name and a version: {' '.join(options.version)!r}")


def of_journal(options: WhyOptions) -> Iterator[Case]:
    request = request_of(options)
    with reading(options) as session:
        names = set(catalog_of(session.journal()).lines)
        budget: Request = {"budget": request["budget"]} if "budget" in request else {}

        def registry(names: Iterable[str]) -> Registry:
            # a service may have more commands once it has replied
            return registry_in(catalog_of(session.journal()), names)

        yield Case(request, None, registry, lambda it: session.ask(it | budget)[0], names,
                   put=lambda question, it: question.put(session.commands(), it | budget, registry))


def of_files(options: WhyOptions, asked: str) -> Iterator[Case]:
    lines = lines_of(asked)
    requests, replies = (lines, lines_of(options.told)) if options.told else (lines[::2], lines[1::2])
    counts = f"{len(requests)} request lines and {len(replies)} replies"
    demand(len(requests) == len(replies), f"there are {counts}", Refused)
    journal = read_journal(options.journal) if options.journal else None
    commands: list[Object] = []
    wanted = wanted_of(options, requests, replies)
    for number, (request, reply, registry) in enumerate(replayed(requests, replies, journal), 1):
        commands += [request] if reply.get("ok") is True else []
        if number in wanted:
            before: Sequence[Object] = commands[:]
            if journal is not None:
                before = journal[:registry.revision]
            yield case_of(number, request, reply, registry, before)


def lines_of(path: str) -> list[dict[str, object]]:
    try:
        return read_lines(path)
    except OSError as fault:
        raise Failed(f"{path}: {fault.strerror}") from None


def case_of(number: int, request: Object, reply: Object, registry: Registry, commands: Sequence[Object]) -> Case:
    """The case of a request line and its reply, of a session that had obeyed these commands."""
    obeyed = cast("Sequence[Request]", commands)  # and so they have the form of requests
    return Case(request, cast("Reply", reply), lambda _: registry, lambda it: asked_anew(obeyed, it),
                told=f"request {number}, ", put=lambda question, it: question.put(obeyed, it, lambda _: registry))


def asked_anew(commands: Iterable[Request], request: Request) -> Reply:
    with Session("the session", ()) as session:
        return session.ask(*commands, request)[-1]


def wanted_of(options: WhyOptions, requests: Sequence[Object], replies: Sequence[Object]) -> set[int]:
    """The numbers of the requests that are told: one that is named, or the last one, or each that was refused."""
    lines = enumerate(zip(requests, replies), 1)
    answered = [number for number, (request, reply) in lines if is_answered(request, reply)]
    refused = [number for number in answered if "selected" not in replies[number - 1]]
    if options.request:
        what = f"request {options.request} is no request with a selection or a refusal"
        demand(options.request in answered, what, Refused)
        return {options.request}
    wanted = answered[-1:] if options.version or (options.picture and not refused) else refused
    none = "no request is refused" if answered else "there is no request with a selection or a refusal"
    demand(wanted, none, Refused)
    return set(wanted)


def is_answered(request: Object, reply: Object) -> bool:
    is_request = formed({"lock": [], "explain": True, "budget": 0, **request}, RESOLVE)
    return is_request and ("selected" in reply or reply.get("refused") is True)
