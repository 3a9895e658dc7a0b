"""`registry import`: crates that are on this machine, published in an order that is accepted."""
from __future__ import annotations

import json
import sys
from itertools import combinations

from ..bar import Bar, busy
from ..failures import REFUSED, Refused, Usage
from ..files import read_bounded, write_file
from ..indexes.cargo import Cargo
from ..indexes.crates_io import CratesIo
from ..indexes.debian import Debian
from ..limits import MOST_VERSIONS
from ..locks import Lock, lock_text
from ..needs import needs_path, write_needs
from ..output import aside
from ..refusals import english, listed
from ..session import reading, writing
from ..shapes import (
    Asking, Cause, Chosen, Dependency, Index, Iterable, Iterator, Options, Output, Pairs, Reply, Request, Sequence,
)
from ..shelf import Shelf, choose, commands_of, counted, noted, other_spellings, request, roots

MOST_ASKED = 2_000  # of more packages some are asked, at even distances
BUDGET = 100  # conflicts of each request
MOST_TOLD = 5
THERE_ALREADY = (7, 12)  # it is published, or yanked, already


def run(options: Options, out: Output) -> int | None:
    if options.ask and not options.lines:
        raise Usage("--ask needs --lines: `registry resolve` asks the registry")
    lock_file = getattr(options, "write", None)
    with busy("reading the index"):
        index = opened(options)
        needs = roots(index, getattr(options, "from"))
        locked = index.locked() if options.ask or lock_file else []
        asked = request(index, needs, locked) if options.ask else None
        shelf = Shelf(index)
        chosen, most = choose(shelf, [name for name, _ in needs] or index.names(), options.newest or MOST_VERSIONS)
    commands = list(commands_of(chosen))
    if options.lines:
        for it in [*commands, *([asked] if asked else [])]:
            print(json.dumps(it, separators=(",", ":")))
        sys.stdout.flush()
        aside(f"written: {counted(chosen)}", *noted(shelf, chosen, most, index.notes))
        return None
    status = published(options, commands, chosen, noted(shelf, chosen, most, index.notes), out)
    if lock_file:
        keep(lock_file, locked, needs, out)
    return status


def opened(options: Options) -> Index:
    if options.subcommand == "import crates-io":
        return CratesIo(options.dir)
    if options.subcommand == "import cargo":
        return Cargo(options.dir, CratesIo(options.index) if options.index else None)
    if not options.file:
        return Debian(Debian.of_this_machine())
    return Debian(read_bounded(options.file).decode(errors="replace").replace("\r\n", "\n"))


def published(options: Options, commands: Sequence[Request], chosen: Chosen, notes: Sequence[str],
              out: Output) -> int | None:
    reply: Reply = {"revision": 0}
    refused: dict[str, list[str]] = {}
    accepted, there, bar = 0, 0, Bar("importing", len(commands))
    with writing(options) as session:
        if not options.both_spellings:
            refuse_spellings(other_spellings(chosen, listed(session)))
        for command, reply in zip(commands, session.each(commands)):
            bar.step()
            if "error" not in reply:
                accepted += 1
            elif reply["error"] in THERE_ALREADY:
                there += 1
            else:
                refused.setdefault(english(command, reply, dict), []).append(f"{command['name']} {command['version']}")
    bar.end()
    told = [*notes, *([f"skipped: commands that were carried out before: {there}"] if there else []),
            *(f"refused: {why}: {len(names)} (first: {names[0]})" for why, names in refused.items())]
    with reading(options) as session:
        alone = Alone(session, [name for name, releases in chosen.items() if releases])
    out.give({"accepted": accepted, "passed_over": there, "refused": sum(map(len, refused.values())),
              "revision": reply["revision"], "notes": told, "alone": alone.value()},
             [f"imported: {counted(chosen)} (revision {reply['revision']})"])
    sys.stdout.flush()
    if not out.is_json:
        aside(*told, *alone.lines())
    return REFUSED if refused else None


def refuse_spellings(pairs: Sequence[tuple[str, str]]) -> None:
    """Ends an import of names that the journal spells otherwise: what is needed would be found under one alone."""
    if pairs:
        name, there = pairs[0]
        count = f"{len(pairs)} name{'s differ' if len(pairs) > 1 else ' differs'}"
        there_is = f"(first: {name}, which is {there} there)"
        raise Refused(f"nothing is imported: {count} from the journal's only in - and _ {there_is}: "
                      "import into another journal, which --journal FILE names, or add --both-spellings")


def keep(path: str, locked: Pairs, needs: Sequence[Dependency], out: Output) -> None:
    write_file(path, lock_text(Lock(dict(locked))))
    write_needs(needs_path(path), [list(it) for it in needs])
    out.note(f"{path} and {needs_path(path)} are written")


# ---- how many packages have a selection where each is requested alone

class Alone:
    """The answers to a request for each of some packages alone."""

    def __init__(self, session: Asking, names: Sequence[str]) -> None:
        self.count, self.asked = len(names), names[::-(-len(names) // MOST_ASKED) or 1]
        self.selected = 0
        self.obstacles: dict[str, list[str]] = {}  # by obstacle the packages in whose way it stands
        bar = Bar("requesting each alone", len(self.asked))
        requests: list[Request] = [{"op": "resolve", "needs": [[name, "*"]], "explain": True, "budget": BUDGET}
                                   for name in self.asked]
        for name, reply in zip(self.asked, session.each(requests)):
            bar.step()
            self.selected += "selected" in reply
            for it in obstacles(reply):
                self.obstacles.setdefault(it, []).append(name)
        bar.end()

    def ranked(self) -> list[tuple[str, list[str]]]:
        return sorted(self.obstacles.items(), key=lambda it: -len(it[1]))

    def lines(self) -> Iterator[str]:
        some = "" if len(self.asked) == self.count else f" that were requested, of {self.count}"
        yield f"resolve alone: {self.selected} of {len(self.asked)} crates{some}"
        for told, names in self.ranked()[:MOST_TOLD]:
            yield f"in the way: {told}: {len(names)} (first: {names[0]})"

    def value(self) -> dict[str, object]:
        return {"requested": len(self.asked), "selected": self.selected,
                "in_the_way": [{"what": told, "packages": names} for told, names in self.ranked()]}


def obstacles(reply: Reply) -> list[str]:
    """What a refusal rests on: unmet requirements and packages needed in two versions, else what is yanked."""
    if "error" in reply:
        return [f"no answer within {BUDGET} conflicts" if reply["error"] == 22 else reply["name"]]
    facts = [cause for row in reply.get("derivation", []) for cause in row["causes"]]
    premises = [it for it in facts if it.get("fact") == "premise"]
    told = [f'no version of {it["target"]} meets "{it["need"]}"' for it in premises if not it["within"]]
    targets = dict.fromkeys(it["target"] for it in premises)
    told += [f"two versions of {it} are needed, and a selection has one" for it in targets if is_divided(it, premises)]
    yanked = [f"versions of {it['name']} are yanked" for it in facts if it.get("fact") == "disallowed"]
    return list(dict.fromkeys(told or yanked))


def is_divided(target: str, premises: Iterable[Cause]) -> bool:
    within = {frozenset(it["within"]) for it in premises if it["target"] == target and it["within"]}
    return any(one.isdisjoint(other) for one, other in combinations(within, 2))
