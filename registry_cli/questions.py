"""Asks whether a request can be met with certain versions, however many these are.

A version is asked for by a need `=version`. Where those are more than a request may have, or one is too long for a
requirement, the question is put in a session of its own, which ends with it. There packages that are made for it depend
on what is needed, so that a request for few of them needs it all; and where a version is too long, the package's others
are yanked. A derivation that this session tells is told back over the packages of the registry alone."""
from __future__ import annotations

from .catalog import line_of
from .check_derivation import ALWAYS, ROOT, read_version, resolve
from .derivation import Holding
from .failures import Refused
from .journal_file import journal_text
from .limits import MOST_COMMANDS, MOST_NEEDS, MOST_REQUIREMENT_BYTES
from .packages import named
from .renewal import commands_of, releases_of
from .session import Over
from .shapes import Cause, Collection, Iterable, Iterator, Mapping, Pairs, RegistryOf, Reply, Request, Row, Sequence

MADE, VERSION = "made", "1.0.0"  # how the names begin of packages that are made for a question, and the version of each


class Question:
    """A request with just these versions of some packages, in place of its own needs on them."""

    def __init__(self, request: Request, versions: Mapping[str, str]) -> None:
        self.versions = versions
        self.barring: set[str] = set()
        needs = [it for it in request["needs"] if it[0] not in versions]
        for name, text in versions.items():
            plain = text.partition("+")[0]
            if len(plain) >= MOST_REQUIREMENT_BYTES:
                self.barring.add(name)  # only a pre-release is as long
                needs.append([name, f">={plain.partition('-')[0]}-0"])
            else:
                needs.append([name, "=" + plain])
        changed: Request = {"needs": needs}
        self.request = request | changed

    def is_plain(self) -> bool:
        return not self.barring and len(self.request["needs"]) <= MOST_NEEDS

    def put(self, commands: Sequence[Request], request: Request, registry: RegistryOf) -> Reply:
        """Asks a session of its own, over what the question reaches of a registry with these commands. `request` may
        have another lock and budget, and `registry` answers the registry in Python, with some packages."""
        needs, made = bundled(self.request["needs"], commands)
        lines = [*reached(commands, dict(self.request["needs"])), *made]
        others = (it for it in releases_of(commands).values() if it.name in self.barring and not it.is_yanked)
        barred = [it for it in others if not self.has(it.name, it.text)]
        lines += [{"op": "yank", "name": it.name, "version": it.text} for it in barred]
        if len(lines) > MOST_COMMANDS:
            raise Refused(f"the question takes {len(lines):,} commands; the limit of a session is {MOST_COMMANDS:,}")
        lock = [[name, text] for name, text in request["lock"] if name not in self.barring or self.has(name, text)]
        with Over("the question", journal_text([line_of(it) for it in lines])) as session:
            changed: Request = {"needs": needs, "lock": lock}
            (reply,) = session.ask(request | changed)
        return self.told_back(reply, [name for name, _ in needs], {it["name"] for it in made}, registry)

    def told_back(self, reply: Reply, asked: Sequence[str], made: set[str], registry: RegistryOf) -> Reply:
        told: Reply = {}
        if "selected" in reply:
            told = {"selected": [it for it in reply["selected"] if it[0] not in made]}
        elif "derivation" in reply:
            usual: Request = {"explain": True, "budget": 0}
            names = named(self.request, reply["derivation"]) - made
            judge = Holding(registry(names), usual | self.request, self.versions)
            told = {"derivation": Retold(judge, asked, made).retell(reply["derivation"])}
        return reply | told

    def has(self, name: str, text: str) -> bool:
        return read_version(self.versions[name]) == read_version(text)


def reached(commands: Iterable[Request], names: Collection[str]) -> Iterator[Request]:
    """The commands that make as much of a registry as these packages can lead to, with the versions in their order."""
    releases, known, waiting = releases_of(commands), set(names), list(names)
    targets: dict[str, list[str]] = {}
    for it in releases.values():
        targets.setdefault(it.name, []).extend(target for target, _ in it.needs)
    while waiting:
        new = set(targets.get(waiting.pop(), ())) - known
        known |= new
        waiting += new
    return commands_of(releases, {key for key, it in releases.items() if it.name in known})


def bundled(needs: Pairs, commands: Iterable[Request]) -> tuple[Pairs, list[Request]]:
    """Needs that a request may have, and the publications of packages that depend on what is more than that."""
    published = [it for it in commands if it["op"] == "publish"]
    known = {name for it in published for name in (it["name"], *dict(it["needs"]))}.union(dict(needs))
    begin = MADE
    made: list[Request] = []
    while any(it.startswith(begin) for it in known):
        begin += "-"
    while len(needs) > MOST_NEEDS:
        parts = [needs[at:at + MOST_NEEDS] for at in range(0, len(needs), MOST_NEEDS)]
        new: list[Request] = [{"op": "publish", "name": f"{begin}{len(made) + at}", "version": VERSION, "needs": part}
                              for at, part in enumerate(parts)]
        made += new
        needs = [[it["name"], "=" + VERSION] for it in new]
    return needs, made


class Retold:
    """A derivation without the packages that were made: the request needs itself what they depend on. `judge` holds
    what was concluded over the registry alone, and `asked` are the packages that were needed."""

    def __init__(self, judge: Holding, asked: Sequence[str], made: set[str]) -> None:
        self.judge, self.asked, self.made = judge, asked, made
        self.rows: list[Row] = []
        self.places = {name: place for place, (name, _) in enumerate(judge.needs)}
        # by line of the derivation: the cause that stands for it, and nothing where it says nothing
        self.stands: list[Cause | None] = []

    def retell(self, rows: Iterable[Row]) -> list[Row]:
        for row in rows:
            first, second = map(self.cause, row["causes"])
            self.stands.append(self.line(first, second, ROOT if row["pivot"] in self.made else row["pivot"]))
        last = self.stands[-1]
        if last is None or "line" not in last:
            last = self.line(last, {"fact": "root"}, ROOT)  # a need that no version meets is no line by itself
        return self.rows[:last["line"]] if last else []

    def cause(self, cause: Cause) -> Cause | None:
        """What stands for a cause: the request needs what a package that was made depends on."""
        if "line" in cause:
            return self.stands[cause["line"] - 1]
        if cause["fact"] == "need":
            return self.need(self.asked[cause["index"]])
        return self.need(cause["target"]) if cause.get("name") in self.made else cause

    def need(self, target: str) -> Cause | None:
        return None if target in self.made else {"fact": "need", "index": self.places[target]}

    def line(self, first: Cause | None, second: Cause | None, pivot: str) -> Cause | None:
        """What stands for what two causes give: a line, or the one that gives it alone."""
        if first is None or second is None:
            return second if first is None else first
        one, other = self.judge.cause(first), self.judge.cause(second)
        for it, terms in ((first, one), (second, other)):
            if terms.get(pivot, ALWAYS) == ALWAYS:
                return it
        terms = resolve(one, other, pivot)
        self.judge.conclusions.append(terms)
        numbers = self.judge.registry.numbers
        ordered = sorted(terms.items(), key=lambda it: numbers[it[0]])
        conclusion = [[name, inside, sorted(held)] for name, (inside, held) in ordered]
        self.rows.append({"causes": [first, second], "pivot": pivot, "conclusion": conclusion})
        return {"line": len(self.rows)}
