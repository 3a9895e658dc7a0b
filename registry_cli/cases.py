"""A request with its answer, told in English: what was selected, why nothing was, or why one version was not."""
from __future__ import annotations

import math
import re

from . import output
from .check_derivation import PAIRS, Fault, admits, demand, formed, precedence
from .derivation import FAILED, Derivation, Telling, listed
from .failures import Refused
from .limits import MOST_LOCK_LINES
from .locks import changes
from .packages import is_preferred, named, walk
from .questions import Question
from .refusals import english, not_there, unmatched, unpublished
from .shapes import Ask, Callable, Collection, Iterator, Mapping, Object, Pairs, Put, RegistryOf, Reply, Request, TextIO

MOST_NAMED = 4
SCREENFUL, LEAST = 40, 10  # lines
# words of the sentences, which may be names of packages too: as such they are not marked
WORDS = frozenset("a and any are asked at because both but can come comes depends every failed for forbidden has in "
                  "incompatible is it lock matches meets met must no not nothing of on or published refused request "
                  "require requires resolving revision said selected selection that the there thus together version "
                  "versions which with yanked".split())


def told_needs(needs: Pairs) -> str:
    told = [f"{name} {requirement}" for name, requirement in needs]
    more = [f"{len(told) - MOST_NAMED} more"] if len(told) > MOST_NAMED else []
    return ", ".join([*told[:MOST_NAMED], *more]) or "no needs"


def hints(derivation: Derivation) -> Iterator[str]:
    """What is published in place of what a refusal misses: the versions of a package, or the nearest name."""
    registry = derivation.registry
    published = {name for name, held in registry.releases.items() if held} | set(derivation.names)
    for name, requirement in derivation.lacking():
        if name in published:
            sentence = unmatched(name, requirement, [(it.text, it.yanked) for it in registry.releases[name]])
        else:
            sentence = unpublished(name, published)
        if ";" in sentence:
            yield sentence[0].upper() + sentence[1:] + "." * (not sentence.endswith("?"))


class Case:
    """`registry` answers one in Python with some packages, `ask` asks the program, `put` puts what no request asks."""

    def __init__(self, request: Object, reply: Reply | None, registry: RegistryOf, ask: Ask | None,
                 names: Collection[str] = (), told: str = "", put: Put | None = None) -> None:
        self.request: Request = {"op": "resolve", "needs": request["needs"], "lock": request.get("lock", [])}
        self.registry, self.ask, self.put, self.names, self.told = registry, ask, put, names, told
        self.reply = reply or self.again()
        self.refuted: Derivation | None = None  # the derivation that was told
        # once it was told: what draws it, a derivation with all of its lines or folded
        self.draw: Callable[[bool], str] | None = None

    @property
    def revision(self) -> int:
        return self.reply["revision"]

    def title(self) -> str:
        return self.told + told_needs(self.request["needs"])

    def again(self, question: Question | None = None, lock: Pairs | None = None) -> Reply:
        explained: Request = {"explain": True}
        request = (question.request if question else self.request) | explained
        if lock is not None:
            request["lock"] = lock
        if question is None or question.is_plain():
            assert self.ask
            reply = self.ask(request)
        else:
            assert self.put
            reply = self.put(question, request)
        if "error" in reply:
            raise Refused(f"{self.title()}: {english(request, reply, dict)}", reply)
        return reply

    def answer(self) -> list[str]:
        if "selected" in self.reply:
            return self.selection(f"{self.title()}: selected at revision {self.revision}", self.selected())
        return self.refusal(f"{self.title()}: refused at revision {self.revision}", self.request, self.reply)

    def selected(self) -> dict[str, str]:
        has_form = formed(self.reply["selected"], PAIRS)
        demand(has_form, f"{self.title()}: the reply has no selection of the right form", Refused)
        return dict(self.reply["selected"])

    def selection(self, title: str, selected: Mapping[str, str]) -> list[str]:
        def draw(_: bool) -> str:
            from .drawing import draw_selection  # which is loaded only where a picture is wanted
            return draw_selection(self.registry(selected), self.request, selected, title)

        self.draw = draw
        return [title, *(f"  {name} {version}" for name, version in selected.items())]

    def derivation(self, title: str, request: Request, reply: Reply, asked: tuple[str, str] | None = None,
                   held: Mapping[str, str] | None = None) -> Derivation:
        rows = reply.get("derivation") or self.again().get("derivation")
        if not rows:
            raise Refused(f"{title}: asked again, the program answers a selection")
        try:
            return Derivation(self.registry(named(request, rows)), request, rows, asked, self.names, held)
        except Fault as fault:
            raise Refused(f"{title}: the derivation does not follow: {fault}") from None

    def refusal(self, title: str, request: Request, reply: Reply, asked: tuple[str, str] | None = None,
                failed: str = FAILED) -> list[str]:
        return self.english(self.derivation(title, request, reply, asked), title, failed)

    def english(self, derivation: Derivation, title: str, failed: str) -> list[str]:
        self.refuted = derivation

        def draw(is_unfolded: bool) -> str:
            from .drawing import MOST_SHOWN, draw_derivation
            return draw_derivation(derivation, title, failed, math.inf if is_unfolded else MOST_SHOWN)

        self.draw = draw
        return [title, *("  " + it if it else "" for it in (*Telling(derivation, failed).lines(), *hints(derivation)))]

    # ---- why a version is not what was selected

    def why_not(self, name: str, version: str) -> list[str]:
        registry = self.registry([name])
        release = registry.find(name, version)
        held = [(it.text, it.yanked) for it in registry.releases.get(name, ())]
        if release is None:
            packages = {name: held} if held else dict.fromkeys(self.names, held)
            raise Refused(not_there({"name": name, "version": version}, packages))
        if "selected" not in self.reply:
            return self.answer()
        selected, needs = self.selected(), dict(self.request["needs"])
        if name in selected and precedence(selected[name]) == release.version:
            return [f"{name} {selected[name]} is what was selected"]
        if name in needs and not admits(needs[name], release.version):
            return [f"{name} {release.text} can't be selected: the request depends on {name} {needs[name]}"]
        return self.with_version(name, release.text, selected)

    def with_version(self, name: str, text: str, selected: Mapping[str, str]) -> list[str]:
        question, title = Question(self.request, {name: text}), self.title()
        failed = f"{name} {text} can't be selected"
        reply = self.again(question)
        if "selected" not in reply:
            return self.refusal(f"{title}: {failed}", question.request, reply, (name, text), failed)
        other = self.nearest(question, selected, reply)
        further = ["  " + it for it in changes(selected, other) if it.split()[1] != name]
        forbidden = self.forbidden(name, text, self.before(name, text, selected), failed)
        if forbidden:
            return [*forbidden, f"a selection with {name} {text} also changes:", *further]
        lines = [f"{name} {text} can be selected; {self.instead(name, text, selected)}",
                 "a selection with it also changes:" if further else "a selection with it changes nothing else"]
        self.request = question.request
        self.selection(f"{title}: a selection with {name} {text}", other)
        return [*lines, *further]

    def before(self, name: str, text: str, selected: Mapping[str, str]) -> dict[str, str]:
        """What comes before a package in the walk, where this version would be preferred to the selected one."""
        if name not in selected or not is_preferred(text, selected[name], dict(self.request["lock"]).get(name)):
            return {}
        order = walk(self.request["needs"], selected, self.registry(selected))
        return {it: selected[it] for it in order[:order.index(name)]}

    def forbidden(self, name: str, text: str, before: Mapping[str, str], failed: str) -> list[str]:
        """Which of the versions that come before rule this one out, and why; nothing where they leave it."""
        question = Question(self.request, {**before, name: text})
        if not before:
            return []
        reply = self.again(question)
        if "selected" in reply:
            return []
        derivation = self.derivation(self.title(), question.request, reply, (name, text), before)
        used = {fact.held for step in derivation.reached() for fact in step.facts()}
        told = [f"{it} {version}" for it, version in before.items() if it in used]
        come = f"which come{'s' * (len(told) == 1)} before it"
        return self.english(derivation, f"{self.title()}: {failed} with {listed(told, 'and')}, {come}", failed)

    def nearest(self, question: Question, selected: Mapping[str, str], reply: Reply) -> dict[str, str]:
        """A selection for a question that keeps what was selected where it may, else the one of a reply."""
        kept = {**dict(self.request["lock"]), **selected}
        if len(kept) <= MOST_LOCK_LINES:
            reply = reply | self.again(question, [list(it) for it in kept.items()])
        return dict(reply["selected"])

    def instead(self, name: str, text: str, selected: Mapping[str, str]) -> str:
        if name not in selected:
            return f"no version of {name} was selected, since nothing that was selected needs one"
        chosen, locked = selected[name], dict(self.request["lock"]).get(name)
        one, other = precedence(chosen), precedence(text)
        is_locked = locked and precedence(locked) == one
        how = "which the lock names" if is_locked else "which is " + ("higher" if one > other else "lower")
        return f"{name} {chosen} was selected, {how}"


# ---- as people read it: in colour where there is some, and of a long one no more than fits on a screen

def tell(case: Case, lines: list[str], stream: TextIO, is_full: bool, remedy: str) -> None:
    """Prints an explanation; unless all of it is wanted, no more than a screenful, and how to see the rest."""
    kept = lines if is_full else shortened(lines, *room(stream))
    output.write(stream, coloured(kept, case, stream))
    if kept is not lines:
        output.Output.note(f"{len(lines) - len(kept) + 1:,} of {len(lines):,} lines are left out: {remedy}")


def room(stream: TextIO) -> tuple[int, int]:
    """How many lines an explanation may have on a stream, and how wide they are; 0 where that is not known."""
    columns, lines = output.size(stream)
    return max(LEAST, min(SCREENFUL, lines - 4)) if lines else SCREENFUL, columns


def shortened(lines: list[str], most: int, columns: int) -> list[str]:
    """The first line, and as many of the last ones as there is room for: a refusal ends with what it comes to."""
    def rows(line: str) -> int:
        return output.wrapped(output.visible(line), columns).count("\n") + 1
    if sum(map(rows, lines)) <= most:
        return lines
    left, at = most - rows(lines[0]) - 1, len(lines)
    while at > 1 and rows(lines[at - 1]) <= left:
        at -= 1
        left -= rows(lines[at])
    kept = lines[at:]
    return [lines[0], "  ..", *kept[kept[:1] == [""]:]]


def coloured(lines: list[str], case: Case, stream: TextIO) -> list[str]:
    """The lines of a refusal with the names of packages in bold, and in red what nothing published meets."""
    derivation = case.refuted
    if derivation is None or not output.is_coloured(stream):
        return lines
    unmet = []
    for name, requirement in derivation.lacking():
        package, matched = re.escape(name), f'"?{re.escape(requirement)}"?'
        unmet += [f"{package} {matched}", f"[Nn]o version of {package} (?:matches {matched}|is published)"]
    concluded = (name for step in derivation.reached() for name in step.terms if name)
    names = {*dict(case.request["needs"]), *concluded} - WORDS
    red = f"(?P<red>refused(?= at revision)|{'|'.join(unmet) or '(?!)'})"
    bold = "|".join(map(re.escape, names)) or "(?!)"
    found = re.compile(rf"(?<![\w.+-])(?:{red}|{bold})(?![\w.-]*\w)")

    def styled(match: re.Match[str]) -> str:
        return output.style(match[0], stream, *(("bold", "red") if match["red"] else ("bold",)))

    return [found.sub(styled, line) for line in lines]
