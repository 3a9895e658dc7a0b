"""What each line of a session may be answered, whatever the line is: the rules once more, put together of the plain
readers that stand beside. It shares nothing with the program."""
import json
import math
import re
from functools import lru_cache
from typing import Any

from registry_cli import check_derivation
from registry_cli.check_derivation import CAUSES, COMMANDS, LINE, PAIRS, RESOLVE, ROOT, formed
from registry_cli.limits import MOST_LINE_BYTES, MOST_NEEDS
from tests.support import plain_search
from tests.support.reference import NAME, Registry, precedence

MOST_DEPTH = 127
MOST_TRIES = 500
BRACKETS = re.compile(r"[\[\]{}]")
STRING = re.compile(r'"(?:[^"\\]|\\.)*"')
FORMS: dict[Any, dict[str, Any]] = {form["op"]: form for form in COMMANDS} | {
    "list": {"op": "list"}, "resolve": RESOLVE,
    "check": {"op": "check", "needs": PAIRS, "lock": PAIRS, "derivation": [LINE]}}
LEFT_OUT: dict[str, dict[str, Any]] = {"resolve": {"lock": [], "explain": False, "budget": 0}, "check": {"lock": []}}


# ---- JSON

def whole(text: str) -> float:
    """An integer, or a number with a fraction where it has more than 64 bits, or is `-0`."""
    number = int(text) if len(text) < 400 else float(text)
    return number if isinstance(number, int) and -2 ** 63 <= number < 2 ** 64 and text != "-0" else finite(text)


def finite(text: str) -> float:
    number = float(text)
    if number in (float("inf"), float("-inf")):
        raise ValueError(text)
    return number


def refuse(text: str) -> None:
    raise ValueError(text)


def members(pairs: list[tuple[str, Any]]) -> dict[str, Any]:
    for name, value in pairs:
        sound(name)
        sound(value)
    return dict(pairs)


def sound(value: Any) -> None:
    """No text in it has half of a pair of surrogates."""
    if isinstance(value, list):
        for it in value:
            sound(it)
    elif isinstance(value, str) and any("\ud800" <= it <= "\udfff" for it in value):
        raise ValueError(value)


# Made once: to make one takes as long as to read a line.
READ = {hook: json.JSONDecoder(parse_int=whole, parse_float=finite, parse_constant=refuse,
                               object_pairs_hook=hook).decode for hook in (None, members)}


def depth(text: str) -> int:
    """How deep brackets nest in a text that is JSON; no deeper than there are any that open."""
    deep, most = 0, text.count("[") + text.count("{")
    if most <= MOST_DEPTH:
        return most
    most = 0
    for it in BRACKETS.findall(STRING.sub("", text)):
        deep += 1 if it in "[{" else -1
        most = max(most, deep)
    return most


def read_json(line: bytes) -> Any:
    """The value of a line, none where it is no JSON."""
    try:
        text = line.decode()
        # only an escape can be half of a pair of surrogates
        hook = members if "\\u" in text else None
        value = READ[hook](text)
        if hook:
            sound(value)
        return value if depth(text) <= MOST_DEPTH else None
    except (ValueError, RecursionError, OverflowError):
        return None


# ---- lines

def read_request(line: bytes) -> dict[str, Any] | None:
    """What a line asks, with what it leaves out; none where it is of no form."""
    value = read_json(line) if len(line) <= MOST_LINE_BYTES else None
    op = value.get("op") if isinstance(value, dict) else None
    if not isinstance(op, str) or op not in FORMS:
        return None
    asked = {**LEFT_OUT.get(op, {}), **value}
    if not formed(asked, FORMS[op]) or not all(map(named_well, asked.get("derivation", []))):
        return None
    # whether a budget was named decides whether it may be spent
    return {**asked, "budgeted": "budget" in value}


def is_whose(name: str) -> object:
    return name == ROOT or NAME.fullmatch(name)


def kind_of(cause: Any) -> Any:
    """The kind that a cause would be of, if it is of any."""
    kind = "line" if "line" in cause else cause.get("fact")
    return kind if isinstance(kind, str) and kind in CAUSES else None


def named_well(row: Any) -> bool:
    """Whether the causes of a derivation's line are of a form, and its names are such."""
    if not all(kind_of(cause) and formed(cause, CAUSES[kind_of(cause)]) for cause in row["causes"]):
        return False
    whose = [row["pivot"], *(name for name, _, _ in row["conclusion"]),
             *(it["target"] for it in row["causes"] if "target" in it)]
    return all(map(is_whose, whose)) and all(NAME.fullmatch(it["name"]) for it in row["causes"] if "name" in it)


@lru_cache(maxsize=None)
def is_requirement(text: str) -> bool:
    return check_derivation.read_requirement(text) is not None


class Requirements:
    """All requirements there are."""

    def __contains__(self, text: Any) -> bool:
        return is_requirement(text)


@lru_cache(maxsize=100_000)
def admits(requirement: str, version: str) -> bool:
    return check_derivation.admits(requirement, check_derivation.precedence(version))


class Published(plain_search.Published):
    """What was published, under requirements of any form."""

    matches = staticmethod(admits)

    def is_lawful(self, selected: Any, needs: Any, lock: Any) -> bool:
        """Whether a selection meets a request, and has no more than that needs."""
        chosen = {}
        for name, text in selected:
            rows = [row for row in self.allowed(name, lock) if row[0] == text]
            if not rows:
                return False
            chosen[name] = rows[0]
        met = all(self.is_met(chosen, asked) for asked in [needs, *(row[1] for row in chosen.values())])
        in_order = list(chosen) == sorted(chosen) and len(chosen) == len(selected)
        return met and in_order and self.reached(chosen, needs) == set(chosen)

    def is_met_by_some(self, needs: Any, lock: Any) -> bool | None:
        """Whether a selection meets a request, where that takes few tries; unknown elsewhere, which is none."""
        names, left = set(), [name for name, _ in needs]
        while left:
            name = left.pop()
            if name in self.versions and name not in names:
                names.add(name)
                left += [target for _, asked in self.allowed(name, lock) for target, _ in asked]
        tries = math.prod(1 + len(self.allowed(name, lock)) for name in names)
        return bool(self.selections(needs, lock, names)) if tries <= MOST_TRIES else None


class PlainSession:
    """One session, as far as its lines were judged."""

    def __init__(self) -> None:
        self.registry, self.published, self.judged = Registry(), Published(), check_derivation.Registry()
        self.accepted: list[dict[str, Any]] = []  # the commands, in order
        self.answered: dict[object, bool] = {}  # by what was asked at which revision: whether a selection was answered

    def fault(self, line: bytes, reply: str) -> str | None:
        """What is wrong with the reply to a line; nothing where it may be answered so."""
        asked = read_request(line)
        if asked is None:
            return self.exactly(reply, self.refused(19))
        if asked["op"] in ("resolve", "check"):
            number = self.refusal(asked)
            if number:
                return self.exactly(reply, self.refused(number))
            return self.checked(asked, reply) if asked["op"] == "check" else self.resolved(asked, reply)
        del asked["budgeted"]
        before = self.registry.revision
        wanted = self.registry.answer(asked, Requirements())
        if self.registry.revision > before:
            self.published.apply(asked)
            self.judged.obey(asked, {"ok": True})
            self.accepted.append(asked)
        return self.exactly(reply, wanted)

    def exactly(self, reply: str, wanted: str) -> str | None:
        return None if reply == wanted else f"wanted {wanted}"

    def refused(self, number: int) -> str:
        return self.registry.refused(number)

    def refusal(self, asked: Any) -> int | None:
        """The lowest number that a resolve or a check line is refused by."""
        needs, lock = asked["needs"], asked["lock"]
        premises = [it["need"] for row in asked.get("derivation", []) for it in row["causes"] if "need" in it]
        tests = [(1, not all(NAME.fullmatch(name) for name, _ in [*needs, *lock])),
                 (2, any(precedence(text) is None for _, text in lock)),
                 (3, not all(map(is_requirement, [*(text for _, text in needs), *premises]))),
                 (4, any(len({name for name, _ in pairs}) < len(pairs) for pairs in (needs, lock))),
                 (6, len(needs) > MOST_NEEDS)]
        return next((number for number, applies in tests if applies), None)

    def judge(self, asked: Any, kind: type[check_derivation.Judge] = check_derivation.Judge) -> check_derivation.Judge:
        return kind(self.judged,
                    {"op": "resolve", "needs": asked["needs"], "lock": asked["lock"], "explain": True, "budget": 0})

    def checked(self, asked: Any, reply: str) -> str | None:
        try:
            self.judge(asked).judge(asked["derivation"])
            follows = "true"
        except check_derivation.Fault:
            follows = "false"
        return self.exactly(reply, f'{{"follows":{follows},"revision":{self.registry.revision}}}')

    def resolved(self, asked: Any, reply: str) -> str | None:
        needs, lock, revision = asked["needs"], asked["lock"], self.registry.revision
        preferred = self.published.preferred_selection(needs, lock)
        if preferred is not None and self.published.is_lawful(preferred, needs, lock):
            return self.exactly(reply, self.told({"selected": preferred}))
        if asked["budgeted"] and reply == f'{{"error":22,"name":"BudgetSpent","revision":{revision}}}':
            return None
        found = read_json(reply.encode())
        if not isinstance(found, dict) or self.told(found) != reply:
            return "a reply of another form"
        # whatever was answered to this before is answered again
        question = (revision, repr(needs), repr(sorted(lock)))
        if self.answered.setdefault(question, "selected" in found) != ("selected" in found):
            return "the same was answered otherwise before"
        if "selected" in found:
            is_selection = set(found) == {"selected", "revision"} and formed(found["selected"], PAIRS)
            lawful = is_selection and self.published.is_lawful(found["selected"], needs, lock)
            return None if lawful else "this selection does not meet the request"
        if not asked["explain"]:
            is_met = self.published.is_met_by_some(needs, lock)
            return "a selection meets the request" if is_met else self.exactly(reply, self.told({"refused": True}))
        members = {"derivation", "explanation", "refused", "revision"}
        if set(found) != members or found["refused"] is not True or not formed(found["explanation"], [str]):
            return "a refusal of another form"
        try:
            self.judge(asked).judge(found["derivation"])
        except check_derivation.Fault as fault:
            return f"the derivation does not follow: {fault}"
        return None if len(found["explanation"]) == len(found["derivation"]) + 1 else "an explanation of other lines"

    def told(self, said: Any) -> str:
        return json.dumps({**said, "revision": self.registry.revision}, sort_keys=True, separators=(",", ":"),
                          ensure_ascii=False)
