"""What follows where requests are answered by their newest selections, each as a judge of whatever answers lines: of
the program, and of what is wrong on purpose. A judge answers what it found, as texts; nothing where all is as it should
be.

What answers is called with lines, as values, and a number of workers, and answers reply lines."""
import json
import random
from collections.abc import Callable, Iterable
from typing import Any

from tests.support.small_registries import Maker

# Answered by itself, so that what stands before it is answered, and learnt of, before what follows.
NO_REQUEST = {"op": "end of a batch"}
WORKERS = (1, 1, 2, 3, 4, 8)


def bodies(replies: Iterable[str]) -> list[str]:
    """What replies say, without the revision."""
    return [json.dumps({name: it for name, it in json.loads(reply).items() if name != "revision"}) for reply in replies]


def selected(reply: str) -> Any:
    return json.loads(reply).get("selected")


def orders(commands: list[Any], requests: list[Any], serve: Callable[[list[Any], int], list[str]], ways: int = 100,
           seed: int = 0) -> list[str]:
    """The same requests in so many ways: in other orders, cut into batches elsewhere, by other numbers of workers, each
    alone or some of them, behind requests that are none of them. Each has the same reply, byte for byte."""
    rng, first, found = random.Random(seed), dict[int, str](), []
    for way in range(ways):
        asked = list(range(len(requests)))
        if way:
            rng.shuffle(asked)
            asked = asked[:rng.choice([1, 3, len(asked), len(asked)])]
        lines, places = list(commands), {}
        for number in asked:
            lines += [NO_REQUEST] * (rng.random() < 0.3) + ([rng.choice(requests)] if rng.random() < 0.3 else [])
            places[number] = len(lines)
            lines.append(requests[number])
        replies = serve(lines, WORKERS[way % len(WORKERS)])
        for number, place in places.items():
            reply = first.setdefault(number, replies[place])
            if replies[place] != reply:
                found.append(f"way {way}, request {number}: {replies[place]} is answered, and {reply} was before")
    return found


def case_of(seed: int) -> tuple[list[Any], Any]:
    maker = Maker(random.Random(seed))
    return maker.commands(), maker.request()


def yanks(seeds: Iterable[int], serve: Callable[[list[Any], int], list[str]]) -> list[str]:
    """A yank of a version that is not selected changes nothing, nor does it where the yank is undone."""
    found = []
    for seed in seeds:
        commands, request = case_of(seed)
        (*_, before) = serve([*commands, request], 1)
        if selected(before) is None:
            continue
        published, yanked = ({(it["name"], it["version"]) for it in commands if it["op"] == op}
                             for op in ("publish", "yank"))
        others = sorted(published - yanked - {(name, version) for name, version in selected(before)})
        for name, version in random.Random(seed).sample(others, min(2, len(others))):
            yank = {"op": "yank", "name": name, "version": version}
            replies = serve([*commands, request, yank, request, {**yank, "op": "unyank"}, request], 1)
            told = bodies([replies[len(commands)], *replies[len(commands) + 2::2]])
            found += [f"seed {seed}: {it} is answered where {name} {version} is yanked, and {told[0]} was before"
                      for it in told if it != told[0]]
    return found


def publications(seeds: Iterable[int], serve: Callable[[list[Any], int], list[str]]) -> list[str]:
    """A publication changes the answer to a selection that has the new version, and to no other."""
    found = []
    for seed in seeds:
        commands, request = case_of(seed)
        commands = [it for it in commands if it["op"] == "publish"]
        *before, last = commands
        replies = serve([*before, request, last, request], 1)
        earlier, later = replies[len(before)], replies[-1]
        if bodies([earlier]) != bodies([later]) and [last["name"], last["version"]] not in (selected(later) or []):
            found.append(f"seed {seed}: {later} is answered where {last['name']} {last['version']} came, and {earlier} "
                         "was before")
    return found
