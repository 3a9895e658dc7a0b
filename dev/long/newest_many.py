"""Judges what the program selects, of small random registries, by a list of all selections.

    python3 -m dev.long.newest_many --cases 20000    so many cases; seeds are counted from --seed
    python3 -m dev.long.newest_many --seed 17        one case again

Each registry has packages that stand in each other's way, pre-releases, build metadata and yanks, and its request a
lock, as likely as not. The request is asked alone, and once more behind others of the same registry, by several
workers: the reply may not hang on what was asked before. Status 1 where anything is found; each find is told with its
seed."""
import argparse
import json
import random
import sys
from collections.abc import Callable, Iterable
from typing import Any

from dev.long import fuzz
from tests.support.plain_newest import Published
from tests.support.small_registries import Maker

AT_ONCE = 100  # cases of one session

Serve = Callable[[list[Any], int], list[str]]


def serve(lines: Iterable[object], workers: int = 1) -> list[str]:
    return fuzz.run([json.dumps(line).encode() for line in lines], workers=workers)


def renamed(value: dict[str, Any], number: int) -> dict[str, Any]:
    """A command or a request of packages that no other case of the session names."""
    made = dict(value)
    for member in ("needs", "lock"):
        if member in made:
            made[member] = [[f"{name}-{number}", text] for name, text in made[member]]
    if "name" in made:
        made["name"] = f"{made['name']}-{number}"
    return made


def wanted(commands: Iterable[object], request: dict[str, Any]) -> Any:
    registry = Published()
    for command in commands:
        registry.apply(command)
    return registry.newest(request["needs"], request.get("lock", []))


def case_of(seed: int) -> tuple[list[Any], list[Any], dict[str, Any]]:
    """The commands of a case, requests of it that are asked first, and the request that is judged."""
    maker = Maker(random.Random(seed))
    commands = maker.commands()
    return commands, [maker.request() for _ in range(3)], maker.request()


def selected(text: str, number: int) -> Any:
    """What a reply selects, by the names of its case; none where it refuses."""
    reply = json.loads(text)
    if "selected" not in reply:
        return None if reply.get("refused") is True else reply
    return sorted([name.removesuffix(f"-{number}"), version] for name, version in reply["selected"])


def asked_in(seeds: Iterable[int], others: bool, workers: int, serve: Serve) -> list[Any]:
    """What each case's request is answered, in one session; behind others or alone."""
    lines: list[Any] = []
    places = []
    for number, seed in enumerate(seeds):
        commands, before, request = case_of(seed)
        lines += [renamed(line, number) for line in [*commands, *(before if others else []), request]]
        places.append(len(lines) - 1)
    replies = serve(lines, workers)
    return [selected(replies[place], number) for number, place in enumerate(places)]


def faults(seeds: Iterable[int], serve: Serve = serve) -> list[str]:
    """What is told of each case that is not answered by the newest selection, by the program or what serves for it."""
    found, seeds = [], list(seeds)
    for first in range(0, len(seeds), AT_ONCE):
        some = seeds[first:first + AT_ONCE]
        ways = [asked_in(some, others, workers, serve) for others, workers in ((False, 1), (True, 1), (True, 4))]
        for seed, *answers in zip(some, *ways):
            commands, _, request = case_of(seed)
            right = wanted(commands, request)
            found += [f"seed {seed}, {way}: {answer} is answered, and {right} is the newest"
                      for way, answer in zip(("alone", "behind others", "by four workers"), answers)
                      if answer != right]
    return found


def main() -> int:
    parser = argparse.ArgumentParser(description=(__doc__ or "").splitlines()[0])
    parser.add_argument("--cases", type=int, default=1, help="how many cases are judged (1)")
    parser.add_argument("--seed", type=int, default=0, help="the seed of the first (0)")
    chosen = parser.parse_args()
    found = faults(range(chosen.seed, chosen.seed + chosen.cases))
    print("\n".join([*found, f"{chosen.cases} cases, {len(found)} finds"]))
    return 1 if found else 0


if __name__ == "__main__":
    sys.exit(main())
