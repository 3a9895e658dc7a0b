"""Tables of the store of what was learnt that would be too large to be kept: each public function makes some.

A table is a title and its rows; a row's member `gives` is what the call is wanted to answer. What was learnt is stored
by a seat."""
from collections.abc import Iterator
from typing import Any

from registry_cli.limits import MOST_STORED
from tests.support.generated_rows import pairs, premise, row, tables


class Steps:
    """Steps of one seat, with what each is to give. Each entry takes a place, a command raises the revision."""

    def __init__(self) -> None:
        self.steps, self.gives, self.place, self.revision = list[list[Any]](), list[Any](), 0, 0

    def step(self, name: str, gives: Any, *given: Any) -> None:
        self.steps.append([1, name, *given])
        self.gives.append(gives)

    def enter(self, kind: str, given: dict[str, Any], refused: dict[str, int] | None = None) -> None:
        if not refused:
            self.place += 1
            self.revision += kind != "learn"
        self.step(kind, refused or [self.place, self.revision], given)

    def publish(self, name: str, version: str, *needs: str) -> None:
        self.enter("publish", {"name": name, "version": version, "needs": pairs(needs)})

    def learn(self, line: dict[str, Any], refused: dict[str, int] | None = None) -> None:
        self.enter("learn", {"lines": [line]}, refused)

    def rows(self) -> list[dict[str, Any]]:
        return [row("chronicle", "steps", self.gives, capacity=8192, seats=[1, 2], steps=self.steps)]


def _line(*within: int) -> dict[str, Any]:
    """That a needs b, and b needs c: b is package 2 and c is package 3."""
    return {"conclusion": [[1, {"in": [0]}], [3, {"not": list(within)}]],
            "causes": [premise(1, 2, [0]), premise(2, 3, list(within))], "pivot": 2}


def _own_line(k: int, *within: int) -> dict[str, Any]:
    """A member that rests on a package of its own, 2k + 5, which package 2k + 4 needs."""
    fact = premise(2 * k + 4, 2 * k + 5, list(within))
    conclusion = [[2 * k + 4, {"in": [0]}], [2 * k + 5, {"not": list(within)}]]
    return {"conclusion": conclusion, "causes": [fact, fact], "pivot": 2 * k + 5}


def _chain() -> Steps:
    """a needs b, b needs c, each ^1."""
    steps = Steps()
    for line in (("a", "1.0.0", "b ^1.0.0"), ("b", "1.0.0", "c ^1.0.0"), ("c", "1.0.0")):
        steps.publish(*line)
    return steps


@tables
def a_seat_stores_at_most_4096() -> Iterator[tuple[str, list[dict[str, Any]]]]:
    """A learnt entry takes a place and raises no revision."""
    steps = _chain()
    for k in range(1, MOST_STORED + 1):
        steps.learn(_line(0, k))
    steps.learn(_line(0, MOST_STORED + 1), refused={"refused": 16})
    steps.learn(_line(0, 1), refused={"refused": 15})
    steps.publish("c", "1.1.0")
    steps.step("stored", [])
    steps.learn(_line(0, 1))
    steps.learn(_line(0, 2), refused={"refused": 14})
    steps.step("stored", [_line(0, 1)["conclusion"]])
    yield "A seat stores 4,096, and a publication that all rest on drops them all", steps.rows()


@tables
def members_go_and_come_one_by_one() -> Iterator[tuple[str, list[dict[str, Any]]]]:
    """Each member rests on a package of its own, and is found by it, also once others have gone."""
    count, steps = 1024, _chain()
    for k in range(count + 1):
        steps.publish(f"p{k}", "1.0.0", f"q{k} ^1.0.0")
        steps.publish(f"q{k}", "1.0.0")
    for k in range(count):
        steps.learn(_own_line(k, 0))
    steps.publish(f"q{count}", "1.1.0")
    steps.publish("q7", "1.1.0")
    steps.learn(_own_line(7, 0), refused={"refused": 14})
    steps.learn(_own_line(7, 0, 1))
    # three of four go, so that the empty places go too
    gone = [k for k in range(count) if k % 4 and k != 7]
    for k in gone:
        steps.publish(f"q{k}", "1.1.0")
    for k in range(0, count, 4):
        steps.learn(_own_line(k, 0), refused={"refused": 15})
    steps.learn(_own_line(gone[0], 0, 1))
    # where the others have moved to, they are found, and none in the place of one that went
    steps.publish("q8", "1.1.0")
    for k, within in ((4, (0,)), (7, (0, 1)), (8, None), (9, None), (32, (0,)), (gone[0], (0, 1)), (1020, (0,))):
        steps.step("named", [_own_line(k, *within)["conclusion"]] if within else [], 2 * k + 5)
    yield "Members go one by one, and others come in their place", steps.rows()
