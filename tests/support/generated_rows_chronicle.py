"""Tables of `chronicle` that would be too large to be kept: each public function makes some.

A table is a title and its rows; a row's member `gives` is the wanted answer. A stamp is a place and a revision."""

from collections.abc import Iterator, Sequence
from typing import Any

from registry_cli.limits import MOST_CELLS
from tests.support.generated_rows import row, tables

SEGMENT = 256  # cells that are made together


def publish(version: str, name: str = "a") -> list[Any]:
    return ["publish", {"name": name, "version": version, "needs": []}]


def steps_of_two(title: str, steps: list[Any], gives: list[Any], capacity: int,
                 seats: Sequence[int] = (1, 2)) -> tuple[str, list[Any]]:
    """A table of one row of two seats, whose steps are to give this."""
    return title, [row("chronicle", "steps", gives, capacity=capacity, seats=[*seats], steps=steps)]


@tables
def a_row_that_ends_behind_a_segment() -> Iterator[tuple[str, list[Any]]]:
    """Each cell of a row of 257 takes an entry, the first cell of its second segment too, and then none does."""
    steps = [[1, *publish(f"1.0.{number}")] for number in range(SEGMENT + 1)]
    gives: list[Any] = [[place, place] for place in range(1, SEGMENT + 2)]
    steps += [[1, *publish("1.1.0")], [1, *publish("1.0.7")], [1, "place"],
              [1, "resolve", {"needs": [["a", "^1"]], "lock": []}]]
    gives += [{"refused": 10}, {"refused": 7}, SEGMENT + 1, {"at": [SEGMENT + 1] * 2, "selected": [["a", "1.0.256"]]}]
    yield steps_of_two("A row of 257 cells takes 257 entries", steps, gives, SEGMENT + 1)


@tables
def seats_that_meet_behind_a_segment() -> Iterator[tuple[str, list[Any]]]:
    """Two seats enter by turns, so that each makes a segment that the other looks at, and a mark carries one over a
    segment that it has not seen."""
    last = 2 * SEGMENT + 2
    # the seat that makes a segment is the first for one and the second for the other
    steps = [[1 if place % 3 else 2, *publish(f"1.{place}.0")] for place in range(1, last + 1)]
    steps += [[1, "mark"], [2, "meet"], [2, "place"], [2, "resolve", {"needs": [["a", "*"]], "lock": []}], ["agree"]]
    gives = [*([place, place] for place in range(1, last + 1)), last, None, last,
             {"at": [last, last], "selected": [["a", f"1.{last}.0"]]}, None]
    yield steps_of_two("Two seats agree over three segments", steps, gives, 4 * SEGMENT)


@tables
def a_row_of_257_entries() -> Iterator[tuple[str, list[Any]]]:
    """The rules of a row: each accepted command stands once, at the place that its seat was told."""
    answers: list[Any] = []
    steps, journal, serials = [], [], {1: 0, 2: 0}
    for place in range(1, 258):
        # a seat enters one or two in a row, so that the other one has to look first
        seat = 1 + place * 2 // 3 % 2
        serials[seat] += 1
        steps.append([seat, *publish("1.0.0", f"p{place}")])
        answers.append([place, place])
        journal.append([seat, serials[seat], ["publish", f"p{place}", "1.0.0", []]])
    more = publish("1.0.0", "q")
    steps += [[1, *more], [2, *more], [1, "journal"], [2, "journal"], [2, "mark"], [1, "meet"],
              [1, "revision"], ["agree"]]
    answers += [{"refused": 10}, {"refused": 10}, journal, journal, 257, None, 257, None]
    yield steps_of_two("257 commands of two seats fill a row, and both have one journal", steps, answers, 257)


@tables
def marks_where_a_segment_ends() -> Iterator[tuple[str, list[Any]]]:
    """A seat that meets a mark has seen just what the mark stands for; cells are made 256 at a time."""
    for many in (255, 256, 257, 511, 512, 513):
        steps = [*([1, *publish("1.0.0", f"p{place}")] for place in range(1, many + 1)), [1, "mark"],
                 [1, *publish("1.0.0", f"p{many + 1}")],
                 [2, "place"], [2, "meet"], [2, "place"], [2, "catch_up"], [2, "revision"], ["agree"]]
        gives = [*([n, n] for n in range(1, many + 1)), many, [many + 1, many + 1], 0, None, many, None, many + 1, None]
        yield steps_of_two(f"a mark of {many} entries is met by a seat that has seen nothing", steps, gives,
                           many + 1, (3, 1))


@tables
def a_row_of_all_its_places() -> Iterator[tuple[str, list[Any]]]:
    """The rules of a row: a seat's command stands after all that either seat entered, up to the last of its places.
    Of one version each yank and each undoing of it is accepted in turn, so an entry that was missed would be told."""
    version, first = {"name": "a", "version": "1.0.0"}, publish("1.0.0")
    # 100 places in a row are one seat's, so that now the one and now the other comes first to a segment
    steps = [[1, *first], *([1 + place // 100 % 2, "unyank" if place % 2 else "yank", version]
                            for place in range(2, MOST_CELLS + 1))]
    steps[-1:] = [[2, "place"], steps[-1], [1, "unyank", version], [2, *first],
                  [2, "mark"], [1, "meet"], [1, "place"], [1, "revision"], ["agree"]]
    gives = [*([place, place] for place in range(1, MOST_CELLS)), MOST_CELLS - 1, [MOST_CELLS, MOST_CELLS],
             {"refused": 10}, {"refused": 7}, MOST_CELLS, None, MOST_CELLS, MOST_CELLS, None]
    yield steps_of_two(f"two seats fill a row of {MOST_CELLS:,} places", steps, gives, MOST_CELLS)
