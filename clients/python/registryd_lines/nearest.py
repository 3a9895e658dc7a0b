"""The name that was probably meant by one that is not there."""
from __future__ import annotations

from collections.abc import Iterable


def nearest(word: str, words: Iterable[str], most: int = 2) -> str | None:
    """Of the words the one that is fewest edits away: a letter put in, left out or replaced, or two neighbours swapped.
    Capitals don't count. None where each takes more than `most` edits, or more than a third of the letters; of several
    the first in alphabetical order."""
    asked = word.lower()
    allowed = min(most, max(len(asked), 3) // 3)
    letters = set(asked)
    found: tuple[int, str] | None = None
    for other in words:
        # most words are ruled out by their length or their letters: an edit changes at most two of those
        if abs(len(other) - len(asked)) > allowed or len(letters.symmetric_difference(other.lower())) > 2 * allowed:
            continue
        edits = distance(asked, other.lower(), allowed)
        if edits <= allowed and (found is None or (edits, other) < found):
            allowed, found = edits, (edits, other)
    return found[1] if found else None


def distance(one: str, other: str, most: int) -> int:
    """How many edits lead from one word to the other; a number above `most` where it takes more than that."""
    one, other = apart(one, other)
    one, other = (rest[::-1] for rest in apart(one[::-1], other[::-1]))
    beyond = most + 1
    before: list[int] = []
    row = list(range(len(other) + 1))
    for place, letter in enumerate(one, 1):
        earlier, before, row = before, row, [place] + [beyond] * len(other)
        # so many edits lead no further apart
        for at in range(max(1, place - most), min(len(other), place + most) + 1):
            another = other[at - 1]
            row[at] = min(before[at] + 1, row[at - 1] + 1, before[at - 1] + (letter != another))
            if place > 1 and at > 1 and letter == other[at - 2] and another == one[place - 2]:
                row[at] = min(row[at], earlier[at - 2] + 1)
        if min(row) > most and min(before) > most:
            return beyond
    return row[-1]


def apart(one: str, other: str) -> tuple[str, str]:
    """Two words without the beginning that they share."""
    shared = min(len(one), len(other))
    place = next((place for place in range(shared) if one[place] != other[place]), shared)
    return one[place:], other[place:]
