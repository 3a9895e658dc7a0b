"""What long runs share: seeds that are tried side by side, and what is found."""
import argparse
import multiprocessing
import os
import tempfile
import time
from collections.abc import Callable, Iterator, Sequence
from typing import Any

from tests.support import program, said


class Find(Exception):
    """What is found."""


def demand(holds: object, what: str) -> None:
    if not holds:
        raise Find(what)


def seed_tried(seed: int, try_in: Callable[[str], Sequence[Any]], counts: Sequence[Any],
               faults: tuple[type[Exception], ...] = (Find,)) -> tuple[Any, ...]:
    """What is counted where a seed is tried in a folder of its own, and None; else these counts, and the find."""
    with tempfile.TemporaryDirectory() as folder:
        try:
            return *try_in(folder), None
        except faults as find:
            return *counts, f"seed {seed}: {find}"


class Run:
    """Tries seeds side by side, and prints what is found. Its options are the program that is tried, and numbers with
    their usual values: the first one says how many seeds there are."""

    def __init__(self, description: str | None, words: Sequence[str], **usual: int) -> None:
        parser = argparse.ArgumentParser(description=description, formatter_class=argparse.RawDescriptionHelpFormatter)
        for name, number in {"seed": 1, **usual, "jobs": os.cpu_count()}.items():
            parser.add_argument(f"--{name}", type=int, default=number)
        parser.add_argument("--program", default=program.PROGRAM)
        chosen = parser.parse_args(words)
        program.PROGRAM, self.chosen, self.count = chosen.program, chosen, getattr(chosen, next(iter(usual)))
        self.begun, self.finds, said.is_noting = time.monotonic(), 0, False

    def each(self, tried: Callable[..., tuple[Any, ...]], seeds: int | None = None) -> Iterator[list[Any]]:
        """What is counted of each seed, of so many or all."""
        first = self.chosen.seed
        with multiprocessing.get_context("fork").Pool(self.chosen.jobs) as pool:
            for *counts, find in pool.imap_unordered(tried, range(first, first + (seeds or self.count))):
                for text in [find] if isinstance(find, str) else find or ():
                    self.finds += 1
                    print(text, flush=True)
                yield counts

    def totals(self, tried: Callable[..., tuple[Any, ...]], seeds: int | None = None) -> list[Any]:
        return [sum(column) for column in zip(*self.each(tried, seeds))]

    def end(self, counted: str, more: str = "") -> int:
        """Prints what was counted in all; answers the exit status."""
        print(f"{counted} in {time.monotonic() - self.begun:.0f} s{more}; {self.finds} finds")
        return int(self.finds > 0)
