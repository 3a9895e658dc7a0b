"""What benchmarks share: their options, files of lines, and sessions of the program."""
from __future__ import annotations

import argparse
import multiprocessing
import os
import subprocess
import sys
import threading
import time
from collections.abc import Iterable, Sequence
from dataclasses import dataclass
from typing import Any, BinaryIO

from bench.lines import publish_lines
from dev.building.programs import path_for_tests

PROGRAM = path_for_tests("registryd")


def parser(description: str | None, **numbers: int) -> argparse.ArgumentParser:
    """A parser of these options with their usual values, and of the program that is measured."""
    made = argparse.ArgumentParser(description=description, formatter_class=argparse.RawDescriptionHelpFormatter)
    for name, usual in numbers.items():
        made.add_argument(f"--{name}", type=int, default=usual)
    made.add_argument("--program", default=PROGRAM)
    return made


def write(path: str, lines: Iterable[str]) -> None:
    with open(path, "w", encoding="ascii") as out:
        out.writelines(line + "\n" for line in lines)


def write_publications(path: str, count: int) -> None:
    """Writes so many publish lines. A process of its own makes them: what a child starts with counts for its peak, so
    this one has to stay small."""
    make = multiprocessing.get_context("fork").Process(target=lambda: write(path, publish_lines(count)))
    make.start()
    make.join()


@dataclass
class Took:
    """What a session took: seconds, those of a processor, and kilobytes at its peak."""
    seconds: float
    processor: float
    peak: int


def session(program: str, given: str, *words: str, replies: BinaryIO | int = subprocess.DEVNULL) -> Took:
    """What a session takes for the lines of a file, replies included."""
    with open(given, "rb") as lines:
        start = time.perf_counter()
        running = subprocess.Popen([program, "serve", "--workers", "1", *words], stdin=lines, stdout=replies)
        _, status, used = os.wait4(running.pid, 0)
        spent = time.perf_counter() - start
    running.returncode = os.waitstatus_to_exitcode(status)
    if running.returncode:
        raise SystemExit(f"the program ended with {running.returncode}")
    return Took(spent, used.ru_utime + used.ru_stime, used.ru_maxrss)


def best(measured: Sequence[Took]) -> Took:
    """The least of each over several runs."""
    return Took(min(took.seconds for took in measured), min(took.processor for took in measured),
                min(took.peak for took in measured))


class Session:
    """A running program that is sent lines, and answers each with one."""

    def __init__(self, program: str, workers: int = 1) -> None:
        words = [program, "serve", "--workers", str(workers)]
        self.process: Any = subprocess.Popen(words, stdin=subprocess.PIPE, stdout=subprocess.PIPE)
        # the first reply comes when the program has started, which is no part of loading
        self.resolve('{"op":"list"}')

    def __enter__(self) -> Session:
        return self

    def __exit__(self, *_: object) -> None:
        self.process.stdin.close()
        self.process.stdout.close()
        self.process.wait()

    def send(self, text: bytes) -> None:
        self.process.stdin.write(text)
        self.process.stdin.flush()

    def load(self, lines: Sequence[str]) -> float:
        """Seconds until all these lines are answered; each has to be accepted."""
        spent, replies = self.ask(lines)
        for line, reply in zip(lines, replies):
            if b'"ok":true' not in reply:
                sys.exit(f"not accepted: {line} answered {reply.decode()}")
        return spent

    def ask(self, lines: Sequence[str]) -> tuple[float, list[bytes]]:
        """Seconds until all these lines, which are sent without a pause, are answered, and the replies."""
        text = "".join(line + "\n" for line in lines).encode()
        start = time.perf_counter()
        # the replies are read while the lines are sent, since a pipe holds only some of them
        sender = threading.Thread(target=self.send, args=(text,))
        sender.start()
        replies = [self.process.stdout.readline() for _ in lines]
        spent = time.perf_counter() - start
        sender.join()
        return spent, replies

    def resolve(self, line: str) -> tuple[float, bytes]:
        """Seconds until the line is answered, and the reply."""
        start = time.perf_counter()
        self.send(line.encode() + b"\n")
        reply = self.process.stdout.readline()
        return time.perf_counter() - start, reply

    def best(self, requests: Sequence[str], rounds: int) -> float:
        """The mean seconds of requests that are asked alone: of each the best of the rounds."""
        return sum(min(self.resolve(request)[0] for _ in range(rounds)) for request in requests) / len(requests)
