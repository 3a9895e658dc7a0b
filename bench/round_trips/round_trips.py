"""As round_trips.c, from Python: by the client with its values, or by a bare socket."""
import json
import socket
import sys
import time
from collections.abc import Iterable, Iterator, Sequence
from pathlib import Path

from registryd import Line, Registry


def by_client(registry: Registry, file: str, trips: int, lines: Iterable[str]) -> Iterator[object]:
    for future in registry.many(map(Line, Path(file).read_bytes().splitlines())):
        future.result()
    for line in lines:
        needs = json.loads(line)["needs"]
        yield registry.resolve(needs).selected
        for _ in range(trips):
            begun = time.perf_counter_ns()
            registry.resolve(needs)
            yield time.perf_counter_ns() - begun
    registry.close()


def by_socket(path: str, file: str, trips: int, lines: Iterable[str]) -> Iterator[object]:
    with socket.socket(socket.AF_UNIX) as channel:
        channel.connect(path)
        replies = channel.makefile("rb")
        text = Path(file).read_bytes()
        channel.sendall(text)
        for _ in range(text.count(b"\n")):
            replies.readline()
        for line in lines:
            sent = line.encode() + b"\n"
            channel.sendall(sent)
            yield replies.readline().decode().strip()
            for _ in range(trips):
                begun = time.perf_counter_ns()
                channel.sendall(sent)
                replies.readline()
                yield time.perf_counter_ns() - begun


def main(words: Sequence[str]) -> None:
    way, target, file, trips, *lines = words
    if way == "socket":
        told = by_socket(target, file, int(trips), lines)
    else:
        registry = Registry(embedded=True) if way == "embedded" else Registry(target)
        told = by_client(registry, file, int(trips), lines)
    print(*list(told), sep="\n")


if __name__ == "__main__":
    main(sys.argv[1:])
