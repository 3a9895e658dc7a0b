"""Ports of this machine for programs that are told theirs. Those that the system gives to whoever connects are left to
it: one of them might be taken before the program begins."""
import itertools
import os
import socket
from pathlib import Path

FIRST, LAST = 20_000, 32_000  # where the system doesn't tell which it gives
TOGETHER = 100  # so far runs that begin side by side are apart


def free_ports(count: int) -> list[int]:
    """So many ports in a row, on which nobody listens now."""
    first = start()
    for port in itertools.chain(range(first, last() - count), range(FIRST, first)):
        found = range(port, port + count)
        if all(map(is_free, found)):
            return list(found)
    raise AssertionError("no port is free")


def last() -> int:
    """The first of those that the system gives, or where the search ends before them."""
    try:
        given = int(Path("/proc/sys/net/ipv4/ip_local_port_range").read_text(encoding="ascii").split()[0])
    except OSError:
        given = LAST
    return given if FIRST + 2 * TOGETHER < given else LAST


def start() -> int:
    """Where the search begins: each process at a place of its own."""
    rooms = (last() - FIRST) // TOGETHER
    return FIRST + os.getpid() % rooms * TOGETHER


def is_free(port: int) -> bool:
    with socket.socket() as taken:
        try:
            taken.bind(("127.0.0.1", port))
        except OSError:
            return False
        return True
