"""What stands in the journal's file while the program appends to it, and copies of it as it stood at a revision."""
from __future__ import annotations

import hashlib
from collections.abc import Iterator

from registry_cli.catalog import LEARN, commands_in
from registry_cli.failures import Failed
from registry_cli.session import snapshot

PIECE = 262_144  # bytes


def commands_after(path: str, revision: int, accepted: hashlib._Hash) -> list[bytes]:
    """Those behind a revision; the hash of those before it tells where another program has put others there."""
    commands = commands_in(snapshot(path))
    if len(commands) >= revision and hashlib.sha256(b"".join(commands[:revision])).digest() != accepted.digest():
        raise Failed(f"{path} was changed by another program: it has other commands than the {revision} "
                     "that were accepted")
    return commands[revision:]


class Copy:
    """A whole journal, in pieces. What stands in the file for it does not change any more."""

    def __init__(self, path: str, revision: int) -> None:
        self.path, count = path, 0
        with open(path, "rb") as file:
            self.length = len(file.readline())
            for line in file:
                revision -= not line.endswith(LEARN + b"\n")
                if revision < 0 or not line.endswith(b"\n") or line.startswith(b"end "):
                    break
                self.length += len(line)
                count += 1
        self.end = b"end %d\n" % count

    def __len__(self) -> int:
        return self.length + len(self.end)

    def __iter__(self) -> Iterator[bytes]:
        with open(self.path, "rb") as file:
            for begin in range(0, self.length, PIECE):
                yield file.read(min(PIECE, self.length - begin))
        yield self.end


def text_at(path: str, revision: int) -> bytes:
    return b"".join(Copy(path, revision))
