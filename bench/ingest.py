"""How fast publish lines are taken in, as a ratio to Python's json.loads over the same lines in the same run.

    python3 -m bench.ingest [--lines 49152] [--rounds 5] [--program PATH]

Prints the best time of each over the rounds, the ratio, and the program's peak memory beside the bytes of the lines.
"""
import json
import os
import tempfile
import time
from typing import BinaryIO, cast

from bench.measuring import best, parser, session, write_publications


def only_json(path: str) -> float:
    with open(path, "rb") as given:
        text = given.read()
    start = time.perf_counter()
    for line in text.splitlines():
        json.loads(line)
    return time.perf_counter() - start


def main() -> None:
    chosen = parser(__doc__, lines=49_152, rounds=5).parse_args()
    with tempfile.TemporaryDirectory() as folder, tempfile.TemporaryFile() as replies:
        path = os.path.join(folder, "lines")
        write_publications(path, chosen.lines)
        size = os.path.getsize(path)
        rows = [(session(chosen.program, path), only_json(path)) for _ in range(chosen.rounds)]
        session(chosen.program, path, replies=cast(BinaryIO, replies))
        replies.seek(0)
        accepted = replies.read().count(b'"ok":true')
    took, loading = best([own for own, _ in rows]), min(other for _, other in rows)
    print(f"{chosen.lines} lines, {size / 1e6:.1f} MB, {accepted} accepted")
    print(f"registryd    {took.seconds * 1000:7.1f} ms, {chosen.lines / took.seconds / 1e6:.2f} million lines/s")
    print(f"json.loads   {loading * 1000:7.1f} ms")
    print(f"ratio        {took.seconds / loading:7.2f}")
    print(f"peak memory  {took.peak * 1024 / 1e6:7.1f} MB, {took.peak * 1024 / size:.1f} times the lines")


if __name__ == "__main__":
    main()
