"""Publish lines of a registry of a realistic shape, the same for the same numbers."""
from __future__ import annotations

import json
import random

WORDS = ["core", "io", "util", "macros", "sys", "http", "x"]


def requirement(rng: random.Random, version: tuple[int, int, int]) -> str:
    """A requirement that admits this version and later ones of its range."""
    major, minor, patch = version
    kind = rng.random()
    if kind < 0.45:
        return f"{major}.{minor}.{patch}"
    if kind < 0.85:
        return f"^{major}.{minor}.{patch}"
    if kind < 0.92:
        return f"^{major}.{minor}"
    if kind < 0.97:
        return f">={major}.{minor}.{patch}, <{major + 1}.0.0"
    return f"{major}.*"


def publish_lines(count: int, seed: int = 1) -> list[str]:
    """`count` publish lines: packages of 10 to 60 versions, each of which needs 3 to 10 packages before it."""
    rng, lines = random.Random(seed), list[str]()
    packages: list[tuple[str, list[tuple[int, int, int]]]] = []
    while len(lines) < count:
        name = f"p{len(packages):05d}-{rng.choice(WORDS)}"
        most = min(len(packages), rng.randint(3, 10))
        # packages with low numbers are popular
        targets = sorted({int(len(packages) * rng.random() ** 3) for _ in range(most)})
        versions = [(1, 0, 0)]
        for _ in range(rng.randint(10, 60) - 1):
            major, minor, patch = versions[-1]
            step = rng.random()
            versions.append((major + 1, 0, 0) if step < 0.05 else (major, minor + 1, 0) if step < 0.4
                            else (major, minor, patch + 1))
        for version in versions:
            needs = [[packages[at][0], requirement(rng, rng.choice(packages[at][1]))] for at in targets]
            lines.append(json.dumps({"op": "publish", "name": name, "version": "%d.%d.%d" % version, "needs": needs},
                                    separators=(",", ":")))
        packages.append((name, versions))
    return lines[:count]
