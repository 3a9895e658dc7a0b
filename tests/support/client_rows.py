"""Rows that the clients in Python, Rust and C are all tested with; clients/rust/tests reads the same files."""
import json
import os
from typing import Any

from tests.support.program import TOP, publish, yank


def rows(name: str) -> list[Any]:
    with open(os.path.join(TOP, "rows", name), encoding="utf-8") as text:
        return [json.loads(line) for line in text if line.startswith("{")]


# Explanations, each with its sentences.
EXPLAINED = [(it["explanation"], it["sentences"]) for it in rows("refusals.rows")]
# What is published before the requests of the others.
PUBLISHED = [publish("a", "1.0.0"), yank("a", "1.0.0"), publish("b", "1.0.0")]
# Requests, each with its error and the place, the package, the text and what was meant.
CULPRITS = [(it["asked"], it["error"], it["place"], it["package"], it["text"], it["meant"])
            for it in rows("culprits.rows")]


def line_of(explanation: object) -> str:
    """The reply line that has an explanation."""
    return json.dumps({"derivation": [], "explanation": explanation, "refused": True, "revision": 6},
                      separators=(",", ":"))
