"""The public calls of the crates, as their sources declare them: which take memory, and what their contracts say."""
import re
from collections import defaultdict
from collections.abc import Iterator
from pathlib import Path

from tests.support.program import TOP, data_rows, read
from tests.support.source_calls import Function, blocks, functions_of

CRATES = Path(TOP, "crates")
# These answer a refusal and take no memory.
TAKES_NONE = {"registry::Registry::check", "store::Store::check", "book::Replica::check", "book::Replica::judge"}
# A race makes this one, and each of its requests is refused there (`test_memory.py`).
OF_RACES = {"journals::can_be_saved"}
# No program here makes these. The first is made by the exports (`test_exports.py`); the second is for programs that are
# done with a seat: `Mark::entries` lends the same.
OF_CALLERS = {"chronicle::Mark::entries_from", "chronicle::Seat::journal"}
# What the probe stands on, what is tried through the calls of the registry and of the solver, and what is tried through
# the lines of the program (`test_memory.py`).
NO_PART = {"rows", "engine", "propagation", "intake", "answers", "session", "race", "command_line"}
TAKES_MEMORY = re.compile(r"-> (?:io::)?Result<")


def libraries() -> list[str]:
    """The crates of which others use what they export."""
    return sorted(path.parts[-3] for path in CRATES.glob("*/src/lib.rt"))


def exported(crate: str) -> set[str]:
    """The names that a library lets others use."""
    uses = re.findall("^pub use ([^;]*);", read("crates", crate, "src", "lib.rt"), re.M)
    return {name for words in uses for name in re.findall(r"\w+", words)}


def texts_of(crate: str) -> Iterator[tuple[str, str]]:
    """The sources of a crate, each with its path."""
    for path in sorted(CRATES.joinpath(crate, "src").rglob("*.rt")):
        yield str(path.relative_to(CRATES)), path.read_text(encoding="utf-8")


def public(crate: str) -> Iterator[tuple[Function, str]]:
    """Each public function of a crate and each `clone`, with the text from its name on."""
    for path, text in texts_of(crate):
        for function, body in functions_of(path, text):
            if function.is_public or function.name == "clone":
                yield function, body


def that_take_memory() -> set[str]:
    """The full names of the public functions whose result tells of lack of memory."""
    found: set[str] = set()
    for crate in set(libraries()) - NO_PART:
        names = exported(crate)
        found |= {it.full_name for it, body in public(crate) if (it.owner or it.name) in names
                  and TAKES_MEMORY.search(re.split(r"\n *(?:requires|ensures)\b|\{\n", body, maxsplit=1)[0])}
    return found - TAKES_NONE - OF_RACES - OF_CALLERS


def clauses() -> defaultdict[str, set[str]]:
    """The clauses of each call of the crates, by its full name. What has no name is `ensures`; a `clone` promises what
    its type's `is_clone` says."""
    found: defaultdict[str, set[str]] = defaultdict(set)
    for crate in sorted(path.name for path in CRATES.iterdir()):
        for function, body in public(crate):
            found[function.full_name] |= {it or "ensures" for it in re.findall(r"^ *ensures (\w+)? ?\{", body, re.M)}
        for path, text in texts_of(crate):
            for start, end, owner in blocks(text):
                if re.search("^ *ghost is_clone = ", text[start:end], re.M):
                    found[f"{crate}::{owner}::clone"].add("is_clone")
    return found


def said_by_clauses() -> list[tuple[str, list[str]]]:
    """The full names of the calls whose contract says all of what they do, each with the clauses that say it."""
    return [(name, clauses) for name, *clauses in map(str.split, data_rows("said_by_clauses.txt"))]
