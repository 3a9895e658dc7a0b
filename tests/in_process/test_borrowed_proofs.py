"""Which proofs cite the proofs of another crate of this repository.

A crate is to use of those below it what their contracts and definitions say, and no lemma that their proofs were made
of: these may change with any change of the code. Those that still do so stand in `borrowed_proofs.txt`, which may only
get shorter."""
import re
from pathlib import Path

from tests.support.program import TOP, data_rows

CITED = re.compile(r"^\s*(?:ghost )?use (Rattle\.(\w+)\.proofs(?:\.\w+)*)", re.M)


def borrowed():
    """The files of crates that cite a module of another crate's proofs, each with the module."""
    crates = Path(TOP, "crates")
    names = {path.name for path in crates.iterdir()}
    for path in crates.glob("*/*/**/*"):
        name, part, *_ = path.relative_to(crates).parts
        if part in ("src", "specs", "proofs") and path.is_file():
            cited = CITED.findall(path.read_text(encoding="utf-8"))
            yield from ((str(path.relative_to(crates)), module) for module, other in cited if other in names - {name})


class TestBorrowed:
    def test_the_list_only_gets_shorter(self):
        rows = [tuple(row.split()) for row in data_rows("borrowed_proofs.txt")]
        assert rows == sorted({*rows})
        stands = {*borrowed()}
        assert stands - {*rows} == set(), "these cite proofs of another crate, and are to do without"
        assert {*rows} - stands == set(), "these are gone, and leave the list"
