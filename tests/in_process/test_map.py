"""docs/MAP.md has each error, and docs/REGISTRY.md each by its number and name. `test_pages.py` follows its links."""
import os
import re

from tests.support.program import TOP, read

MAP = os.path.join(TOP, "docs", "MAP.md")
LINK = re.compile(r"\[`([^`]+)`\]\(([^)#]+)\)")


def declares(text, path, name):
    """Whether a source declares a name; of `Type::method` the method, within that type."""
    of, _, last = name.rpartition("::")
    last = re.escape(last)
    if path.endswith(".rt"):
        if of and not re.search(rf"^(?:impl\b[^\n]*\b{of}\b|pub (?:enum|struct|trait) {of}\b)", text, re.M):
            return False
        return bool(re.search(rf"\b(?:fn|struct|enum|trait|const) {last}\b", text))
    if path.endswith(".py"):
        return bool(re.search(rf"^ *(?:def|class) {last}\b", text, re.M))
    # a definition or a lemma begins a line, or stands in a block, behind words like `abbrev pub`
    return bool(re.search(rf"^ *(?:[a-z]+ )*{last}(?=[ :])", text, re.M))


def fault_of(link):
    """What is wrong with a link from a name to the file that declares it, or nothing."""
    name, target = link
    whole = os.path.normpath(os.path.join(TOP, "docs", target))
    if not os.path.exists(whole):
        return f"{target} is not there"
    if os.path.isdir(whole):
        # what the prover was told of one function
        return None if os.path.basename(whole) == name.rpartition("::")[2] else f"{target} is not of {name}"
    return None if name == os.path.basename(whole) or declares(read(whole), whole, name) else f"{target} has no {name}"


class TestMap:
    def test_each_error_is_named(self):
        listed = re.findall(r"^\| (\d+) \| \w+ \|", read(os.path.join(TOP, "docs", "REGISTRY.md")), re.M)
        named = re.findall(r"^\| Errors? ([\d, ]+(?:and \d+)?)", read(MAP), re.M)
        assert [number for one in named for number in re.findall(r"\d+", one)] == listed

    def test_each_error_has_its_number_and_name(self):
        """Of some errors no line of the program is answered."""
        listed = re.findall(r"^\| (\d+) \| (\w+) \|", read(os.path.join(TOP, "docs", "REGISTRY.md")), re.M)
        said = read(os.path.join(TOP, "crates", "versions", "specs", "Refusals.antt"))
        assert re.findall(r"^number_of (\w+) = (\d+)$", said, re.M) == [(name, number) for number, name in listed]
        assert re.findall(r'^name_of (\w+) = codes "(\w+)"$', said, re.M) == [(name, name) for _, name in listed]
        assert len(listed) == 22
