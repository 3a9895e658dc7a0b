"""What pages and comments cite is there: links lead somewhere, and the sources have each name and its comment."""
import os
import re
import unittest
from pathlib import Path

from tests.in_process.test_map import LINK, fault_of
from tests.support.program import TOP, read

ALL = [str(it.relative_to(TOP)) for pattern in ("*.md", "docs/*.md", "clients/*.md", "clients/*/README.md", "rows/*.md")
       for it in sorted(Path(TOP).glob(pattern))]
# Names of other programs, of the system and of languages, which no file of the sources has to have.
FOREIGN = {"env_logger", "posix_fadvise", "proxy_half_close", "M_MMAP_THRESHOLD", "M_TRIM_THRESHOLD"}
# What stands below a prefix once it is installed, of which `test_install.py` knows.
INSTALLED = ("bin/", "include/", "lib/", "share/")
SOURCES = (".rt", ".antt", ".py", ".rs", ".c", ".h", ".t",
           ".rows", ".json", ".txt", ".edit", ".toml", ".md", ".svg", "")
FOLDERS = ("crates", "tools", "clients", "bench", "dev", "registry_cli", "registry_etcd", "registry_service",
           "rows", "edits", "tests")
CODE = re.compile(r"`([^`]*)`")
ANY_LINK = re.compile(r"!?\[([^\]]*)\]\(([^)]*)\)")
# a name with a capital behind its first letter, an underscore or a path, or an option; and the name of a file
NAME = re.compile(r"-{0,2}[A-Za-z_]\w*(?:(?:::|-)\w+)*(?:\(\))?")
FILE = re.compile(r"[\w./-]*\w\.(?:rt|antt|py|rs|c|h|rows|json|md|txt|svg|edit)")


def blocks_left_out(text):
    """The lines of a page without its blocks of code, which are indented or fenced; in place of each an empty line."""
    fenced = False
    for line in text.splitlines():
        is_fence = line.startswith("```")
        fenced = fenced != is_fence
        yield "" if fenced or is_fence or line.startswith("    ") else line


def links(text):
    return [target for _, target in ANY_LINK.findall("\n".join(blocks_left_out(text)))]


def anchors_of(text):
    """What a link can name of a page: its titles, in small letters, with `-` for spaces and without other marks."""
    titles = [line.lstrip("# ") for line in blocks_left_out(text) if line.startswith("#")]
    return {re.sub(r"[^\w -]", "", title.lower()).replace(" ", "-") for title in titles}


def names(text):
    """The names of sources that a page has in its prose: those of files, and those that no plain word looks like."""
    for code in CODE.findall("\n".join(blocks_left_out(text))):
        if FILE.fullmatch(code):
            yield code
        elif NAME.fullmatch(code) and (code.startswith("--") or "::" in code or "_" in code
                                       or re.search("[a-z0-9][A-Z]|^[A-Z][a-z]", code)):
            yield code.removesuffix("()")


def sources():
    """The texts of the sources by their paths, without what is built beside them."""
    for folder in FOLDERS:
        for path in Path(TOP, folder).rglob("*"):
            parts = path.relative_to(TOP).parts
            if path.suffix in SOURCES and path.is_file() and not {"out", "target", "__pycache__"} & {*parts}:
                yield path.relative_to(TOP), path.read_text(encoding="utf-8", errors="replace")


def files_of(texts):
    """The names of all files, as a page may have them: with each end of their paths."""
    top = [path.relative_to(TOP) for pattern in ("*", "docs/*", ".ci/*") for path in Path(TOP).glob(pattern)]
    return {"/".join(path.parts[at:]) for path in [*texts, *top] for at in range(len(path.parts))}


def said_by_code(path, text):
    """A source of the crates without its comments, or any other one."""
    comment = {".rt": r"//.*", ".antt": r"(?m)(?:^|(?<=\s))--(?=\s|$).*"}.get(path.suffix)
    return re.sub(comment, "", text) if comment else text


class Known:
    """What the sources have: their files, and which words stand in the code of each."""

    def __init__(self, texts):
        self.files = files_of(texts)
        texts = {path: said_by_code(path, text) for path, text in texts.items() if path.name != Path(__file__).name}
        self.words = {path: {*re.findall(r"\w+(?:-\w+)+|\w+", text), *re.findall(r"\w+", text)} for path,
                      text in texts.items()}
        self.all = set().union(*self.words.values())

    def has(self, name):
        if FILE.fullmatch(name):
            return name.startswith(INSTALLED) or re.sub(r"^(?:\./|\.\./)*", "", name) in self.files
        if name in FOREIGN:
            return True
        *of, last = name.removeprefix("--").split("::")
        return last in self.all if not of else any(last in words and all(part in words
                                                                         or part in path.parts for part in of)
                                                   for path, words in self.words.items())


def unknown(text, known):
    return [it for it in dict.fromkeys(names(text)) if not known.has(it)]


def lost(text, folder, anchors):
    """The links of a page that lead nowhere: to no file, or to no title of one of these pages."""
    for target in links(text):
        path, _, part = target.partition("#")
        if "://" in target or target.startswith("mailto:"):
            continue
        file = path and os.path.normpath(os.path.join(folder, path))
        if not os.path.exists(os.path.join(TOP, file)):
            yield target
        elif part and part not in anchors.get(file, {part}):
            yield target


def undeclared(text):
    """What is wrong with the links from names to the files that declare them, and from the names of files."""
    found = [fault_of(link) for link in LINK.findall(text)
             if link[1].startswith("../crates/") or link[1].startswith("../") and link[1].endswith(".py")]
    misnamed = [f"{name} is {target}" for name, target in ANY_LINK.findall(text) if FILE.fullmatch(name)
                and not f"/{target}".partition("#")[0].endswith(f"/{name}")]
    return [fault for fault in found if fault] + misnamed


def in_comments(path, text, known):
    """What the comments of a source of the crates name that is not there, also of files that its head lists."""
    for line, code in zip(text.split("\n"), said_by_code(path, text).split("\n")):
        comment = line[len(code):]
        targets = re.findall(r"`\]\(([a-z_]\w*(?:::\w+)+)\)", comment)
        yield from unknown(comment + "".join(f" `{target}`" for target in targets), known)
    for cell in re.findall(r"(?m)^//! \| ((?:`\w+(?:\.rt)?`(?:, )?)+) \|", text):
        yield from (file for file in re.findall(r"`(\w+)(?:\.rt)?`", cell) if f"src/{file}.rt" not in known.files)


def without_comment(text):
    """The public items of a source that have no comment above them."""
    above = re.compile(r"(?m)^(.*)\n(?:\s*(?:#\[.*|//[^/].*)\n)*( *pub (?:(?:const|unsafe|extern \"C\") )*"
                       r"(?:fn|struct|enum|trait|const|static|type) \w+)")
    return [item.strip() for before, item in above.findall(text) if not before.strip().startswith("///")]


class Pages(unittest.TestCase):
    @classmethod
    def setUpClass(cls):
        cls.texts = dict(sources())
        cls.known = Known(cls.texts)

    def each(self, found):
        for name in ALL:
            with self.subTest(name):
                assert list(found(name, read(name))) == []

    def test_each_name_is_in_the_sources(self):
        self.each(lambda name, text: unknown(text, self.known))
        assert sum(len({*names(read(name))}) for name in ALL) > 150

    def test_each_link_leads_somewhere(self):
        anchors = {name: anchors_of(read(name)) for name in ALL}
        self.each(lambda name, text: lost(text, os.path.dirname(name), {**anchors, "": anchors[name]}))

    def test_each_name_is_declared_where_its_link_leads(self):
        self.each(lambda name, text: undeclared(text))

    def test_comments(self):
        crates = {path: text for path, text in self.texts.items() if path.parts[0] == "crates"}
        found = [f"{path}: {name}" for path, text in crates.items() if path.suffix in (".rt", ".antt")
                 for name in in_comments(path, text, self.known)]
        found += [f"{path}: {item}" for path, text in crates.items() if path.suffix == ".rt" and "src" in path.parts
                  and path.parts[1] not in ("rows", "probe") for item in without_comment(text)]
        assert found == []


def test_what_is_wrong_with_a_page_is_found():
    known = Known({Path("crates/wire/src/request.rt"): "pub fn read_request() impl Seat { fn enter } // `said_alone`",
                   Path("registry_cli/limits.py"): "MOST_X = 1 #--with-it"})
    wrong = ["read_requests", "registry::read_request", "limit.py", "--without", "said_alone"]
    right = ["read_request", "wire::read_request", "Seat::enter", "MOST_X", "limits.py", "--with-it",
             "README.md", "needs"]
    assert unknown(" ".join(f"`{name}`" for name in [*right, *wrong]), known) == wrong
    anchors = {"": anchors_of("# Own title\n"), "docs/FORMATS.md": anchors_of("## The journal's file\n")}
    wrong = ["#other", "FORMATS.md#the-journal", "FORMAT.md", "../crates/none"]
    right = ["#own-title", "FORMATS.md#the-journals-file", "../README.md", "https://example.org/x"]
    assert list(lost(" ".join(f"[a]({target})" for target in [*right, *wrong]), "docs", anchors)) == wrong
    row = "../crates/chronicle/src/row.rt"
    assert undeclared(f"[`Row::open`]({row}) [`row.rt`]({row}) [`declares`](../tests/in_process/test_map.py)") == []
    for link in (f"[`Row::close`]({row})", f"[`seat.rt`]({row})", "[`Row`](../crates/chronicle/src/rows.rt)"):
        assert len(undeclared(link)) == 1, link


def test_what_is_wrong_with_a_comment_is_found():
    path = Path("crates/a/src/lib.rt")
    known = Known({path: "pub fn read_it() {}", Path("crates/a/src/b.rt"): "const ONE_LIMIT: u8 = 1;"})
    for text, count in (("// `read_it` [`ONE_LIMIT`](a::ONE_LIMIT)", 0), ("//! | `b` | the b |", 0),
                        ("let it = \"`no_one`\";", 0), ("let read_it = 1; // is `no_one`", 1),
                        ("/// [`ONE_LIMIT`](a::TWO_LIMIT)", 1), ("//! | `c` | the c |", 1)):
        assert len(list(in_comments(path, text, known))) == count, text
    assert without_comment("/// A.\n#[inline]\npub fn a() {\n}\n") == []
    assert len(without_comment("//! A.\n\npub struct A {\n}\n")) == 1
