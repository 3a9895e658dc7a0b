"""What is installed, where each file goes below a prefix, and what it says there.

`lib/registryd` has the program and the packages as they stand in a checkout, so that they find one another; what is in
`bin` finds them from where it stands itself, so a prefix may be moved. Nothing is written here: `pieces` answers it
all."""
import functools
import glob
import importlib.util
import marshal
import posixpath
import re
from collections.abc import Iterator, Mapping, Sequence
from dataclasses import dataclass

from dev.building import c_library, programs
from dev.building.c_library import Library
from dev.building.programs import NAME, PROVED, Program
from dev.building.progress import TOP
from dev.installing.prefix import Refused
from registry_cli import completion, manual

LIB, SHARE, DOC, MAN = f"lib/{NAME}", f"share/{NAME}", f"share/doc/{NAME}", "share/man/man1"
HEADER = "clients/c/registryd.h"
# The tools in Python, by the names that they have in bin: how each is called in a checkout, and its module.
TOOLS = {
    "registry-check-derivation": ("tools/check_derivation.py", "registry_cli.check_derivation"),
    "registryd-etcd": ("tools/registryd-etcd", "registry_etcd"),
}
# The command for people: its own file stands beside the packages, as in a checkout.
COMMAND = "registry"
# What the commands are made of, and what runs a module of that.
PACKAGES, RUNNER = ("registry_cli", "registry_etcd", "registry_service", "registryd_lines"), "__main__.py"
# Files that are copied as they stand, by the folder that they go to; what stands in a folder of the sources keeps its
# place in it.
COPIES = {
    LIB: ["registry_cli/page/files/*", "registry_cli/completions/*"],
    SHARE: ["docs/*.schema.json", "clients/python/pyproject.toml", "clients/python/*/*.py", "clients/python/*/py.typed",
            "clients/c/*.[ch]", "clients/c/*.rs", "clients/c/*.txt", "clients/c/*.in", "clients/c/Makefile",
            "clients/c/run_example",
            "clients/rust/*.toml", "clients/rust/Cargo.lock", "clients/rust/*.rs", "clients/rust/src/*.rs",
            "clients/rust/examples/*.rs", "clients/rust/tests/*.rs", "clients/rust/tests/common/*.rs"],
    DOC: ["docs/why.svg", "docs/selection.svg", "LICENSE*"],
}
# Pages: the links in them lead to where the other files are installed.
PAGES = {
    SHARE: ["clients/README.md", "clients/c/README.md", "clients/rust/README.md"],
    DOC: ["CHANGELOG.md", "docs/USING.md", "docs/FORMATS.md", "docs/REGISTRY.md", "docs/WHY.md", "docs/IMPORTING.md",
          "docs/SCALE.md", "docs/REGISTRY_COMMAND.md", "docs/SERVICE.md", "docs/GLOSSARY.md"],
}
# What systemd reads: the service, with the prefix in its words, and the user that it runs as.
SYSTEMD = {"lib/systemd/system/registryd.service": "dev/installing/systemd/registryd.service",
           "lib/sysusers.d/registryd.conf": "dev/installing/systemd/registryd.sysusers"}
# Manual pages, each with the other names that it is found by.
MANUALS: dict[str, list[str]] = {"docs/registryd.1": [], "docs/registry-tools.1": list(TOOLS)}
# Where each shell looks for completions of a command.
COMPLETIONS = {"bash": "share/bash-completion/completions/{}", "zsh": "share/zsh/site-functions/_{}",
               "fish": "share/fish/vendor_completions.d/{}.fish"}
STATES = {
    PROVED: "The program is proved: all its sources were proved before it was built.",
    programs.COMPILED: "The program is compiled from its sources, with checks as it runs. It is not proved.",
}
# How the program's command asks glibc for huge pages, as `./registryd` does.
HUGE_PAGES = """\
# In huge pages, requests that touch much memory take less time. What the user has set stays.
case :${GLIBC_TUNABLES-} in
    *:glibc.malloc.hugetlb=*) ;;
    *) GLIBC_TUNABLES=glibc.malloc.hugetlb=1${GLIBC_TUNABLES:+:$GLIBC_TUNABLES}; export GLIBC_TUNABLES ;;
esac
"""
# How a command in bin finds what is installed with it, through links too.
FIND = """\
here=$0
if [ -L "$here" ]; then here=$(readlink -f -- "$here"); fi
case $here in */*) here=${here%/*} ;; *) here=. ;; esac
"""


@dataclass(frozen=True)
class Piece:
    """A file as it is installed: where it goes below the prefix, and its bytes; or what a link leads to."""
    path: str
    data: bytes = b""
    mode: int = 0o644
    link: str = ""


def program(may_be_unproved: bool) -> Program:
    """The program that is installed: the proved one of these sources, else where that may be the one with checks."""
    found = programs.current(NAME)
    if found and (found.kind == PROVED or may_be_unproved):
        return found
    if may_be_unproved:
        raise Refused("no program of these sources stands that checks as it runs: run tools/build --compiled first")
    also = ", or take the compiled one with --unproved" if found else ""
    proving = "run ./test or tools/build --proved first"
    raise Refused(f"no program stands that was proved from these sources: {proving}{also}")


def library(program: Program) -> Library | None:
    """The library for C that stands, to be installed with a program: with a proved one only if it is proved too."""
    found = c_library.standing()
    return found if found and (found.kind == PROVED or program.kind != PROVED) else None


def program_pieces(program: Program) -> list[Piece]:
    """The program, and the command that runs it, which alone knows its version: it starts nothing but by a link."""
    version = f"{NAME} {programs.version()}, commit {programs.commit()}\n{STATES[program.kind]}"
    command = ("#!/bin/sh\n# Runs the program that is installed with it.\n"
               f'case ${{1-}} in --version | -V)\n    cat <<\\END\n{version}\nEND\n    exit ;;\nesac\n'
               f'{FIND}{HUGE_PAGES}exec "$here/../{LIB}/{NAME}" "$@"\n')
    return [Piece(f"bin/{NAME}", command.encode(), 0o755), Piece(f"{LIB}/{NAME}", program.path.read_bytes(), 0o755)]


def tool_pieces() -> Iterator[Piece]:
    """The tools with their packages, and the commands that run them. Python keeps nothing more beside them."""
    for name, (_, module) in TOOLS.items():
        command = f'#!/bin/sh\n{FIND}exec python3 -B "$here/../{LIB}" {module} "$@"\n'
        yield Piece(f"bin/{name}", command.encode(), 0o755)
    modules = (path.relative_to(TOP) for package in PACKAGES for path in (TOP / package).rglob("*.py"))
    for module in sorted(map(str, [RUNNER, *modules])):
        path, data = f"{LIB}/{module}", renamed((TOP / module).read_text(encoding="utf-8")).encode()
        yield Piece(path, data)
        yield Piece(importlib.util.cache_from_source(path), byte_code(path, data))


@functools.cache
def byte_code(path: str, data: bytes) -> bytes:
    """What a Python of this version keeps of a module, which else it compiles at each start. It holds as long as the
    module has these bytes, whatever time its file has (PEP 552: a hash that is checked)."""
    head = importlib.util.MAGIC_NUMBER, (0b11).to_bytes(4, "little"), importlib.util.source_hash(data)
    return b"".join([*head, marshal.dumps(compile(data, path, "exec"))])  # type: ignore[list-item]  # typeshed says int


def command_pieces() -> list[Piece]:
    """The command for people, with its manual page. Of its version the program's command tells."""
    command = (f'#!/bin/sh\n{FIND}case $* in --version | -V) exec "$here/{NAME}" --version ;; esac\n'
               f'exec python3 -B -S "$here/../{LIB}/{COMMAND}" "$@"\n')
    text = (TOP / COMMAND).read_text(encoding="utf-8").partition("\n")[2]
    return [Piece(f"bin/{COMMAND}", command.encode(), 0o755), Piece(f"{LIB}/{COMMAND}", text.encode()),
            Piece(f"{MAN}/{COMMAND}.1", manual.page(f"{NAME} {programs.version()}").encode())]


def renamed(text: str) -> str:
    """A text that speaks of the program and its tools as they are called in a checkout, with their installed names."""
    return renamed_by(text, tuple((name, called) for name, (called, _) in TOOLS.items()))


@functools.cache
def renamed_by(text: str, tools: Sequence[tuple[str, str]]) -> str:
    for name, called in tools:
        text = re.sub(rf"(?<![\w/.]){re.escape(called)}(?![\w/])", name, text)
    return re.sub(rf"(?<![\w/.])\./({NAME}|{COMMAND})(?![\w/-])", r"\1", text)


def sources(table: Mapping[str, Sequence[str]]) -> Iterator[tuple[str, str]]:
    """The files of a table of patterns, each with where it goes."""
    for folder, patterns in table.items():
        for pattern in patterns:
            for path in sorted(glob.glob(pattern, root_dir=TOP)):
                yield path, f"{folder}/{path.removeprefix('docs/')}"


def linked(text: str, path: str, to: str, places: Mapping[str, str]) -> str:
    """A page with its links to what is installed; of a link to anything else its text stays."""
    def link(found: re.Match[str]) -> str:
        words, target, part = found[1], found[2], found[3] or ""
        at = posixpath.normpath(posixpath.join(posixpath.dirname(path), target))
        if "://" in target or not target:
            return found[0]
        return f"[{words}]({posixpath.relpath(places[at], posixpath.dirname(to))}{part})" if at in places else words
    return re.sub(r"\[([^\]]+)\]\(([^)#]*)(#[^)]*)?\)", link, text)


def page_pieces() -> Iterator[Piece]:
    """What is read: pages, the schema, the clients, manual pages."""
    copies, pages = dict(sources(COPIES)), dict(sources(PAGES))
    for path, to in copies.items():
        yield Piece(to, (TOP / path).read_bytes())
    for path, to in pages.items():
        text = (TOP / path).read_text(encoding="utf-8")
        yield Piece(to, linked(renamed(text) if path.startswith("docs/") else text, path, to, copies | pages).encode())
    for path, names in MANUALS.items():
        page = posixpath.basename(path)
        yield Piece(f"{MAN}/{page}", (TOP / path).read_bytes())
        yield from (Piece(f"{MAN}/{name}.1", link=page) for name in names)


def library_pieces(library: Library | None) -> list[Piece]:
    """The library for C with its header, found by `pkg-config` too; nothing where there is none."""
    if not library:
        return []
    files = [Piece(f"lib/{file}", (library.folder / file).read_bytes()) for file in c_library.FILES]
    return [*files, Piece("lib/libregistryd.so", link=c_library.SHARED),
            Piece("include/registryd.h", (TOP / HEADER).read_bytes()),
            Piece("lib/pkgconfig/registryd.pc", c_library.pkg_config(programs.version(), library.kind).encode())]


def systemd_pieces(prefix: str) -> Iterator[Piece]:
    """What systemd reads. A percent sign is one of its own marks, a backslash and a quote are those of its words."""
    where = prefix.rstrip("/").replace("\\", "\\\\").replace('"', '\\"').replace("%", "%%")
    for path, source in SYSTEMD.items():
        yield Piece(path, (TOP / source).read_text(encoding="utf-8").replace("@PREFIX@", where).encode())


def pieces(program: Program, prefix: str = "/usr", library: Library | None = None) -> list[Piece]:
    """All that is installed, for one program below a prefix, and with a library for C, if there is one."""
    shells = []
    for shell in completion.SHELLS:
        places = [COMPLETIONS[shell].format(name) for name in (COMMAND, NAME)]
        shells.append(Piece(places[0], completion.script(shell).encode()))
        if shell != "zsh":  # the same one completes both; zsh finds it by the words of its first line
            shells.append(Piece(places[1], link=posixpath.basename(places[0])))
    every = [*program_pieces(program), *library_pieces(library), *command_pieces(), *tool_pieces(), *page_pieces(),
             *systemd_pieces(prefix), *shells]
    return sorted(every, key=lambda piece: piece.path)
