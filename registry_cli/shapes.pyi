"""What annotations name: above all the shapes of what goes from module to module."""
from _typeshed import HasFileno
from collections.abc import Callable, Collection, Container, Iterable, Iterator, Mapping, Sequence
from io import FileIO
from pathlib import Path
from types import TracebackType
from typing import IO, Any, BinaryIO, NoReturn, Protocol, Self, TextIO, TypeVar, TypedDict, Union

from registryd_lines.fault import Fault

from .bar import Bar
from .cases import Case
from .catalog import Catalog, Version
from .check_derivation import Registry, Terms, Version as Precedence
from .connected import Connected
from .derivation import Derivation, Fact, Step
from .failures import Failure
from .indexes.index import Index, Release as IndexRelease
from .locks import Lock
from .output import Output
from .questions import Question
from .renewal import Release
from .session import Session
from .shell import Standing
from .table import Subcommand, Word

__all__ = [  # that are named here for other modules
    "Any", "Bar", "BinaryIO", "Callable", "Catalog", "Collection", "Connected", "Container", "Derivation", "Fact",
    "Failure", "Fault", "FileIO", "HasFileno", "IO", "Index", "Iterable", "Iterator", "Lock", "Mapping", "NoReturn",
    "Output", "Path", "Precedence", "Registry", "Self", "Sequence", "Session", "Standing", "Step", "Subcommand", "Terms",
    "TextIO", "Version", "Word"]

Pairs = list[list[str]]  # of names with requirements or versions, as lines have them
Listed = tuple[str, bool]  # a version, and whether it is yanked
Object = Mapping[str, Any]  # an object of JSON that nobody has judged
RegistryOf = Callable[[Iterable[str]], Registry]  # with the releases of these packages

# ---- lines

class Cause(TypedDict, total=False):
    """A cause in a line of a derivation: another line by its number, else a fact with the members of its kind."""
    line: int
    fact: str
    index: int
    name: str
    need: str
    target: str
    versions: list[int]
    within: list[int]

class Row(TypedDict):
    causes: list[Cause]
    conclusion: list[list[Any]]  # each a name, whether its version is among some, and the ordinals of these
    pivot: str

class Request(TypedDict, total=False):
    """A request line, which is a command where it changes the registry."""
    op: str
    name: str
    version: str
    needs: Pairs
    lock: Pairs
    explain: bool
    budget: int
    derivation: list[Row]

class Reply(TypedDict, total=False):
    ok: bool
    refused: bool
    revision: int
    error: int
    name: str
    reason: str
    selected: Pairs
    derivation: list[Row]
    packages: list[tuple[str, list[Listed]]]

# ---- sessions

class Asking(Protocol):
    """What answers request lines, until it is left."""
    def ask(self, *requests: Request) -> list[Reply]: ...
    def each(self, requests: Sequence[Request]) -> Iterator[Reply]: ...
    def __enter__(self) -> Self: ...
    def __exit__(self, kind: type[BaseException] | None, fault: BaseException | None,
                 trace: TracebackType | None) -> None: ...

class Reading(Asking, Protocol):
    """What tells its journal too."""
    def journal(self) -> bytes: ...
    def commands(self) -> list[Request]: ...

# ---- command lines

class Options(Protocol):
    """The words when they were read: those of `COMMON`, and of others what one subcommand or more has."""
    subcommand: str
    journal: str | None
    connect: str | None
    json: bool
    color: str | None
    quiet: bool
    verbose: bool
    wait: int | None
    limit: int
    need: list[str]
    lock: str | None
    locked: bool
    write: str | None
    budget: int | None
    exit_status: bool
    file: str
    dir: str
    index: str | None
    newest: int | None
    lines: bool
    ask: bool
    both_spellings: bool
    text: str
    invert: str | None
    depth: int | None
    old: str
    new: str
    output: str | None
    yes: bool
    after: int | None
    follow: bool
    port: int | None
    seconds: float | None
    asked: str | None
    told: str | None
    request: int | None
    picture: str | None
    full: bool
    unfolded: bool

class Named(Options, Protocol):
    """The words of a subcommand about a package, and a version of it."""
    name: str
    version: str

class Served(Options, Protocol):
    socket: str | None
    mode: str
    group: str | None
    readers: int
    seconds: float
    workers: int
    clients: int
    log: str | None
    metrics_port: int | None
    page_port: int | None

class WhyOptions(Options, Protocol):
    """`version` is what --not takes, a name and a version."""
    version: list[str] | None

class UpgradeOptions(Options, Protocol):
    """It takes many packages."""
    name: list[str]

class RenewOptions(Protocol):
    """Its --lock takes many."""
    old: str
    new: str
    lock: list[str] | None
    newest: int | None

# ---- of single modules

Dependency = tuple[str, str]  # a crate's name and a requirement, or a version
Chosen = Mapping[str, Sequence[IndexRelease]]  # the releases by crate that are written
Table = dict[str, Any]  # of TOML
Numbers = tuple[float, ...]  # of a version of Debian's: three whole ones, or BEYOND
Interval = tuple[Numbers, Numbers]
Fields = dict[str, str]  # of a package of Debian's
Yanked = TypeVar("Yanked", Version, Listed)  # what begins with a text and whether it is yanked
Key = tuple[str, Precedence]  # of a release
Releases = Mapping[Key, Release]
Needs = Mapping[str, dict[str, str]]  # by package, or the request, what it needs with the requirement
Told = tuple[frozenset[int], str]  # what a requirement admits, with its text
Node = Union[Fact, Step]
# a package and some of its versions, and what tells these apart from the same of another who needs something
Whose = Union[tuple[str, frozenset[int]], tuple[str, frozenset[int], str]]
Query = Mapping[str, Sequence[str]]  # of an address of the page
Field = list[Union[int, str]]  # the number of a need, and its part that is at fault
Value = dict[str, object]  # an object for JSON
Takes = Union[str, range, tuple[str, ...]]  # a word or an option
Ask = Callable[[Request], Reply]
Put = Callable[[Question, Request], Reply]
