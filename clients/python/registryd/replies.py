"""What is answered: replies as values, and exceptions."""
from __future__ import annotations

import json
from dataclasses import dataclass, field, replace
from typing import TYPE_CHECKING, NoReturn, Union

from .requests import Derivation, Request, written

if TYPE_CHECKING:
    from registryd_lines.judging import Culprit

    from .tree import Derived

decoded = json.JSONDecoder().decode  # made once: `json.loads` costs three times as much


@dataclass(frozen=True)
class Accepted:
    """A command is accepted; the revision counts those that were."""
    revision: int


@dataclass(frozen=True)
class Selection:
    """Each selected package, in byte order of the names, with its version."""
    revision: int
    selected: dict[str, str]


@dataclass(frozen=True)
class NoSelection:
    """No selection meets the request, so it is false. Where it was asked to explain: why, for programs and for
    people."""
    revision: int
    derivation: Derivation | None = None
    explanation: tuple[str, ...] = ()
    request: Request | None = field(default=None, compare=False, repr=False)  # that it answers

    def __bool__(self) -> bool:
        return False

    def tree(self) -> Derived:
        """Why, as a tree that a program can walk, and in the sentences of PubGrub:
        `print(*refusal.tree().sentences(), sep="\n")`."""
        from .tree import tree
        if not self.explanation:
            raise ValueError("a NoSelection has a tree where it answers a request with explain=True")
        return tree(self.explanation)

    @property
    def selected(self) -> NoReturn:
        raise NothingSelected(f"no selection meets the request at revision {self.revision}: see the explanation, "
                              "or ask with explain=True for one")


@dataclass(frozen=True)
class Verdict:
    """Whether a derivation follows."""
    revision: int
    follows: bool


@dataclass(frozen=True)
class Listing:
    """Each package with its versions in order of publication, each with whether it is yanked."""
    revision: int
    packages: dict[str, tuple[tuple[str, bool], ...]]


Reply = Union[Accepted, Selection, NoSelection, Verdict, Listing]


class RegistryError(Exception):
    """Whatever a call here raises by itself."""


class Ended(RegistryError):
    """The session has ended, or was closed, and answers no more. The status is the program's, and none where it still
    ran or where there is no program."""

    def __init__(self, told: str, status: int | None = None) -> None:
        super().__init__(told)
        self.status = status


class NothingSelected(RegistryError):
    """A NoSelection was asked for its versions, which it has none of."""


class Refusal(RegistryError):
    """A line was refused, and changed nothing."""
    number = 0
    request: Request | None  # that was refused

    def __init_subclass__(cls, number: int = 0) -> None:
        cls.number = number

    def __init__(self, revision: int, said: str = "", request: Request | None = None) -> None:
        super().__init__(revision, said, request)
        self.revision, self.said, self.request = revision, said, request

    @property
    def culprit(self) -> Culprit | None:
        """Which text of the request is at fault, and what was probably meant; none where no text is, as for a budget
        that is spent."""
        from registryd_lines.judging import culprit
        return culprit(self.number, written(self.request)[:-1]) if self.request else None

    def __str__(self) -> str:
        told = self.culprit or (type(self).__doc__ or "").strip(".")
        return f"{self.said or type(self).__name__}: {told}, at revision {self.revision}"


class BadName(Refusal, number=1):
    """A text is no package name."""


class BadVersion(Refusal, number=2):
    """A text is no version, or is too long."""


class BadRequirement(Refusal, number=3):
    """A text is no requirement, or is too long."""


class RepeatedDependency(Refusal, number=4):
    """A dependency, a need or a lock line names a package twice."""


class SelfDependency(Refusal, number=5):
    """A version depends on its own package."""


class TooManyDependencies(Refusal, number=6):
    """More than 64 dependencies or needs, or 65,535 lock lines."""


class AlreadyPublished(Refusal, number=7):
    """The package has a version of equal precedence."""


class TooManyVersions(Refusal, number=8):
    """The package has 4,096 versions."""


class TooManyPackages(Refusal, number=9):
    """More than 65,535 names would be numbered."""


class JournalFull(Refusal, number=10):
    """As many commands are accepted as a session may have."""


class NoSuchVersion(Refusal, number=11):
    """A yank, or its undoing, finds no published version."""


class AlreadyYanked(Refusal, number=12):
    """The version is yanked already."""


class NotYanked(Refusal, number=13):
    """The version is not yanked."""


class Stale(Refusal, number=14):
    """A premise of what is to be learnt does not stand."""


class Known(Refusal, number=15):
    """What is to be learnt is stored."""


class StoreFull(Refusal, number=16):
    """As much is stored as may be."""


class Stray(Refusal, number=17):
    """In a race, an entry has the number of a seat that did not make it."""


class NoMemory(Refusal, number=18):
    """There was no memory for it."""


class BadLine(Refusal, number=19):
    """The line is no request."""


class TooLong(Refusal, number=20):
    """A derivation to be learnt has more than 256 lines."""


class NotADerivation(Refusal, number=21):
    """A derivation to be learnt does not follow, or may not be learnt."""


class BudgetSpent(Refusal, number=22):
    """The search for a request met one conflict more than its budget."""


REFUSALS: dict[int, type[Refusal]] = {kind.number: kind for kind in Refusal.__subclasses__()}


def to(request: Request, reply: Reply | RegistryError) -> Reply | RegistryError:
    """A reply with the request that it answers, where it is one that tells of that."""
    if isinstance(reply, Refusal):
        reply.request = request
    return replace(reply, request=request) if isinstance(reply, NoSelection) else reply


def answer(line: bytes) -> Reply | Refusal:
    said = decoded(str(line, "utf-8"))
    revision = said["revision"]
    if "ok" in said:
        return Accepted(revision)
    if "error" in said:
        kind = REFUSALS.get(said["error"])
        return kind(revision) if kind else Refusal(revision, said.get("reason", said["name"]))
    if "selected" in said:
        return Selection(revision, dict(said["selected"]))
    if "refused" in said:
        return NoSelection(revision, said.get("derivation"), tuple(said.get("explanation", ())))
    if "follows" in said:
        return Verdict(revision, said["follows"])
    packages = {name: tuple((text, is_yanked) for text, is_yanked in versions) for name, versions in said["packages"]}
    return Listing(revision, packages)
