"""How near a journal is to what a session takes: told from nine tenths of a limit on."""
from collections import Counter
from collections.abc import Iterable, Iterator

from .limits import MOST_COMMANDS, MOST_PACKAGES, MOST_VERSIONS

SHORTEST = 100_000  # bytes: no journal that is shorter is near a limit, so most are not looked at
NAMING = 10  # bytes that a journal has at least for each name: `["a","*"],`
PUBLISHED, NEEDED = rb'\{"name":"([^"]+)","needs":', rb'\["([^"]+)"'
LEARNT = b'"op":"learn"}\n'
REMEDY = "`registry journal renew` begins a smaller journal"


def warnings(path: str, text: bytes) -> Iterator[str]:
    """A sentence for each limit of which a journal's text takes nine tenths."""
    if len(text) < SHORTEST:
        return
    import re
    lines = text.count(b"\n")
    commands = lines - 1 - text.count(LEARNT) - text.endswith(b"end %d\n" % (lines - 2))
    if is_near(commands, MOST_COMMANDS):
        yield f"{path} has {commands:,} of {MOST_COMMANDS:,} commands: {REMEDY}"
    is_wide = is_near(len(text) // NAMING, MOST_PACKAGES)  # else no names are looked at
    published: Counter[bytes] = Counter()
    needed: set[bytes] = set()
    if is_wide or is_near(commands, MOST_VERSIONS):
        from .catalog import pieces
        for it in pieces(text):
            published.update(re.findall(PUBLISHED, it))
            needed.update(re.findall(NEEDED, it) if is_wide else ())
    names = len(needed.union(published)) if is_wide else 0
    if is_near(names, MOST_PACKAGES):
        yield f"{path} names {names:,} of {MOST_PACKAGES:,} packages: {REMEDY}"
    for name, count in published.items():
        if is_near(count, MOST_VERSIONS):
            yield f"{path} has {count:,} of {MOST_VERSIONS:,} versions of {name.decode()}: {REMEDY}"


def is_near(used: int, most: int) -> bool:
    return used * 10 >= most * 9


def warn(path: str, text: bytes | None = None) -> None:
    """Tells the warnings of a journal on standard error; of the file as it stands where no text is given."""
    if text is None:
        try:
            with open(path, "rb") as file:
                text = file.read()
        except OSError:
            return
    tell(warnings(path, text))


def tell(warned: Iterable[str]) -> None:
    from .output import Output
    for it in warned:
        Output.note(it)
