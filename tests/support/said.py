"""What the sessions and races of the tests said: `program.run` notes here what it sent and was answered, and
`test_written_lines.py`, the last of all tests, judges it. Where several processes run tests, each keeps what it has
noted in the folder that the environment names (`SAID`), and the last test takes it from there. Of lines that differ in
their numbers alone, or in how many numbers stand in a row, one is kept; of request lines, one for each refusal that
such a line was answered with, and one where there was none."""
import os
import pickle
import re
from collections.abc import Iterable, Sequence
from pathlib import Path
from typing import Any

LAST = "test_written_lines.py"
NUMBERS = re.compile(rb"[0-9]+(?:, ?[0-9]+)*")
REFUSED = re.compile(rb'{"error":([0-9]+),')
REQUESTS: dict[Any, bytes] = {}
REPLIES: dict[Any, bytes] = {}
JOURNAL: dict[Any, bytes] = {}
noted: set[tuple[int, ...]] = set()  # the hashes of what was noted: many runs say the same
is_noting = True


def lines_in(text: bytes) -> list[bytes]:
    """The lines of a text, whose last one may lack its line feed."""
    return (text[:-1] if text.endswith(b"\n") else text).split(b"\n") if text else []


def alike(text: bytes) -> Iterable[tuple[bytes, bytes]]:
    """The lines of a text, for each a key that those have in common that differ in their numbers alone."""
    return zip(lines_in(NUMBERS.sub(b"0", text)), lines_in(text))


def number_of(reply: bytes) -> int:
    """The number by which a reply refuses a line, 0 where it refuses none."""
    found = REFUSED.match(reply)
    return int(found[1]) if found else 0


def is_new(*texts: bytes) -> bool:
    """Whether these texts were not noted together before; from now on they are."""
    before = len(noted)
    noted.add(tuple(map(hash, texts)))
    return len(noted) > before


def note_session(given: bytes, printed: bytes) -> None:
    """Keeps request lines and their replies, where each line has one."""
    if not is_new(given, printed):
        return
    requests, replies = list(alike(given)), list(alike(printed))
    if len(requests) == len(replies):
        REPLIES.update(replies)
        REQUESTS.update(((key, number_of(reply)), line) for (key, line), (_, reply) in zip(requests, replies))


def note_journal(text: bytes) -> None:
    """Keeps the lines between the first and the last of a journal's text."""
    if is_new(text):
        JOURNAL.update(list(alike(text))[1:-1])


def note_run(words: Sequence[Any], given: bytes, printed: bytes, folder: Any = "") -> None:
    """Keeps what a run of the program in a folder said, which ended well."""
    if not is_noting:
        return
    if words[0] == "race":
        paths = [os.path.join(folder, word) for word in words[1:] if word != "--"]
        if not all(map(os.path.isfile, paths)):
            return
        given = b"".join(line + b"\n" for path in paths for line in lines_in(Path(path).read_bytes()))
        lines = printed.splitlines(keepends=True)
        printed, journal = (b"".join(part) for part in (lines[:given.count(b"\n")], lines[given.count(b"\n"):]))
        note_journal(journal)
    note_session(given, printed)
    for option, word in zip(words, words[1:]):
        path = os.path.join(folder, word)
        # what a link leads to may be what these tests write themselves, as /proc/self/fd/1
        if option in ("--save", "--journal") and os.path.isfile(path) and not os.path.islink(path):
            note_journal(Path(path).read_bytes())


def keep() -> None:
    """Keeps what this process has noted so far, for the last test; in one step, in the place of what it kept before."""
    if os.environ.get("SAID"):
        path = Path(os.environ["SAID"], str(os.getpid()))
        new = path.parent.with_name(f"said.{path.name}")
        new.write_bytes(pickle.dumps((REQUESTS, REPLIES, JOURNAL)))
        os.replace(new, path)


def take() -> None:
    """Adds what other processes have kept to what was noted here."""
    for path in Path(os.environ["SAID"]).iterdir() if os.environ.get("SAID") else []:
        for lines, others in zip((REQUESTS, REPLIES, JOURNAL), pickle.loads(path.read_bytes())):
            lines.update(others)
