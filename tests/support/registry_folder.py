"""A folder with a journal for each test of the command `registry`, and short ways to call it there."""
import fcntl
import os
import pty
import struct
import subprocess
import tempfile
import termios
import unittest
from collections.abc import Mapping, Sequence
from typing import Any

from tests.support.called import registry
from tests.support.program import publish, run


class Folder(unittest.TestCase):
    def setUp(self) -> None:
        folder = tempfile.TemporaryDirectory()
        self.addCleanup(folder.cleanup)
        self.folder, self.journal = folder.name, os.path.join(folder.name, "registry.journal")

    def path(self, name: str, text: str | None = None) -> str:
        """The path of a file of the folder, which gets this text where one is given."""
        path = os.path.join(self.folder, name)
        if text is not None:
            with open(path, "w", encoding="utf-8") as out:
                out.write(text)
        return path

    def text(self, name: str) -> str:
        with open(self.path(name), encoding="utf-8") as file:
            return file.read()

    def hold(self, *lines: str) -> None:
        """Makes the journal anew, of these lines, by the program itself."""
        given = "".join(line + "\n" for line in lines).encode()
        done = run(["serve", "--workers", "1", "--save", self.journal], given)
        self.assertEqual((done.returncode, done.stdout.count(b'{"ok":true')), (0, len(lines)))

    def registry(self, *words: object, **more: str) -> tuple[Any, ...]:
        """The status, the output and the errors of the command on that journal, with the folder's name left out."""
        status, *said = registry(*words, "--journal", self.journal, **more)
        return status, *(it.replace(self.folder + os.sep, "") for it in said)


def pigeons(count: int) -> tuple[list[str], list[str]]:
    """Pigeons in one hole less, and the needs for all of them: a pigeon's version names a hole, of which one version
    lets one pigeon in. That they don't all fit takes a long search, which grows fast with their number."""
    lines = [publish(f"hole-{hole}", f"{pigeon}.0.0") for hole in range(count - 1) for pigeon in range(count)]
    lines += [publish(f"pigeon-{pigeon}", f"{hole}.0.0", [f"hole-{hole} ={pigeon}.0.0"])
              for pigeon in range(count) for hole in range(count - 1)]
    return lines, [f"pigeon-{number}" for number in range(count)]


def at_terminal(words: Sequence[str], environment: Mapping[str, str], typed: bytes = b"", columns: int = 0,
                lines: int = 0) -> tuple[int, str]:
    """The status of a command whose standard streams are a terminal, which may say its size, and all that the terminal
    shows; what is typed, is typed at once."""
    ours, theirs = pty.openpty()
    fcntl.ioctl(theirs, termios.TIOCSWINSZ, struct.pack("4H", lines, columns, 0, 0))
    given = {**os.environ, "TERM": "xterm", **environment}
    with subprocess.Popen(words, stdin=theirs, stdout=theirs, stderr=theirs, env=given) as running:
        os.close(theirs)
        os.write(ours, typed)
        shown = b""
        try:
            while part := os.read(ours, 4096):
                shown += part
        except OSError:  # the other side is closed
            pass
        status = running.wait(timeout=60)
    os.close(ours)
    return status, shown.decode()
