"""A replica: the program `registryd serve` as a child, which answers lines by what it was fed."""
import os
import subprocess
import tempfile
from collections.abc import Iterable, Iterator, Sequence

from registry_cli import tied
from registry_etcd.gateway import Fault

PIPE_BYTES = 60_000  # less than a pipe holds
NO_LINE, BAD_LINE = b"{}", b'{"error":19,'  # what each replica answers as a line that asks nothing


class Lost(Exception):
    """The child has ended, or had no memory for what others have accepted."""


class Replica:
    """It is asked by lines and answers each; which of them change it is the caller's affair."""

    def __init__(self, program: str, workers: int, journal: bytes) -> None:
        self.owed = 0  # how many lines have no reply so far
        self.begun: list[bytes] = []  # the pieces of a reply whose end was not read
        with tempfile.TemporaryDirectory() as folder:
            path = os.path.join(folder, "journal")
            with open(path, "wb") as file:
                file.write(journal)
            # in a group of its own, so that a key that ends the front leaves it to the front
            self.child = tied.Tied([program, "serve", "--workers", str(workers), "--load", path], bufsize=0,
                                   process_group=0, stdin=subprocess.PIPE, stdout=subprocess.PIPE,
                                   stderr=subprocess.PIPE)
            assert self.child.stdin and self.child.stdout
            self.stdin, self.stdout = self.child.stdin, self.child.stdout
            try:
                # it answers once the journal is loaded; then the file is no longer needed
                (reply,) = self.answer([NO_LINE])
            except Lost as lost:
                raise Fault(f"the program does not begin with the journal: {self.ended()}") from lost
            if not reply.startswith(BAD_LINE):
                raise Fault(f"{program} answers as registryd does not")

    def ended(self) -> str:
        _, stderr = self.child.communicate()
        return stderr.decode(errors="replace").strip() or f"it ended with status {self.child.returncode}"

    @staticmethod
    def kept(program: str, path: str) -> None:
        """Has the program go on with the file of a journal for no lines: it then is whole, and no session has it."""
        if not os.path.exists(path):
            raise Fault(f"{path} is not there")
        done = tied.run([program, "serve", "--workers", "1", "--journal", path], stdout=subprocess.PIPE,
                        stderr=subprocess.PIPE)
        if done.returncode:
            why = done.stderr.decode(errors="replace").strip()
            raise Fault(f"the program does not go on with the journal: {why}")

    def send(self, lines: Sequence[bytes]) -> None:
        """Sends lines that a pipe holds, and waits for nothing."""
        self.owed += len(lines)
        try:
            left = memoryview(b"".join(line + b"\n" for line in lines))
            while left:
                left = left[self.stdin.write(left):]
        except OSError as lost:
            raise Lost from lost

    def send_ahead(self, lines: Iterable[bytes]) -> None:
        """Sends as many of these lines, from the first on, as a pipe holds."""
        self.send(next(pieces(lines)))

    def replies(self) -> Iterator[list[bytes]]:
        """The replies to what was sent, without their line feeds, in lists as they come."""
        while self.owed:
            piece = self.stdout.read(PIPE_BYTES)
            if not piece:
                raise Lost
            *whole, rest = piece.split(b"\n")
            if whole:
                whole[0], self.begun = b"".join([*self.begun, whole[0]]), []
                self.owed -= len(whole)
                yield whole
            self.begun.append(rest)

    def each(self, lines: Iterable[bytes]) -> Iterator[list[bytes]]:
        """In lists as they come. What was sent before and has no reply yet is passed over."""
        for _ in self.replies():
            pass
        for piece in pieces(lines):
            self.send(piece)
            yield from self.replies()

    def answer(self, lines: Iterable[bytes]) -> list[bytes]:
        return [reply for some in self.each(lines) for reply in some]

    def end(self) -> None:
        self.child.kill()
        self.child.communicate()
        self.child.let_go()


def pieces(lines: Iterable[bytes]) -> Iterator[list[bytes]]:
    """What fits into a pipe, or one line: so the child never waits for a reader while it is written to."""
    piece: list[bytes] = []
    held = 0
    for line in lines:
        if piece and held + len(line) + 1 > PIPE_BYTES:
            yield piece
            piece, held = [], 0
        piece.append(line)
        held += len(line) + 1
    if piece:
        yield piece
