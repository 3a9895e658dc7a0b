"""The program as a child of the service: what is written to it, and each line that it answers."""
import asyncio
import re
import time
from collections import deque
from collections.abc import Callable, Iterable, Sequence
from subprocess import PIPE

from registry_cli.failures import Failed
from registry_cli.program import program
from registry_cli.session import reason
from registry_cli.tied import Tied

EMPTY = b'{"op":"resolve","needs":[]}'
ACCEPTED = b'{"ok":'  # how the reply to an accepted command begins


class Child(asyncio.Protocol):
    """A program over a journal, begun with these words. `gone` is a future with the reason why it has ended."""

    def __init__(self, path: str, words: Iterable[str], handed: Sequence[int] = ()) -> None:
        self.path, self.is_killed = path, False
        self.waiting: deque[Callable[[bytes], object]] = deque()
        self.said = ""  # on standard error, once it has ended
        self.pieces: list[bytes] = []  # of the line that has not come whole: it may be long
        self.input: asyncio.WriteTransport | None = None
        self.early: list[bytes] = []  # what is to be written before the pipe is connected
        # in a group of its own: a key that interrupts the service leaves its programs to it
        self.process = Tied([*program(), "serve", *words], stdin=PIPE, stdout=PIPE, stderr=PIPE, pass_fds=handed,
                            process_group=0)
        self.gone: asyncio.Future[str] = asyncio.get_running_loop().create_future()

    async def begin(self) -> int:
        loop = asyncio.get_running_loop()
        loaded: asyncio.Future[bytes] = loop.create_future()
        self.ask(EMPTY, loaded.set_result)
        self.input, _ = await loop.connect_write_pipe(asyncio.BaseProtocol, self.process.stdin)
        self.input.write(b"".join(self.early))
        await loop.connect_read_pipe(lambda: self, self.process.stdout)
        await asyncio.wait((loaded, self.gone), return_when=asyncio.FIRST_COMPLETED)
        if not loaded.done():
            raise Failed(self.gone.result())
        revision = re.search(rb"[0-9]+", loaded.result())
        assert revision
        return int(revision[0])

    def ask(self, line: bytes, answered: Callable[[bytes], object]) -> None:
        """Writes a line; `answered` is called with the reply, unless the program ends before."""
        self.waiting.append(answered)
        if not self.input:
            self.early.append(line + b"\n")
        elif not self.input.is_closing():
            self.input.write(line + b"\n")

    def data_received(self, data: bytes) -> None:
        first, *others = data.split(b"\n")
        self.pieces.append(first)
        if not others:
            return
        *lines, last = b"".join(self.pieces), *others
        self.pieces = [last]
        for line in lines:
            if not self.is_killed:  # what it had is given up then, by a reply before this one too
                self.waiting.popleft()(line)

    def connection_lost(self, _: Exception | None) -> None:
        assert self.input and self.process.stderr
        if not self.input.is_closing():
            self.input.abort()
        with self.process.stderr as file:
            self.said = file.read().decode(errors="replace")
        status = self.process.wait()
        self.process.let_go()
        why = reason(self.said, self.path) or self.said.strip() or f"the program ended with status {status}"
        self.gone.set_result(why)

    def end_input(self) -> None:
        assert self.input
        self.input.close()

    def spent(self) -> float:
        """Seconds of a processor that it has had; none where it has ended."""
        # as Linux numbers the clocks of processes
        return 0 if self.gone.done() else time.clock_gettime(~self.process.pid << 3 | 2)

    def kill(self) -> None:
        self.is_killed = True
        self.process.kill()
