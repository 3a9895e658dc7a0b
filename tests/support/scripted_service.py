"""What stands for a service in tests of its clients: it answers as it is told to, and has noted what it was asked."""
import contextlib
import os
import socket
import tempfile
import threading
from collections.abc import Collection, Iterable, Iterator

from registryd import List, Publish, Unyank, Yank

GREETING = '{"op":"resolve","needs":[]}'
FENCE = "{}"
REQUESTS: list[Publish | Yank | List] = [Publish("log", "1.0.0"), Yank("log", "1.0.0"), Unyank("log", "1.0.0"), List()]
ASKED = {it.line(): it for it in REQUESTS}
PUBLISH, YANK, UNYANK, LIST = ASKED
PUBLISHED, YANKED, UNYANKED = ('{"name":"log","needs":[],"op":"publish","version":"1.0.0"}',
                               '{"name":"log","op":"yank","version":"1.0.0"}',
                               '{"name":"log","op":"unyank","version":"1.0.0"}')
UNAVAILABLE = '{"error":503,"name":"Unavailable","revision":1}\n'
REFUSED = ('{"error":503,"name":"DiskFault","reason":"the journal can\'t be written: No '
           'space left on device","revision":1}\n')
PUBLISHED_BEFORE = '{"error":7,"name":"AlreadyPublished","revision":1}\n'
LISTED = '{"packages":[["log",[["1.0.0",true]]]],"revision":4}\n'


def accepted(*revisions: int) -> str:
    return "".join(f'{{"ok":true,"revision":{it}}}\n' for it in revisions)


# What becomes of lines whose replies are lost: the journal's commands, the service's scripts, the lines that a client
# is given, the
# replies that it gives in the end, and what each connection is asked.
JOURNAL, ALL = [PUBLISHED, YANKED, UNYANKED], [YANK, UNYANK, YANK, LIST]
LOST = [
    # commands are looked up in their order
    *((JOURNAL, [(4, first), (2, accepted(4) + LISTED)], ALL, accepted(2, 3, 4) + LISTED,
       [[GREETING, *ALL], [FENCE, YANK, LIST]])
      for first in ("", UNAVAILABLE, '{"ok":true,"rev', accepted(2), accepted(2, 3), accepted(2) + UNAVAILABLE
                    + LISTED)),
    # what a service refuses is not asked again
    ([], [(2, REFUSED + LISTED)], [YANK, LIST], REFUSED + LISTED, [[GREETING, YANK, LIST]]),
    # between what is asked again a command that was carried out is answered at its place
    (JOURNAL, [(3, ""), (1, LISTED), (1, LISTED)], [LIST, YANK, LIST], LISTED + accepted(2) + LISTED,
     [[GREETING, LIST, YANK, LIST], [FENCE, LIST], [GREETING, LIST]]),
    # what stood when it connected is no answer
    ([PUBLISHED], [(1, ""), (1, PUBLISHED_BEFORE)], [PUBLISH], PUBLISHED_BEFORE,
     [[GREETING, PUBLISH], [FENCE, PUBLISH]]),
    # requests alone need no look
    ([], [(1, ""), (1, UNAVAILABLE), (1, LISTED)], [LIST], LISTED, [[GREETING, LIST]] * 3),
]


@contextlib.contextmanager
def answering(path: str, text: str) -> Iterator[None]:
    """Who connects there is answered by a text, and no more, whatever it asks."""
    with socket.socket(socket.AF_UNIX) as listening:
        listening.bind(path)
        listening.listen()

        def run() -> None:
            connection, _ = listening.accept()
            with connection:
                connection.recv(100)
                connection.sendall(text.encode())
        thread = threading.Thread(target=run)
        thread.start()
        yield
        thread.join()
    os.unlink(path)


class Scripted:
    """Each connection has its first line answered by the revision, and then, once so many lines came, gets the text of
    the next script; it is closed then, or left open where the text ends by `...`. After the last script nobody listens
    any more. Over HTTP it tells the journal of these commands."""

    def __init__(self, folder: str, revision: int, commands: Collection[str],
                 scripts: Iterable[tuple[int, str]]) -> None:
        self.path, self.revision, self.scripts = os.path.join(tempfile.mkdtemp(dir=folder),
                                                              "socket"), revision, list(scripts)
        self.journal = "".join(f"{line}\n" for line in ["registry-journal 1", *commands, f"end {len(commands)}"])
        self.asked: list[list[str]] = []  # the lines of each connection
        self.is_over = threading.Event()  # what is left open is closed then
        self.listening = socket.socket(socket.AF_UNIX)
        self.listening.bind(self.path)
        self.listening.listen()
        threading.Thread(target=self.run, daemon=True).start()

    def run(self) -> None:
        with self.listening, contextlib.suppress(OSError):  # it is shut
            while True:
                connection, _ = self.listening.accept()
                threading.Thread(target=self.answer, args=(connection,), daemon=True).start()

    def answer(self, connection: socket.socket) -> None:
        with connection, connection.makefile("r") as lines, contextlib.suppress(OSError):  # a client may leave
            first = lines.readline().rstrip("\n")
            if first.startswith("GET "):
                connection.sendall(f"HTTP/1.1 200 OK\r\n\r\n{self.journal}".encode())
            else:
                count, text = self.scripts.pop(0)
                is_last = not self.scripts
                asked = [first]
                self.asked.append(asked)
                connection.sendall(f'{{"revision":{self.revision},"selected":[]}}\n'.encode())
                asked += [line for line in (lines.readline().rstrip("\n") for _ in range(count)) if line]
                if is_last:
                    self.close()
                connection.sendall(text.removesuffix("...").encode())
                if text.endswith("..."):
                    self.is_over.wait()

    def close(self) -> None:
        """Listens no more."""
        with contextlib.suppress(OSError):
            os.unlink(self.path)
            self.listening.shutdown(socket.SHUT_RDWR)

    def end(self) -> None:
        self.close()
        self.is_over.set()
