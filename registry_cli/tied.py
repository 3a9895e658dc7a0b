"""Programs that end with the one that began them, however that one ends.

The system sends a signal to the owner of a pipe's end once nobody holds the other end any more. So a program inherits
one end as its owner, and whoever began it holds the other and closes it by ending, also by SIGKILL in the middle of a
search. (A death signal, `PR_SET_PDEATHSIG`, would come when the thread ends that began it, and would need code between
fork and exec.) A program that is not yet tied has been asked nothing: it ends with its closed input.

What is installed begins the program without its script, so glibc is asked here for huge pages, as that does."""
from __future__ import annotations

import contextlib
import fcntl
import os
import select
import signal
import subprocess
import threading

from .shapes import IO, Any, Callable, Collection, HasFileno, Mapping, Sequence

TUNABLES, HUGE_PAGES = "GLIBC_TUNABLES", "glibc.malloc.hugetlb="


def environment() -> dict[str, str]:
    """This environment, in which glibc is asked for huge pages, unless the user has set that."""
    tunables = os.environ.get(TUNABLES, "")
    if f":{HUGE_PAGES}" in f":{tunables}":
        return {**os.environ}
    return {**os.environ, TUNABLES: f"{HUGE_PAGES}1:{tunables}" if tunables else f"{HUGE_PAGES}1"}


class Tied(subprocess.Popen):  # type: ignore[type-arg]  # of bytes, or of letters where `how` says text=True
    """It is killed when this process ends, with its group where it has its own. `env` is by default `environment()`."""
    stdin: IO[Any]  # each of these is there where a pipe was asked for
    stdout: IO[Any]
    stderr: IO[Any]
    held: int | None = None  # the other end of the pipe that it owns

    def __init__(self, words: Sequence[str], *, pass_fds: Collection[int] = (), process_group: int | None = None,
                 env: Mapping[str, str] | None = None, **how: Any) -> None:
        watched, self.held = os.pipe()
        try:
            super().__init__(words, pass_fds=[watched, *pass_fds], process_group=process_group,
                             env=environment() if env is None else env, **how)
            fcntl.fcntl(watched, fcntl.F_SETOWN, self.pid if process_group is None else -self.pid)
            fcntl.fcntl(watched, fcntl.F_SETSIG, signal.SIGKILL)
            fcntl.fcntl(watched, fcntl.F_SETFL, os.O_ASYNC)
        except BaseException:
            self.let_go()
            raise
        finally:
            os.close(watched)

    def let_go(self) -> None:
        """Closes what ties it: whatever then still runs of it is killed."""
        held, self.held = self.held, None
        if held is not None:
            os.close(held)

    def __exit__(self, *how: Any) -> None:
        try:
            super().__exit__(*how)
        finally:
            self.let_go()

    def __del__(self, *more: Any) -> None:
        self.let_go()
        super().__del__(*more)  # type: ignore[misc]  # it is there, and the types of the library leave it out


def run(words: Sequence[str], *, input: bytes | None = None, timeout: float | None = None,
        **how: Any) -> subprocess.CompletedProcess[bytes]:
    """`subprocess.run` of a program that ends with this process. Without an input it reads nothing."""
    how.setdefault("stdin", subprocess.DEVNULL if input is None else subprocess.PIPE)
    with Tied(words, **how) as running:
        try:
            said = running.communicate(input, timeout)
        except BaseException:
            running.kill()
            raise
    return subprocess.CompletedProcess(words, running.returncode, *said)


def when_unread(file: HasFileno, do: Callable[[], object]) -> None:
    """Once nobody can read any more what is written to a pipe or a socket; of any other file that is never."""
    with contextlib.suppress(OSError, ValueError):
        watched = select.poll()
        watched.register(file.fileno(), 0)

        def wait() -> None:
            watched.poll()
            do()
        threading.Thread(target=wait, daemon=True).start()
