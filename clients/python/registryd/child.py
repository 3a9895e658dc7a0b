"""A session with a program of its own, for `Registry(program)`."""
from __future__ import annotations

import contextlib
import fcntl
import functools
import io
import os
import queue
import select
import signal
import subprocess
import threading
from collections import deque
from collections.abc import Sequence

from . import waiting
from .replies import Ended, answer
from .waiting import CLOSED, Ending, Futures, Threaded, Waiting, taken_from, tell_all

MOST_TOLD = 4096  # bytes of standard error that are kept, the last ones
DIED = "the program ended"
BROKEN_OFF = "a call was interrupted while its line was being sent"


class Child(Threaded):
    """A session with a program that is started for it, and asked over pipes by three threads.

    A call may be broken off between any two of its steps: by a key, by what a signal's handler raises, for lack of
    memory. So whoever finds that a line and its future did not enter both, which only one that has the turn can, writes
    no more, and the session ends. The three threads are not broken off."""

    def __init__(self, words: Sequence[str]) -> None:
        lifeline, self._lifeline = map(beside_streams, os.pipe())
        try:
            # in a session of its own: a key that interrupts this program leaves it to end with its input, and to save
            pipe = subprocess.PIPE
            self._process = subprocess.Popen(words, stdin=pipe, stdout=pipe, stderr=pipe, start_new_session=True,
                                             pass_fds=[lifeline])
            end_with_writers(lifeline, self._process.pid)
        except BaseException:
            os.close(self._lifeline)
            raise
        finally:
            os.close(lifeline)
        assert self._process.stdin and self._process.stdout and self._process.stderr
        self._stdin, self._stdout, self._stderr = self._process.stdin, self._process.stdout, self._process.stderr
        self._turn = threading.RLock()  # which a thread can give back only where it has it
        self._is_whole = True  # whether each line has its future and more may come
        # of the lines that are written and have no reply so far, in order
        self._waiting: deque[Waiting] = deque()
        self._queued: deque[tuple[bytes, Futures]] = deque()  # what a thread is to write, with the futures of its lines
        self._wake: queue.SimpleQueue[bool] = queue.SimpleQueue()  # has that thread look there; false has it end
        self._input = self._stdin.fileno()
        self._writable = select.poll()
        self._writable.register(self._input, select.POLLOUT)
        self._fault = ""  # why no more lines are taken, but for a call to close or kill
        self._is_closed = False  # whether there was one
        self._is_told = False  # whether one has come to its end
        self._is_broken = False  # whether the program reads no more
        self._is_over = False  # whether what waits is being told that it gets no reply
        self._ending = Ending()  # of the program, once all that waited is told
        self._told = b""  # the end of standard error
        self._threads = [threading.Thread(target=run, daemon=True) for run in (self._write, self._hear, self._read)]
        for thread in self._threads:
            thread.start()

    def send(self, lines: Sequence[bytes], futures: Futures) -> None:
        if self._is_closed or self._fault:
            raise self._ended()
        text = b"".join(lines)
        if not self._write_now(text, futures):
            self._queued.append((text, futures))
            self._wake.put(True)
        if self._is_over:  # perhaps these came too late to be told
            raise self._ended()

    def _write_now(self, text: bytes, futures: Futures) -> bool:
        """Writes a short text where that can't wait, which spares a change of threads; answers whether it has."""
        try:
            if len(text) > select.PIPE_BUF or not self._turn.acquire(blocking=False):
                return False
            is_free = self._is_whole and not self._queued and bool(self._writable.poll(0))
            if is_free:
                self._is_whole = False
                self._waiting.extend(futures)
                os.write(self._input, text)
                self._is_whole = True
            self._turn.release()
            return is_free
        except BrokenPipeError:  # the thread that writes ends the program, and the one that reads tells
            self._is_broken = True
            self._turn.release()
            self._wake.put(True)
            return True
        except BaseException:
            try:  # the first call here is this one, since another exception may come behind each
                self._turn.release()
            except RuntimeError:
                pass  # this thread does not have it
            self._wake.put(True)
            raise

    def close(self, seconds: float | None) -> None:
        self._is_closed = True
        self._wake.put(False)
        is_killed = not self._ending.wait(seconds)
        if is_killed:
            self._end()
            self._ending.wait(waiting.WAITED)
        was_told, self._is_told = self._is_told, True
        if is_killed:
            raise Ended(f"the program was killed, since it had not ended {seconds:g} seconds after the session was "
                        "closed", self._process.returncode)
        if not was_told and (self._fault or self._process.returncode):
            raise self._ended(self._fault or DIED)

    def kill(self) -> None:
        self._is_closed = self._is_told = True
        self._wake.put(False)
        self._end()
        self._ending.wait(None)

    # The threads

    def _write(self) -> None:
        """A program that reads no more is ended, and the thread that reads tells."""
        for step in (self._write_queued, self._shut):
            try:
                step()
            except Exception:  # it reads no more, or there is no memory
                self._is_broken = True
        if self._is_broken:
            self._stop()
        if self._is_over:
            self._tell_left()

    def _write_queued(self) -> None:
        while self._wake.get():
            with self._turn:
                if not self._is_whole:
                    self._fault = self._fault or ("" if self._is_broken else BROKEN_OFF)
                    return
                self._is_whole = False
                for text, futures in taken_from(self._queued):
                    self._waiting.extend(futures)
                    self._stdin.write(text)
                self._stdin.flush()
                self._is_whole = True

    def _shut(self) -> None:
        with self._turn:
            self._is_whole = False
        self._stdin.close()

    def _hear(self) -> None:
        assert isinstance(self._stderr, io.BufferedReader)
        with self._stderr as stderr:
            while told := stderr.read1(MOST_TOLD):
                self._told = (self._told + told)[-MOST_TOLD:]

    def _read(self) -> None:
        """Gives replies to the lines that wait for them, and tells those that get none."""
        try:
            fault = self._give_replies()
        except BaseException as why:  # as there is no memory, or a call back of a future has raised SystemExit
            fault = f"a reply could not be given: {why!r}"
        if self._waiting or not self._is_closed:
            self._stop()
        self._process.wait()
        self._stdout.close()
        self._threads[1].join(waiting.WAITED)  # a program that this one has started may keep standard error open
        if fault != DIED or not self._is_closed:
            self._fault = self._fault or fault
        self._is_over = True
        self._wake.put(False)
        os.close(self._lifeline)
        self._tell_left()
        self._threads[0].join(waiting.WAITED)  # it may be that such a program keeps the pipe full
        self._ending.tell()

    def _give_replies(self) -> str:
        """Gives each reply to the line that waits longest; answers why no more come."""
        for line in self._stdout:
            if not line.endswith(b"\n"):
                break
            try:
                reply, future = answer(line), self._waiting.popleft()
            except (ValueError, KeyError, TypeError, IndexError):
                return f"the program wrote no reply: {line[:200]!r}"
            future.settle(reply)
        return DIED

    def _tell_left(self) -> None:
        """Tells what gets no reply. Two threads may do so at once."""
        ended = functools.partial(self._ended, self._fault or DIED)
        tell_all(taken_from(self._waiting), ended)
        for _, futures in taken_from(self._queued):
            tell_all(futures, ended)

    def _stop(self) -> None:
        """Ends the program unless it ends by itself in a moment."""
        try:
            self._process.wait(waiting.WAITED)
        except subprocess.TimeoutExpired:
            self._end()

    def _end(self) -> None:
        """With what it may have started. Calls that may be broken off do so: they take none of Popen's locks."""
        if self._process.returncode is None:
            with contextlib.suppress(ProcessLookupError):
                os.killpg(self._process.pid, signal.SIGKILL)

    def _ended(self, fault: str = "") -> Ended:
        why = fault or (CLOSED if self._is_closed else self._fault)
        told, status = self._told.decode(errors="replace").strip(), self._process.returncode
        how = ""
        if status is not None and why != BROKEN_OFF:
            how = f" with status {status}" if status >= 0 else f" by signal {-status}"
        return Ended(f"{why}{how}{': ' if told else ''}{told}", status)


def beside_streams(file: int) -> int:
    """The same file by a number above those of the standard streams, which a program gets others at."""
    beside = fcntl.fcntl(file, fcntl.F_DUPFD_CLOEXEC, 3)
    os.close(file)
    return beside


def end_with_writers(pipe: int, process: int) -> None:
    """Has the system kill a process, with its group, that has this end of a pipe, once nobody has the other end any
    more: so it doesn't outlive the one that started it, whichever way that ends, and in the midst of a search. (The
    signal that prctl offers comes as soon as the thread has ended that started it, and would take code between fork and
    exec.)"""
    if not hasattr(fcntl, "F_SETSIG"):  # it is Linux that has it
        return
    with contextlib.suppress(ProcessLookupError):
        fcntl.fcntl(pipe, fcntl.F_SETOWN, -process)
        fcntl.fcntl(pipe, fcntl.F_SETSIG, signal.SIGKILL)
        fcntl.fcntl(pipe, fcntl.F_SETFL, fcntl.FASYNC)
