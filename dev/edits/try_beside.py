"""Tries the listed wrong bodies beside the gate: those of a crate as soon as it is proved and a processor has no proof
to do. Before them it builds the static library, once all below that is proved.

The gate's libraries are linked into a room of the tries' own as each is told as proved, so that nothing that the gate
builds, or puts back at its end, changes what a try rests on. Tries give way to proofs: they run at the lowest priority,
and none begins while a crate waits for a processor."""
import contextlib
import os
import tempfile
import threading
from collections import Counter
from collections.abc import Sequence
from concurrent.futures import Future, ThreadPoolExecutor
from typing import Any, Self

from dev.building import prove_library
from dev.building.progress import stands_on
from dev.draw_crates import reached
from dev.edits.edit_files import Edit
from dev.edits.try_rounds import BAD, BY_CLAUSE, BY_PROOF, Verdict, build_below, library, listed, take, try_in_rounds


def give_way() -> None:
    """Gives the thread that calls it, and what it starts, the lowest priority."""
    os.setpriority(os.PRIO_PROCESS, threading.get_native_id(), 19)


def try_crate(edits: Sequence[Edit], room: str) -> list[tuple[Edit, Verdict]]:
    try:
        return list(try_in_rounds(edits, room))
    except Exception as fault:
        return [(edit, (BAD, f"it could not be tried: {fault}")) for edit in edits]


class Tries:
    """The listed edits, by crates: those that wait and those that are tried, over what the gate has told so far."""

    def __init__(self, processors: int, library: str) -> None:
        crates = stands_on()
        self.library = library  # the static one
        self.built: Future[tuple[bool, str]] | None = None  # what comes of its build, once that is begun
        self.processors, self.waiting = processors, {edits[0].crate: edits for edits in listed()}
        self.below = {name: reached(crates, name) for name in crates}
        self.told: set[str] = set()
        self.failed: set[str] = set()
        self.taken: set[str] = set()
        self.tried: list[Future[list[tuple[Edit, Verdict]]]] = []
        self.room = tempfile.TemporaryDirectory(ignore_cleanup_errors=True)
        self.pool, self.lock = ThreadPoolExecutor(processors, initializer=give_way), threading.RLock()

    def __enter__(self) -> Self:
        return self

    def __exit__(self, broken_off: object, *_: object) -> None:
        if broken_off:
            # what is being tried goes no further without the room
            self.room.cleanup()
        self.pool.shutdown(cancel_futures=True)
        self.room.cleanup()

    def tell(self, name: str, is_proved: bool) -> None:
        """Notes what the gate says of a crate, and begins what can be tried now."""
        if name in self.told or name not in self.below:
            return
        self.told.add(name)
        if is_proved:
            self.take(name)
        else:
            self.failed.add(name)
        self.go_on()

    def take(self, name: str) -> None:
        # a library with a stamp was built by hand: it does not go with the gate's own
        if os.path.exists(os.path.join(os.path.dirname(library(name)), "stamp")):
            return
        # a program, or one whose place the gate keeps elsewhere, is not there: tries over it come when the gate has
        # ended
        with contextlib.suppress(OSError):
            take(name, self.room.name)
            self.taken.add(name)

    def ready(self) -> list[str]:
        """The crates with edits that are proved, and whose libraries are taken, those with the most edits first."""
        found = [name for name in self.waiting if name in self.told - self.failed and self.below[name] <= self.taken]
        return sorted(found, key=lambda name: -len(self.waiting[name]))

    def idle(self) -> int:
        """How many processors neither prove nor try. Each crate whose libraries are proved is being proved."""
        proofs = [name for name in self.below if name not in self.told and self.below[name] <= self.told]
        builds: list[Future[Any]] = [self.built] if self.built else []
        return self.processors - len(proofs) - sum(not begun.done() for begun in [*self.tried, *builds])

    def go_on(self, *_: object) -> None:
        """Begins what can be done now: when a crate is told of, and when a try or the library's build has ended."""
        with self.lock, contextlib.suppress(RuntimeError):
            if self.idle() > 0 and self.below[self.library] <= self.taken:
                self.build_library()
            for name in self.ready()[:max(0, self.idle())]:
                self.begin(name, self.room.name)

    def begin(self, name: str, room: str) -> None:
        begun = self.pool.submit(try_crate, self.waiting.pop(name), room)
        self.tried.append(begun)
        begun.add_done_callback(self.go_on)

    def build_library(self) -> Future[tuple[bool, str]]:
        """Begins the build of the static library where it is not begun; answers what comes of it."""
        with self.lock:
            if not self.built:
                self.built = self.pool.submit(prove_library.build, self.library, self.room.name)
                self.built.add_done_callback(self.go_on)
            return self.built

    def end(self, is_well: bool) -> tuple[int, int]:
        """Tries what is left, once the gate has ended well; answers how many edits are refused, by a clause or because
        a proof no longer fits, and how many are not, or say little."""
        with self.lock:
            if is_well:
                for name in self.ready():
                    self.begin(name, self.room.name)
                self.try_the_rest()
            self.waiting.clear()
        kinds: Counter[str] = Counter()
        for begun in self.tried:
            for edit, (kind, why) in begun.result():
                print(f"wrong body {edit.crate}/{edit.file}: {kind}: {why[:160]}", flush=True)
                kinds[kind] += 1
        if kinds:
            print("wrong bodies: " + ", ".join(f"{count} {kind}" for kind, count in kinds.most_common()), flush=True)
        refused = kinds[BY_CLAUSE] + kinds[BY_PROOF]
        return refused, kinds.total() - refused

    def try_the_rest(self) -> None:
        """Tries the edits of crates that no line of the gate was told of, or whose libraries it keeps elsewhere."""
        if not self.waiting:
            return
        room = os.path.join(self.room.name, "rest")
        os.mkdir(room)
        for name in build_below(self.waiting):
            take(name, room)
        for name in [*self.waiting]:
            self.begin(name, room)
