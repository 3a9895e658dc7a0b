"""Runs fronts over three members of etcd while members and fronts are killed, held up and cut off and replies are lost,
and judges what was answered by the journal that is printed in the end.

    python3 -m dev.long.etcd_histories --histories 100      seeds are counted from --seed
    python3 -m dev.long.etcd_histories --loopback           the members on the machine's own network, none is cut off

By itself it puts the members into namespaces of the network where the machine lets it. Of three histories the first
kills fronts too, and begins them again with the same lines; the second keeps snapshots and drops cells; the third does
both, at random and so that no cell may stay, and there a front may say that it can't answer as before. Status 1 where a
history shows what may not be; it is told with its seed, and what was answered is left in a file."""
import argparse
import collections
import json
import os
import random
import signal
import sys
import threading
import time
from collections.abc import Callable
from typing import Any

from tests.support import fronts
from tests.support.fake_etcd import Drop, Gate
from tests.support.members import Members, is_installed, may_divide, pause
from tests.support.program import LIST, publish, resolve, unyank, yank

NAMES = ["a", "b", "c", "d"]
KEPT = (0, 0, 1, 3, 16, 64)  # how many cells stay behind a snapshot


def made_lines(rng: random.Random) -> list[str]:
    """A few lines that are sent together; several fronts come to ask the same."""
    return [made_line(rng) for _ in range(rng.choice((1, 1, 1, 2, 5)))]


def made_line(rng: random.Random) -> Any:
    name, version = rng.choice(NAMES), f"{rng.randrange(3)}.{rng.randrange(12)}.0"
    kind = rng.random()
    if kind < 0.45:
        needs = [f"{other} >={rng.randrange(3)}.0.0" for other in NAMES if other > name and rng.random() < 0.4]
        return publish(name, version, needs)
    if kind < 0.6:
        return yank(name, version)
    if kind < 0.7:
        return unyank(name, version)
    if kind < 0.75:
        return publish("A", version)
    if kind < 0.85:
        return LIST
    return resolve(f"{name} >={rng.randrange(3)}.0.0", explain=rng.random() < 0.5)


class History:
    """One history over members that stand."""

    def __init__(self, members: Members, seed: int, count: int, seconds: float, calls: int) -> None:
        self.members, self.seed, self.seconds, self.calls = members, seed, seconds, calls
        self.prefix = f"history-{seed}-{os.getpid()}"
        self.rng = random.Random(seed)
        self.are_killed, self.are_dropped = seed % 3 != 1, seed % 3 != 0  # fronts, and cells
        self.gates: list[Gate] = []
        self.done: collections.Counter[str] = collections.Counter()
        self.is_over = threading.Event()
        self.fronts = [self.front(seat) for seat in range(1, count + 1)]

    def front(self, seat: int) -> fronts.Front:
        """A front that reaches each member by a gate of its own."""
        rng = random.Random(self.rng.random())
        kept = ["--compact-every", "16", "--keep", "64"] if self.are_dropped else ["--compact-every", "0"]
        if self.may_forget:
            kept = ["--compact-every", str(rng.choice((0, 1, 5, 16))), "--keep", str(rng.choice(KEPT))]

        def hook(moment: str, path: str, asked: object) -> None:
            if path != "/v3/watch" and not self.is_over.is_set() and rng.random() < 0.03:
                if self.are_killed and rng.random() < 0.2:
                    self.done[f"front killed {moment} a call"] += 1
                    front.child.kill()
                else:
                    self.done[f"lost {moment} a call"] += 1
                raise Drop

        gates = [Gate(member, hook) for member in self.members.behind()]
        self.gates += gates
        urls = [gates[(seat + turn) % len(gates)].url for turn in range(len(gates))]
        words = ["--prefix", self.prefix, "--timeout", "1", "--patience", "600", *kept]
        front = fronts.Front(urls, seat, *words, writer=f"w{seat}", may_forget=self.may_forget)
        return front

    @property
    def may_forget(self) -> bool:
        """Whether a front that is begun again may find that a reply is no longer kept."""
        return self.are_killed and self.are_dropped

    def ask(self, front: fronts.Front, rng: random.Random) -> None:
        """A client, who asks so long, and so often at least."""
        end, calls = time.monotonic() + self.seconds, 0
        front.ask(publish(f"of-{front.seat}", "1.0.0"))
        while time.monotonic() < end or calls < self.calls:
            front.ask(*made_lines(rng))
            calls += 1
            time.sleep(rng.random() * 0.02)

    def disturb(self, rng: random.Random) -> None:
        """One thing after the other that goes wrong."""
        troubles = self.members.troubles()
        while not self.is_over.wait(rng.random() * 0.5):
            front, kind = rng.choice(self.fronts), rng.random()
            if self.may_forget and rng.random() < 0.5:
                self.compact(rng.choice(KEPT))
            elif kind < 0.2:
                self.done["front held up"] += 1
                pause(front.child, rng.random())
            elif kind < 0.3 and self.are_killed:
                self.done["front killed"] += 1
                front.child.kill()
            elif troubles:
                do, name = rng.choice(troubles)
                self.done[name] += 1
                do(rng.randrange(len(self.members.clients)), rng.random() * 1.5)

    def compact(self, kept: int) -> None:
        """Keeps a snapshot, and drops all cells before it but so many."""
        words = ["--prefix", self.prefix, "--patience", "60", "--keep", str(kept)]
        ended = fronts.run("compact", self.members.clients, *words)
        assert ended.returncode == 0, ended.stderr
        self.done["cells dropped by hand"] += 1

    def run(self) -> str | None:
        ended = fronts.run("found", self.members.clients, "--prefix", self.prefix)
        assert ended.returncode == 0, ended.stderr
        faults = self.asked()
        printed = fronts.run("journal", self.members.clients, "--prefix", self.prefix).stdout.decode()
        for gate in self.gates:
            gate.close()
        return self.judged(faults, printed)

    def asked(self) -> list[str]:
        """What went wrong while clients asked."""
        for front in self.fronts:
            front.begin()
        faults: list[str] = []
        asking = [started(faults, self.ask, front, random.Random(self.rng.random())) for front in self.fronts]
        disturbing = started(faults, self.disturb, random.Random(self.rng.random()))
        for thread in asking:
            thread.join()
        self.is_over.set()
        disturbing.join()
        for front in self.fronts:
            guarded(faults, front.ask, LIST)
        for status, why in [front.end() for front in self.fronts]:
            faults += [f"a front ended with {status} {why}"] if status else []
        return faults

    def judged(self, faults: list[str], printed: str) -> str | None:
        """What is wrong with what was told, beside the journal that was printed; a file is left of it."""
        told = [front.told for front in self.fronts]
        self.done["commands accepted"] = printed.count("\n") - 2
        self.done["lines answered"] = sum(map(len, told))
        self.done["replies no longer kept"] = sum(front.names for front in self.fronts)
        is_open = [line for front in self.fronts for line in front.open]
        wrong: str | None = faults[0] if faults else fronts.fault(printed, told, is_open)
        if wrong:
            with open(f"history-{self.seed}.json", "w", encoding="utf-8") as file:
                json.dump({"printed": printed, "told": told, "wrong": wrong}, file)
        return wrong


def started(faults: list[str], do: Callable[..., object], *given: object) -> threading.Thread:
    # a run that is stopped ends without waiting for it
    thread = threading.Thread(target=guarded, args=(faults, do, *given), daemon=True)
    thread.start()
    return thread


def guarded(faults: list[str], do: Callable[..., object], *given: object) -> None:
    try:
        do(*given)
    except Exception as fault:
        faults.append(f"{type(fault).__name__}: {fault}")


def options() -> argparse.Namespace:
    parser = argparse.ArgumentParser(description=__doc__, formatter_class=argparse.RawDescriptionHelpFormatter)
    parser.add_argument("--histories", type=int, default=100)
    parser.add_argument("--seed", type=int, default=1)
    parser.add_argument("--fronts", type=int, default=4)
    parser.add_argument("--seconds", type=float, default=5.0, help="how long each history goes on")
    parser.add_argument("--calls", type=int, default=50, help="how often each front is asked at least")
    parser.add_argument("--loopback", action="store_true")
    return parser.parse_args()


def main() -> int:
    chosen = options()
    if not is_installed():
        sys.exit("etcd is not installed: apt-get install etcd-server")
    signal.signal(signal.SIGTERM, lambda *_: sys.exit(1))  # so that the members' namespaces go too
    divided = not chosen.loopback and may_divide()
    members, found = Members(3, divided), 0
    total: collections.Counter[str] = collections.Counter()
    print(f"three members, {'each in a namespace of the network' if divided else 'on loopback'}", flush=True)
    try:
        for seed in range(chosen.seed, chosen.seed + chosen.histories):
            history = History(members, seed, chosen.fronts, chosen.seconds, chosen.calls)
            wrong = history.run()
            total += history.done
            found += bool(wrong)
            print(f"history {seed}: {wrong or 'nothing wrong'}; {dict(sorted(history.done.items()))}", flush=True)
    finally:
        members.close()
    print(f"{chosen.histories} histories, {found} with something wrong; {dict(sorted(total.items()))}")
    return 1 if found else 0


if __name__ == "__main__":
    sys.exit(main())
