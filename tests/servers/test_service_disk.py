"""A service whose disk is full, or fails: commands are refused with the reason at once, and never accepted later; all
else goes on, and once the journal can be written again so do commands."""
import contextlib
import json
import os
import random
import re
import signal
import subprocess
import time
from concurrent.futures import ThreadPoolExecutor
from pathlib import Path
from unittest import mock

import pytest

import registryd
from tests.program.test_durable_full import small_disk
from tests.support import services
from tests.support.preloaded import BREAK_CALLS, Break, built
from tests.support.program import LIST, PROGRAM, TOP, journal_line, publish, resolve
from tests.support.services import Case, wait_for

SOME_LINES = 16_384  # bytes
DISK = 4 << 20  # bytes; there is room for the longest line four times
FULL = "the journal can't be written: No space left on device"
QUICK = [("disk", "LOOKS", (0.1, 1))]
SOON = 20  # seconds, on a busy machine; a client tries longer than that to reach a service that has ended
POLLS = 20


def refused(reason, revision):
    return {"error": 503, "name": "DiskFault", "reason": reason, "revision": revision}


class Faulty(Case):
    def is_told(self, service, client, reason, revision):
        """Commands are refused and told why, each time; all else is as always, and nothing begins again for ever."""
        for number in range(POLLS):
            assert service.get("/health") == (503, reason + "\n")
            assert client.ask(publish("p", f"9.{number}.0")) == [refused(reason, revision)]
        assert client.ask(resolve("log *"), LIST)[1]["revision"] == revision
        counts = service.get("/metrics")[1]
        assert "registryd_keeper_up 0\n" in counts
        assert 'registryd_refused_total{number="503",name="DiskFault"} ' in counts
        assert self.restarts(service) <= 8

    @staticmethod
    def restarts(service):
        found = re.search(r'^registryd_restarts_total{program="keeper"} (\d+)', service.get("/metrics")[1], re.M)
        return int(found[1]) if found else 0

    def goes_on(self, service, client, revision):
        wait_for(lambda: service.get("/health") == (200, "ok\n"))
        assert client.ask(publish("after", "1.0.0")) == [{"ok": True, "revision": revision + 1}]
        assert "registryd_keeper_up 1\n" in service.get("/metrics")[1]


class Full(Faulty):
    def setUp(self):
        super().setUp()
        self.folder = self.enterContext(small_disk(DISK))
        if self.folder is None:
            self.skipTest("no file system may be mounted here: it takes root")
        self.other = Path(self.folder, "other")

    def fill(self):
        with contextlib.suppress(OSError), open(self.other, "ab", buffering=0) as file:
            while True:
                file.write(bytes(4_096))

    def publish_until_refused(self, client):
        for number in range(10_000):
            reply = client.ask(publish("log", f"1.{number}.0+{'b' * 200}"))[0]
            if "error" in reply:
                return number, reply
        self.fail("the disk is not full")

    def test_a_full_disk_is_told_and_gone_on_with(self):
        service = self.begin()
        self.fill()
        with service.client() as client:
            revision, reply = self.publish_until_refused(client)
            assert reply == refused(FULL, revision)
            self.is_told(service, client, FULL, revision)
            assert self.restarts(service) == 1
            # what is no command is answered by the program that keeps the journal, and the journal is told
            assert client.ask("{}") == [{"error": 19, "name": "BadLine", "revision": revision}]
            assert service.get("/journal")[1].endswith(f"\nend {revision}\n")
            self.clients_are_told(service, revision)
            self.other.unlink()
            self.goes_on(service, client, revision)
        assert service.end()[0] == 0
        assert len(service.commands()) == revision + 1
        assert service.journal.read_bytes().endswith(f"\nend {revision + 1}\n".encode())

    def clients_are_told(self, service, revision):
        """At once, and not that nothing is known."""
        begun = time.monotonic()
        done = subprocess.run([os.path.join(TOP, "registry"), "publish", "a", "1.0.0", "--connect", service.socket],
                              capture_output=True, text=True, timeout=services.PATIENCE,
                              env={**os.environ, "REGISTRY_PROGRAM": PROGRAM})
        told = f"registry: the service at {service.socket} accepts nothing now: {FULL}\n"
        assert (done.returncode, done.stdout, done.stderr) == (3, "", told)
        with registryd.Registry(connect=service.socket) as registry:
            with pytest.raises(registryd.Refusal, match=FULL):
                registry.publish("a", "1.0.0")
            assert registry.list().revision == revision
        assert time.monotonic() - begun < SOON

    def test_what_is_refused_is_never_accepted(self):
        """Clients send many lines at once while the disk fills up, and again each time there is room."""
        service, rng, accepted, refusals, unknown = self.begin(changes=QUICK), random.Random(3), {}, set(), set()
        floods = []
        for number in range(3):
            self.fill()
            os.truncate(self.other, self.other.stat().st_size - SOME_LINES)
            with ThreadPoolExecutor(4) as pool:
                for place in range(4):
                    given = service, f"p{number}-{place}", rng.randrange(1_000), accepted, refusals, unknown
                    floods.append(pool.submit(self.flood, *given))
            assert [it.exception() for it in floods] == [None] * len(floods)
            wait_for(lambda: service.get("/health") == (503, FULL + "\n"))
            # those lines may all have come before the disk was full: what comes now is refused at once
            self.flood(service, f"p{number}-4", rng.randrange(1_000), accepted, refusals, unknown)
            self.other.unlink()
            wait_for(lambda: service.get("/health")[0] == 200)
        assert service.end()[0] == 0
        commands = service.commands()
        self.demand(accepted, commands)
        assert len(refusals) > 100
        assert len(accepted) > 30
        assert {journal_line(it).encode() for it in refusals} & set(commands) == set()
        assert len(commands) - len(accepted) == len({journal_line(it).encode() for it in unknown} & set(commands))

    @staticmethod
    def flood(service, name, seed, accepted, refusals, unknown):
        rng = random.Random(seed)
        lines = [publish(name, f"1.{minor}.0+{'b' * rng.randrange(1, 240)}") for minor in range(100)]
        with service.client() as client:
            client.send(*lines)
            for line in lines:
                reply = json.loads(client.line())
                if "ok" in reply:
                    accepted[reply["revision"]] = line
                else:
                    assert reply["name"] in ("DiskFault", "Unavailable"), reply
                    (refusals if reply["name"] == "DiskFault" else unknown).add(line)


class Failing(Faulty):
    """The program that keeps the journal is begun by a script, which has it fail as long as a file is there."""

    @classmethod
    def setUpClass(cls):
        cls.library = built(cls, BREAK_CALLS)

    def begin_by(self, failing):
        """A service, once the program has been begun that fails."""
        script, self.flag = Path(self.folder, "program"), Path(self.folder, "fails")
        script.write_text(f'#!/bin/sh\ncase "$*" in *--journal=*) [ -e {self.flag} ] && '
                          f'{failing};; esac\nexec {PROGRAM} "$@"\n')
        script.chmod(0o755)
        self.enterContext(mock.patch.object(services, "PROGRAM", str(script)))
        service = self.begin(changes=QUICK)
        with service.client() as client:
            assert client.ask(publish("log", "1.0.0")) == [{"ok": True, "revision": 1}]
        self.flag.touch()
        service.kill_keeper()
        wait_for(lambda: self.restarts(service) > 0)
        return service

    def broken(self, call, number, error):
        of = Break(call, number, error)
        return " ".join(["export", *(f"{name}={value}" for name, value in of.env(self.library).items()
                                     if name.startswith(("LD_PRELOAD", "BREAK_")))])

    def test_a_write_that_fails(self):
        for error, words in (("ENOSPC", "No space left on device"), ("EIO", "Input/output error")):
            # the first write is that of a reply
            service, reason = self.begin_by(self.broken("write", 2, error)), f"the journal can't be written: {words}"
            with service.client() as client:
                assert client.ask(publish("log", "2.0.0")) == [refused(reason, 1)]
                self.is_told(service, client, reason, 1)
                self.flag.unlink()
                self.goes_on(service, client, 1)
            assert service.end()[0] == 0
            assert [json.loads(it)["name"] for it in service.commands()] == ["log", "after"]
            service.journal.unlink()

    def test_a_sync_that_fails(self):
        """The line stands then: of that it is told that it is not known, and what is looked up there is so."""
        service = self.begin_by(self.broken("fdatasync", 1, "EIO"))
        reason = "the journal can't be synced: Input/output error"
        with registryd.Registry(connect=service.socket) as registry, service.client() as client:
            assert registry.publish("log", "2.0.0") == 2
            self.is_told(service, client, reason, 2)
            self.flag.unlink()
            self.goes_on(service, client, 2)
        assert service.end()[0] == 0
        assert len(service.commands()) == 3

    def test_a_journal_that_can_not_be_opened(self):
        reason = "the journal can't be opened: Read-only file system"
        service = self.begin_by("{ echo \"registryd: journal team.journal: can't be opened: "
                                "Read-only file system (os error 30)\" >&2; exit 1; }")
        wait_for(lambda: service.get("/health")[1] == reason + "\n")
        with service.client() as client:
            self.is_told(service, client, reason, 1)
            self.flag.unlink()
            self.goes_on(service, client, 1)
        assert service.end()[0] == 0

    def test_it_is_stopped_meanwhile(self):
        service = self.begin_by(self.broken("write", 2, "ENOSPC"))
        with service.client() as client:
            client.ask(publish("log", "2.0.0"))
            status, said = service.end(signal.SIGTERM)
        assert status == 3
        assert "has no end line: it has all accepted commands" in said
