"""A service ends in order by a signal, and where anything is killed, nothing is lost that was told as accepted."""
import itertools
import json
import os
import random
import re
import signal
import threading
import time
from pathlib import Path
from unittest import mock

from tests.support.preloaded import built
from tests.support.processes import is_idle, is_running
from tests.support.program import LIST, journal_line, publish, resolve
from tests.support.registry_folder import pigeons
from tests.support.services import LONG, PATIENT, Case, kill, wait_for

ENDED = 45  # seconds in which it has ended, on a busy machine too: what it must not wait for takes a minute here


class Load:
    """Clients that publish until the service is gone, each with what it was told."""

    def __init__(self, service, count, seed=0):
        self.service, self.accepted, self.lock, self.faults, self.unknown = service, {}, threading.Lock(), [], 0
        self.is_over = False
        self.threads = [threading.Thread(target=self.run, args=(seed * 1_000 + number,)) for number in range(count)]
        for it in self.threads:
            it.start()

    def run(self, number):
        rng, versions = random.Random(number), itertools.count(1)
        try:
            while not self.is_over:
                with self.service.client() as client:
                    if not self.talk(client, number, rng, versions):
                        return
        except (BrokenPipeError, ConnectionError, FileNotFoundError):
            pass
        except BaseException as fault:
            self.faults.append(fault)

    def talk(self, client, number, rng, versions):
        """Publishes over a connection; answers whether another one is to be made, since this takes no more commands."""
        is_known = True
        while is_known and not self.is_over:
            lines = [publish(f"p{number}", f"1.{next(versions)}.0", [f"p{rng.randrange(4)} *"] if number > 3 else [])
                     for _ in range(rng.choice([1, 1, 3, 20]))]
            client.send(*lines, resolve(f"p{number} *"))
            for line in [*lines, None]:
                told = client.line()
                if told is None:
                    return False
                is_known &= self.note(line, json.loads(told))
        return True

    def note(self, line, reply):
        """Notes what was told of a publication; answers whether it is known: not where a program ended meanwhile."""
        with self.lock:
            if reply.get("error") == 503:
                self.unknown += 1
            elif line and "ok" in reply:
                assert reply["revision"] not in self.accepted, "two publications have one revision"
                self.accepted[reply["revision"]] = line
        return reply.get("error") != 503

    def end(self):
        self.is_over = True
        for it in self.threads:
            it.join()
        assert not self.faults, self.faults


class Signals(Case):
    def test_what_came_is_answered_and_the_journal_has_its_end(self):
        for number in (signal.SIGTERM, signal.SIGINT):
            service = self.begin(changes=PATIENT)
            load = Load(service, 4)
            wait_for(lambda: len(load.accepted) > 50)
            begun = time.monotonic()
            service.running.send_signal(number)
            status, told = service.wait()
            assert time.monotonic() - begun < ENDED
            load.end()
            assert (status, LONG.sub("", told), load.unknown) == (0, "", 0)
            assert not os.path.exists(service.socket)
            text = service.journal.read_bytes()
            assert text.endswith(b"\nend %d\n" % len(service.commands())), text[-50:]
            self.demand(load.accepted, service.commands())
            os.unlink(service.journal)

    def test_a_long_search_does_not_hold_it_up(self):
        service = self.begin("--readers", 1, "--seconds", 60, changes=PATIENT[1:])
        lines, needs = pigeons(15)
        with service.client() as client, service.client() as other:
            assert client.ask(*lines)[-1]["revision"] == len(lines)
            client.send(resolve(*(f"{it} *" for it in needs)), publish("behind", "1.0.0"))
            _, [reader] = service.programs()
            assert not is_idle(reader)  # it searches
            assert other.ask(publish("log", "1.0.0"))[0]["revision"] == len(lines) + 1
            begun = time.monotonic()
            status, told = service.end()
            assert time.monotonic() - begun < ENDED
            assert (status, LONG.sub("", told), told.count(" reply=Unavailable ")) == (0, "", 1), told
            # the search was ended; the publication behind it was not begun, and so it is told
            told = client.rest().split(b"\n")
            assert [json.loads(it)["error"] for it in told[:-1]] == [503, 503]
        assert b"behind" not in service.journal.read_bytes()
        assert service.journal.read_bytes().endswith(b"\nend %d\n" % (len(lines) + 1))

    def test_a_hundred_clients_are_answered_and_let_go(self):
        """What each of them had sent is answered in its order, or told not to be known, and all is over in time."""
        service, accepted = self.begin(changes=PATIENT[1:]), {}
        clients = [self.enterContext(service.client()) for _ in range(100)]
        lines = [[publish(f"p{number}", f"1.{minor}.0") for minor in range(5)] for number in range(len(clients))]
        for client, own in zip(clients, lines):
            client.send(*own, resolve("p0 *"))
        wait_for(lambda: len(service.commands()) > 5)
        begun = time.monotonic()
        status, told = service.end()
        assert time.monotonic() - begun < ENDED
        assert (status, LONG.sub("", told)) == (0, "")
        for client, own in zip(clients, lines):
            for line, reply in zip([*own, None], client.rest().split(b"\n")[:-1]):
                reply = json.loads(reply)
                assert ("ok" in reply if line and "error" not in reply else reply.get("error", 503) == 503), reply
                if "ok" in reply:
                    accepted[reply["revision"]] = line
        assert len(accepted) > 5
        self.demand(accepted, service.commands())

    def test_a_program_that_is_just_begun_again_ends_the_journal(self):
        service = self.begin(changes=[("supervisor", "PAUSES", (0.5, 5)), *PATIENT])
        with service.client() as client:
            client.ask(publish("log", "1.0.0"))
        service.kill_keeper()
        wait_for(lambda: 'restarts_total{program="keeper"} 1\n' in service.get("/metrics")[1])  # it knows
        begun = time.monotonic()
        assert service.end()[0] == 0
        assert time.monotonic() - begun < ENDED
        assert service.journal.read_bytes().endswith(b"\nend 1\n")


class Syncs(Case):
    @classmethod
    def setUpClass(cls):
        super().setUpClass()
        cls.slow_sync = built(cls, "slow_sync.c")

    def test_a_sync_that_goes_on_is_waited_for(self):
        """On a disk where each takes a second: what was sent before the signal is told, and stands in the journal."""
        for number in (signal.SIGTERM, signal.SIGINT):
            with mock.patch.dict(os.environ, LD_PRELOAD=self.slow_sync):
                service = self.begin(changes=PATIENT)
            with service.client() as client:
                client.send(publish("log", "1.0.0"))
                wait_for(service.commands)
                begun = time.monotonic()
                status, _ = service.end(number)
                assert time.monotonic() - begun < ENDED
                assert (status, client.rest()) == (0, b'{"ok":true,"revision":1}\n')
            assert len(service.commands()) == 1
            os.unlink(service.journal)


class Kills(Case):
    def test_no_program_outlives_the_service(self):
        service = self.begin()
        lines, needs = pigeons(15)
        with service.client() as client:
            client.ask(*lines)
            client.send(resolve(*(f"{it} *" for it in needs)))
            wait_for(lambda: [*map(len, service.programs())] == [1, 2])
            keepers, readers = service.programs()
            service.running.kill()
            wait_for(lambda: not any(map(is_running, keepers + readers)), ENDED)
        service.wait()
        # its socket is left, and taken by the next one
        assert os.path.exists(service.socket)
        again = self.begin()
        with again.client() as client:
            assert client.ask(LIST)[0]["revision"] == len(lines)

    def test_the_service_is_killed_at_any_moment(self):
        rng, accepted = random.Random(1), {}
        for number in range(4):
            service = self.begin()
            load = Load(service, 6, seed=number)
            time.sleep(rng.uniform(0.05, 0.5))
            if number == 3:
                wait_for(lambda: len(accepted) + len(load.accepted) > 20)
            service.running.kill()
            service.wait()
            load.end()
            accepted.update(load.accepted)
            self.demand(accepted, service.commands())
        assert len(accepted) > 20

    def test_programs_are_killed_at_any_moment_and_begun_again(self):
        service, rng = self.begin(), random.Random(2)
        load = Load(service, 6)
        for number in range(12):
            time.sleep(rng.uniform(0.05, 0.2))
            keepers, readers = service.programs()
            kill(rng.choice([keepers, keepers, readers, readers[:1], keepers + readers]))
        before = len(load.accepted)
        wait_for(lambda: len(load.accepted) > before + 20)
        load.end()
        service.keeper()  # one that was killed last may have told so much before
        metrics = service.get("/metrics")[1]
        assert 'registryd_restarts_total{program="keeper"}' in metrics
        assert 'registryd_restarts_total{program="reader"}' in metrics
        with service.client() as client:
            # readers have what the keeper has
            revision = client.ask(publish("last", "1.0.0"))[0]["revision"]
            listed = client.ask(*[LIST] * 8)
        assert {it["revision"] for it in listed} == {revision}
        status, told = service.end()
        assert status == 0
        assert "program=keeper why=" in told
        commands = service.commands()
        self.demand(load.accepted, commands)
        assert len(commands) == revision
        count = sum(len(versions) for _, versions in listed[0]["packages"])
        assert count == len(commands)

    def test_a_journal_that_is_moved_is_not_gone_on_with(self):
        """No command is accepted that the file of the journal's name lacks; once it has it, the service goes on."""
        service, accepted = self.begin(), 0
        errors, there = Path(f"/proc/self/fd/{service.errors.fileno()}"), Path(self.folder, "there")
        for change in (lambda: service.journal.rename(there), lambda: (os.link(service.journal, there),
                                                                       service.journal.unlink()),
                       lambda: (service.journal.rename(there), service.journal.write_bytes(there.read_bytes()[:-20])),
                       lambda: (service.journal.rename(there),
                                service.journal.write_bytes(there.read_bytes().replace(b"1.2.0", b"1.9.0")))):
            with service.client() as client:
                accepted = client.ask(publish("log", f"1.{accepted}.0"))[0]["revision"]
            whole = service.journal.read_bytes()
            change()
            with service.client() as client:
                assert client.ask(publish("lost", f"1.{accepted}.0")) == [{"error": 503,
                                                                           "name": "Unavailable", "revision": accepted}]
            wait_for(lambda: re.search(rf"was changed by another program: .*\b{accepted}\b.* were accepted",
                                       errors.read_text()))
            assert (service.get("/health")[0], there.read_bytes()) == (503, whole)
            os.replace(there, service.journal)
            wait_for(lambda: service.get("/health")[0] == 200)
        assert errors.read_text().count("changed by another program, and not gone on with") == 4
        service.end()
        assert service.commands() == [journal_line(publish("log", f"1.{minor}.0")).encode() for minor in range(4)]
