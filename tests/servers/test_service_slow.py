"""A request that takes long holds up nobody: others are answered meanwhile, and it is ended after its seconds."""
import json
import re
import select
import time

from tests.support.processes import is_idle
from tests.support.program import LIST, publish, resolve
from tests.support.registry_folder import pigeons
from tests.support.services import Case, kill, wait_for

LINES, NEEDS = pigeons(15)
HARD = resolve(*(f"{it} *" for it in NEEDS))
SPENT = b'{"error":22,"name":"BudgetSpent","revision":%d}'


def has_replies(client):
    """Whether a client was answered what it has not read."""
    return bool(client.read or select.select([client.socket], [], [], 0)[0])


class Slow(Case):
    def assert_meanwhile(self, were_before, begun, seconds):
        """All these answers came before that of so long a search; or one at least, where a busy machine took longer."""
        assert all(were_before) or any(were_before) and time.monotonic() - begun > seconds, were_before

    def begin_full(self, *words, **more):
        """A service with the pigeons and their holes."""
        service = self.begin(*words, **more)
        with service.client() as client:
            assert client.ask(*LINES)[-1]["revision"] == len(LINES)
        return service

    def test_others_are_answered_meanwhile_and_its_seconds_end_it(self):
        service = self.begin_full("--seconds", 4)
        with service.client() as hard, service.client() as other:
            begun = time.monotonic()
            hard.send(HARD, LIST)
            revision, were_before = len(LINES), []
            while time.monotonic() < begun + 1.5 or revision < len(LINES) + 10:
                accepted, found, refused = other.ask(publish("log", f"1.{revision}.0"), resolve("log *"),
                                                     resolve("missing *"))
                revision += 1
                assert (accepted, found) == ({"ok": True, "revision": revision},
                                             {"revision": revision, "selected": [["log", f"1.{revision - 1}.0"]]})
                assert refused == {"refused": True, "revision": revision}
                were_before.append(not has_replies(hard))
            self.assert_meanwhile(were_before, begun, 4)
            # it is told at the revision at which it was asked, and what stood behind it is asked then
            assert hard.line() == SPENT % len(LINES)
            assert time.monotonic() - begun < 20
            assert json.loads(hard.line())["revision"] == revision
            wait_for(lambda: service.get("/health") == (200, "ok\n") and "registryd_readers 2\n"
                     in service.get("/metrics")[1])
            metrics = service.get("/metrics")[1]
            for line in ("registryd_budgets_spent_total 1",
                         'registryd_restarts_total{program="reader"} 1',
                         'registryd_refused_total{number="22",name="BudgetSpent"} 1'):
                assert f"\n{line}\n" in metrics
            # the reader that was begun again has all that was accepted meanwhile
            assert {it["revision"] for it in other.ask(*[resolve("log *")] * 20)} == {revision}
        status, told = service.end()
        assert status == 0
        assert re.search(r"client=\S+ connection=[0-9]+ op=resolve "
                         r"seconds=([4-9]|[1-9][0-9])\.[0-9]+ reply=BudgetSpent ", told)

    def test_what_waits_behind_it_is_asked_of_another_reader(self):
        service = self.begin_full("--readers", 2, "--seconds", 30)
        with service.client() as one, service.client() as two:
            # all of these are with the readers before one of them takes long
            one.send(HARD)
            two.send(*[resolve("hole-1 *")] * 60)
            begun = time.monotonic()
            assert {two.line() for _ in range(60)} == {b'{"revision":%d,"selected":[["hole-1","14.0.0"]]}' % len(LINES)}
            assert time.monotonic() - begun < 20

    def test_one_client_holds_up_one_reader_at_most(self):
        service = self.begin_full("--readers", 2, "--seconds", 5)
        with service.client() as greedy, service.client() as other:
            begun, were_before = time.monotonic(), []
            greedy.send(*[HARD] * 6)
            time.sleep(1)
            for _ in range(5):
                assert "selected" in other.ask(resolve("hole-1 *"))[0]
                were_before.append(not has_replies(greedy))
            self.assert_meanwhile(were_before, begun, 5)
            assert greedy.line() == SPENT % len(LINES)

    def test_requests_have_the_budget_of_the_service(self):
        """One that names a budget has its own."""
        service = self.begin_full("--readers", 1, "--seconds", 30, "--budget", 100)
        with service.client() as client:
            assert client.ask(HARD) == [json.loads(SPENT % len(LINES))]
            assert client.ask(json.dumps({**json.loads(HARD), "budget": 0})) == [json.loads(SPENT % len(LINES))]
            # Dart pub's doc/solver.md, "Performing Conflict Resolution": foo 2.0.0 is found out by one conflict
            client.ask(publish("foo", "2.0.0", ["bar ^1.0.0"]), publish("bar", "1.0.0", ["foo ^1.0.0"]),
                       publish("foo", "1.0.0"))
            asked = json.loads(resolve("foo >=1.0.0"))
            assert client.ask(json.dumps({**asked, "budget": 0}))[0]["error"] == 22
            assert client.ask(json.dumps(asked))[0]["selected"] == [["foo", "1.0.0"]]
        assert service.end()[0] == 0

    def test_a_search_for_nobody_is_ended(self):
        service = self.begin_full("--readers", 1, "--seconds", 30)
        with service.client() as client:
            client.send(HARD)
            time.sleep(0.5)
        begun = time.monotonic()
        with service.client() as client:
            assert "selected" in client.ask(resolve("hole-1 *"))[0]
        assert time.monotonic() - begun < 20

    def test_a_request_that_ends_readers_is_given_up(self):
        """A search that has a reader ended by the system, as for lack of memory, is tried twice."""
        service = self.begin_full("--readers", 1, "--seconds", 30)
        with service.client() as client:
            client.send(HARD)
            for count in range(2):
                again = f'restarts_total{{program="reader"}} {count}\n'
                wait_for(lambda: again in service.get("/metrics")[1] or not count)
                wait_for(lambda: "registryd_readers 1\n" in service.get("/metrics")[1])
                reader, = service.programs()[1]
                assert not is_idle(reader)  # it searches
                kill([reader])
            assert client.line() == b'{"error":503,"name":"Unavailable","revision":%d}' % len(LINES)
            assert "selected" in client.ask(resolve("hole-1 *"))[0]
