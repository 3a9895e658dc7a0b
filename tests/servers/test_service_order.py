"""The commands of a client are carried out in the order in which it sent them, also where the program that keeps the
journal ends: none of them is carried out once one before it was answered that nothing is known of it."""
import json
import os
import re
import signal
import time

from tests.support.program import LIST, journal_line, publish, resolve
from tests.support.services import Case, wait_for

LINES = [publish("log", f"1.{minor}.0") for minor in range(300)]
UNAVAILABLE = {"error": 503, "name": "Unavailable"}


class Order(Case):
    def setUp(self):
        super().setUp()
        self.service = self.begin()

    def interrupt(self, client, *lines):
        """Sends lines to a keeper that stands still, and kills it."""
        os.kill(self.service.keeper(), signal.SIGSTOP)
        client.send(*lines)
        wait_for(lambda: int(re.search("registryd_lines_waiting ([0-9]+)", self.service.get("/metrics")[1])[1])
                 >= min(len(lines), 64))
        self.service.kill_keeper()
        self.service.keeper()  # the next one, and so it is known that the first has ended
        wait_for(lambda: self.service.get("/health")[0] == 200)

    def told(self, client, count):
        """Of so many replies, the revisions of what was accepted first, and the refusals behind that."""
        replies = [json.loads(client.line()) for _ in range(count)]
        accepted = [it["revision"] for it in replies if "ok" in it]
        assert all("ok" in it for it in replies[:len(accepted)])
        assert {(it["error"], it["name"]) for it in replies[len(accepted):]} == {(503, "Unavailable")}
        return accepted

    def test_no_command_is_carried_out_behind_one_of_which_nothing_is_known(self):
        """Of 300 that were sent at once 64 are under way when the keeper ends, and those behind them wait."""
        with self.service.client() as client:
            assert client.ask(*LINES[:3])[-1] == {"ok": True, "revision": 3}
            self.interrupt(client, *LINES[3:])
            assert self.told(client, len(LINES) - 3) == []
        assert self.service.end()[0] == 0
        commands = self.service.commands()
        assert commands == [journal_line(it).encode() for it in LINES[:len(commands)]]
        assert len(commands) <= 3 + 64

    def test_the_connection_answers_requests_and_takes_no_more_commands(self):
        with self.service.client() as client, self.service.client() as other:
            self.interrupt(client, LINES[0])
            assert self.told(client, 1) == []
            before = other.ask(LIST)[0]["revision"]  # it may have been written before the kill
            # whoever had none under way goes on as before
            assert other.ask(publish("zlib", "1.0.0")) == [{"ok": True, "revision": before + 1}]
            refused, found, again = client.ask(LINES[1], resolve("zlib *"), LINES[2])
            assert found == {"revision": before + 1, "selected": [["zlib", "1.0.0"]]}
            assert [refused, again] == [{**UNAVAILABLE, "revision": before + 1}] * 2
            # a line that is no request is of the keeper, whatever it may be, and so it isn't asked either
            assert client.ask("no line") == [{**UNAVAILABLE, "revision": before + 1}]
            with self.service.client() as next_one:
                assert next_one.ask(LINES[1]) == [{"ok": True, "revision": before + 2}]


class Revisions(Case):
    def test_they_never_fall_where_a_reader_is_held_up(self):
        """What waits behind its first request is asked of the other reader, at a later revision than that was."""
        service = self.begin()
        with service.client() as client, service.client() as other:
            client.ask(LINES[0])
            held_up = service.programs()[1][0]
            os.kill(held_up, signal.SIGSTOP)
            client.send(*[resolve("log *")] * 20)
            for line in LINES[1:30]:  # for longer than a request may hold up others
                other.ask(line)
                time.sleep(0.02)
            os.kill(held_up, signal.SIGCONT)
            replies = [json.loads(client.line()) for _ in range(20)]
        assert [it["selected"] for it in replies] == [[["log", f"1.{it['revision'] - 1}.0"]] for it in replies]
        revisions = [it["revision"] for it in replies]
        assert revisions == sorted(revisions)
