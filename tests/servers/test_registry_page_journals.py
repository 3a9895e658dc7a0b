"""What `registry page` does while the journal grows, while searches are long, and where it begins and ends."""
import json
import os
import re
import signal
import subprocess
import threading
import time
from unittest import mock

from tests.support.called import registry
from tests.support.page_served import WORKED, Served
from tests.support.program import PROGRAM, TOP, heed_signals, in_time, publish, talking
from tests.support.registry_folder import pigeons


class Journals(Served):
    def test_it_grows(self):
        self.serve(*WORKED)
        assert registry("publish", "--journal", self.journal, "apps", "1.0.0")[0] == 0
        assert self.told("package", name="apps")["newest"] is None  # what is shown stays until one looks
        told = self.told("status")
        assert (told["revision"], told["packages"]) == (10, 5)
        assert self.told("package", name="apps")["newest"] == "1.0.0"
        assert self.told("resolve", need="web")["selected"][0]["name"] == "apps"

    def test_each_selection_is_the_newest(self):
        # a search that takes the highest version of b first finds another one
        self.serve(publish("a", "2.0.0"), publish("a", "3.0.0", ["b =1.0.0"]), publish("b", "1.0.0"),
                   publish("b", "2.0.0"))
        selected = self.told("resolve", need=["a", "b"])["selected"]
        assert {it["name"]: it["version"] for it in selected} == {"a": "3.0.0", "b": "1.0.0"}

    def test_another_session_holds_it(self):
        with talking(["serve", "--workers", "1", f"--journal={self.journal}"]) as client:
            client.stdin.write(b"".join(it.encode() + b"\n" for it in WORKED))
            for _ in WORKED:
                assert b'"ok":true' in client.stdout.readline()
            self.serve()
            assert self.told("status")["revision"] == 9
            client.stdin.write(publish("late", "1.0.0").encode() + b"\n")
            assert b'"ok":true' in client.stdout.readline()
            assert self.told("status")["revision"] == 10
            assert self.told("search", text="late")["found"] == 1

    def test_it_is_damaged_or_gone(self):
        self.serve(*WORKED)
        good = self.text("registry.journal")
        self.path("registry.journal", good.replace('"version":"1.2.0"', '"version":"1.2"'))
        told = self.told("status")
        assert told["revision"] == 9
        assert "is at fault" in told["fault"]
        assert self.told("package", name="log")["newest"] == "1.2.0"
        os.remove(self.journal)
        assert "no such journal" in self.told("status")["fault"]
        self.path("registry.journal", good)
        assert (self.told("status")["fault"], len(self.told("resolve", need="app")["selected"])) == ("", 3)

    def test_programs_end_with_what_they_were_begun_for(self):
        self.serve(*WORKED)
        first = self.shown.view.session.process
        assert registry("publish", "--journal", self.journal, "late", "1.0.0")[0] == 0
        self.told("status")
        assert first.poll() is not None
        assert self.shown.view.session.process.poll() is None
        self.shown.view.session.process.kill()
        assert "ended with status -9" in self.told("resolve", 500, need="late")["error"]
        assert len(self.told("resolve", need="late")["selected"]) == 1


class Searches(Served):
    """A search of minutes: fourteen pigeons."""

    def setUp(self):
        super().setUp()
        lines, self.needs = pigeons(14)
        self.lines = [*lines, publish("easy", "1.0.0")]

    def begun(self, page):
        """Begins the search; answers the list that its answer comes into, and what waits for that."""
        answers = []
        asked = "&".join([*(f"need={it}" for it in self.needs), f"page={page}"])
        thread = threading.Thread(target=lambda: answers.append(self.ask(f"/api/resolve?{asked}")))
        thread.start()
        with in_time():
            while self.shown.running is None:
                time.sleep(0.01)
        return answers, thread

    def test_it_ends_in_time(self):
        self.serve(*self.lines, seconds=0.5)
        with in_time():
            told = self.told("resolve", 503, need=self.needs)
        assert told == {"error": "no answer was found in 0.5 seconds, and the search was ended", "field": None}
        self.shown.seconds = 60
        assert len(self.told("resolve", need="easy")["selected"]) == 1

    def test_the_next_one_of_a_page_ends_it(self):
        self.serve(*self.lines)
        answers, thread = self.begun("one")
        with in_time():
            assert len(self.told("resolve", need="easy", page="one")["selected"]) == 1
            thread.join()
        assert (answers[0][0], json.loads(answers[0][2])) == (503,
                                                              {"error": "another request came from the same page",
                                                               "field": None})

    def test_another_page_waits_and_all_else_is_answered(self):
        self.serve(*self.lines, seconds=5)
        answers, thread = self.begun("one")
        self.shown.seconds = 60  # of those that come now
        with in_time():
            assert self.told("search", text="easy")["found"] == 1
            assert self.told("status")["revision"] == len(self.lines)
            assert self.shown.running and not answers
            assert len(self.told("resolve", need="easy", page="two")["selected"]) == 1
            thread.join()
        told = "no answer was found in 5 seconds, and the search was ended"
        assert (answers[0][0], json.loads(answers[0][2])["error"]) == (503, told)


class Command(Served):
    def begun(self, *words):
        command = [os.path.join(TOP, "registry"), "--journal", self.journal, "page", *words]
        return subprocess.Popen(command, stdout=subprocess.PIPE, stderr=subprocess.PIPE, text=True,
                                env={**os.environ, "REGISTRY_PROGRAM": PROGRAM}, preexec_fn=heed_signals)

    def test_it_shows_the_journal_until_a_key_ends_it(self):
        self.hold(*WORKED)
        for words, ends, status in (([], signal.SIGINT, 130), (["--json"], signal.SIGTERM, 143)):
            with in_time(), self.begun(*words) as running:
                line = running.stdout.readline()
                told = [json.loads(line)["port"]] if words else re.findall(r"^http://127\.0\.0\.1:(\d+)/\n$", line)
                port = int(told[0])
                self.server = mock.Mock(port=port)
                assert self.told("status")["revision"] == 9
                taken = self.registry("page", "--port", port)
                running.send_signal(ends)
                assert running.wait() == status
                said = running.stderr.read()
            assert (taken[0], taken[2].count("\n")) == (3, 1)
            assert f"port {port} can't be taken" in taken[2]
            assert said == ("" if words
                            else f"registry: {self.journal} is shown there, to this machine only; Ctrl-C ends it\n")
