"""Clients that ask a service hard requests without pause, beside easy ones. `dev/long/hard_clients.py` asks longer."""
import contextlib
import io
import os
import re
import subprocess
import tempfile
from unittest import mock

from dev.long import hard_clients
from tests.support import services

# What stands for the program: it takes as many seconds as a request says, and a processor for as long.
PROGRAM = r"""
#include <stdio.h>
#include <stdlib.h>
#include <string.h>
#include <time.h>
#include <unistd.h>

static double now(void) {
    struct timespec at;
    clock_gettime(CLOCK_MONOTONIC, &at);
    return at.tv_sec + at.tv_nsec / 1e9;
}

int main(int count, char **words) {
    for (int at = 1; at < count; at++)
        if (!strncmp(words[at], "--journal=", 10) && access(words[at] + 10, F_OK))
            fclose(fopen(words[at] + 10, "w"));
    char line[1000], *seconds;
    while (fgets(line, sizeof line, stdin)) {
        if ((seconds = strstr(line, "seconds")))
            for (double end = now() + atof(seconds + 10); now() < end;)
                ;
        puts("{\"revision\":0,\"selected\":[[\"hole-1\",\"1.0.0\"]]}");
        fflush(stdout);
    }
}
"""


def slow(seconds):
    return f'{{"op":"resolve","needs":[["seconds","{seconds}"]]}}'


class Beside(services.Case):
    LIMIT = 4

    @classmethod
    def setUpClass(cls):
        cls.program = os.path.join(cls.enterClassContext(tempfile.TemporaryDirectory()), "program")
        subprocess.run(["cc", "-x", "c", "-", "-o", cls.program], input=PROGRAM.encode(), check=True)

    def begin_scripted(self, *words):
        with mock.patch.object(services, "PROGRAM", self.program):
            return self.begin("--seconds", self.LIMIT, *words)

    def test_easy_requests_are_answered(self):
        for hard in ({"clients": 3}, {"depth": 64}, {"clients": 3, "is_new": True}):
            service = self.begin_scripted()
            with self.subTest(hard), hard_clients.Hard(service, slow(0.6), **hard):
                count, greatest, wrong = hard_clients.easy(service, 3, self.LIMIT)
                assert wrong is None
                assert greatest < self.LIMIT + 1
                assert count > 2
            self.ends_well(service)

    def test_one_whose_requests_wait_is_answered_in_turn(self):
        """Of one client that sends 64 requests at once one is asked at a time, also with one reader."""
        service = self.begin_scripted("--readers", 1)
        with service.client() as many, service.client() as other:
            many.send(*[slow(0.3)] * 64)
            for _ in range(3):
                assert "selected" in other.ask(hard_clients.EASY)[0]
            many.socket.setblocking(False)
            with contextlib.suppress(BlockingIOError):
                many.read += many.socket.recv(65_536)
            assert many.read.count(b"\n") < 64

    def test_what_is_late_or_wrong_is_found(self):
        service = self.begin_scripted()
        for limit, holds in ((self.LIMIT, True), (-1, False)):
            with contextlib.redirect_stdout(io.StringIO()) as said:
                assert hard_clients.tried(service, "one", 0.5, limit, line=slow(0.1)) is holds
            assert re.search(r"\Aone +[0-9]+ easy replies, the slowest after [0-9.]+ s; hard: "
                             r"[0-9]+ answered, 0 out of time; [0-9]+ restarts\n\Z", said.getvalue())
        count, _, wrong = hard_clients.easy(service, 1, self.LIMIT, wanted="hole-2")
        assert (count, wrong) == (1, '{"revision":0,"selected":[["hole-1","1.0.0"]]}')

    def test_beside_true_searches(self):
        with contextlib.redirect_stdout(io.StringIO()) as said:
            assert hard_clients.main(["--minutes", "0.1"]) == 0, said.getvalue()
        assert said.getvalue().count(" easy replies, the slowest after ") == 4
