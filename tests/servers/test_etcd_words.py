"""The words of registryd-etcd: each wrong one is told in one line, and a front waits for members as long as it may.
`tests/transcripts/etcd_files.t` has what it says of files and programs."""
import shlex
import socket
import subprocess
import time
import unittest
from pathlib import Path

import pytest

from registry_etcd.gateway import Fault, Gateway, endpoints
from tests.support import fronts, program
from tests.support.fake_etcd import Drop
from tests.support.over_small_etcd import A1, Case, accepted
from tests.support.program import LIST, TOP


def test_words_that_can_not_be_meant():
    rows = Path(TOP, "tests/support/data/etcd_words.txt").read_text(encoding="utf-8").splitlines()[1:]
    number = "9" * 5000
    for words, told in [
            *((shlex.split(words), told) for words, _, told in (row.partition("=> ") for row in rows)),
            (["serve", "--seat", number], f"argument --seat: '{number}' is no whole number from 1 to 4294967295"),
            (["serve", "--prefix", b"\xff"], "argument --prefix: '\\udcff' is no name"),
            (["serve", "--writer", "a\nb"], "argument --writer: 'a\\nb' is no name")]:
        done = subprocess.run([*fronts.ETCD, *words], stdin=subprocess.DEVNULL, capture_output=True, timeout=100)
        wanted = 2, b"", f"registryd-etcd: {told}: see registryd-etcd --help\n"
        assert (done.returncode, done.stdout, done.stderr.decode()) == wanted, words


class Patience(unittest.TestCase):
    def setUp(self):
        self.enterContext(program.in_time(100))

    def opened(self, is_listening):
        """Where a member might be that says nothing, or is not there."""
        taken = self.enterContext(socket.socket())
        taken.bind(("127.0.0.1", 0))
        if is_listening:
            taken.listen()
        return f"127.0.0.1:{taken.getsockname()[1]}"

    def test_members_that_say_nothing_or_are_not_there(self):
        silent, missing = ",".join([self.opened(True), self.opened(True)]), self.opened(False)
        for members, timeout, patience in ((silent, 3, 2), (silent, 3, 4), (silent, 60, 2), (missing, 3, 3)):
            begun = time.monotonic()
            with pytest.raises(Fault, match=rf"\Ano member of etcd answers, for {patience} seconds now: ."):
                Gateway(endpoints(members), timeout=timeout, patience=patience).insist("/v3/kv/range", {})
            # a busy machine may let it wait longer
            assert patience - 0.1 < time.monotonic() - begun < patience + 20, (members, timeout, patience)

    def test_a_front_that_begins(self):
        begun = time.monotonic()
        ended = fronts.run("serve", [self.opened(True)], "--patience", "2", given=LIST.encode())
        assert time.monotonic() - begun >= 2
        assert ((ended.returncode, ended.stdout, ended.stderr.decode())
                == (1, b"", "registryd-etcd: no member of etcd answers, for 2 seconds now: timed out\n"))


class PatienceOfAFront(Case):
    def test_a_pause_between_two_lines_is_no_waiting(self):
        # a call in vain in the end of one line does not count for the next
        lost = []

        def hook(moment, path, asked):
            if lost and path == "/v3/kv/compaction":
                raise Drop
            if lost and path != "/v3/watch":
                time.sleep(0.05)
        gate = self.opened(hook)
        front = fronts.Front([gate.url], 1, "--timeout", "3", "--patience", "3", "--compact-every", "1")
        front.begin()
        self.addCleanup(self.ended, front)
        lost.append(True)
        assert front.ask(A1) == [accepted(1)]
        time.sleep(3.5)
        assert front.ask(program.yank("a", "1.0.0")) == [accepted(2)]
