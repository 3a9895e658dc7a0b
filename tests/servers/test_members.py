"""Members of etcd for tests: runs that stand beside each other, and what is left of a run that is stopped."""
import contextlib
import os
import subprocess
import sys
import tempfile
import time
import unittest
from pathlib import Path

from tests.support import program
from tests.support.members import Members, is_installed, may_divide
from tests.support.program import skip_without
from tests.support.services import wait_for, words_of
from tests.support.time_limit import children

HISTORIES = "dev.long.etcd_histories"


class Case(unittest.TestCase):
    def setUp(self):
        # members and fronts use all processors
        self.enterContext(program.in_time(2 * program.PATIENCE))
        self.folder = self.enterContext(tempfile.TemporaryDirectory())

    @unittest.skipUnless(is_installed() and may_divide(), "no etcd, or no right to make namespaces of the network")
    def test_two_runs_in_namespaces(self):
        """Each has addresses of its own, and what it leaves is nothing."""
        runs = [Members(1, divided=True, folder=self.folder) for _ in range(2)]
        names = [it.namespace(0) for it in runs]
        assert len({url for it in runs for url in it.clients}) == 2
        for run in runs:
            run.close()
        left = {*Path("/sys/class/net").iterdir(), *Path("/run/netns").iterdir()}
        assert [it for it in left if it.name in {*names, *(run.bridge for run in runs)}] == []
        assert os.listdir(self.folder) == []

    @skip_without("etcd", "etcd-server")
    def test_no_member_begins_again_once_they_are_ended(self):
        members = Members(1, folder=self.folder)
        members.close()
        members.start(0)
        assert members.children[0].poll() is not None
        assert os.listdir(self.folder) == []

    @skip_without("etcd", "etcd-server")
    def test_a_run_that_is_stopped(self):
        """It ends soon, and its members with it, though clients ask for a minute more and something always breaks."""
        words = [sys.executable, program.TOP, HISTORIES, "--loopback", "--histories", "1", "--seconds", "60",
                 "--seed", "2"]
        with subprocess.Popen(words, stdout=subprocess.PIPE, stderr=subprocess.PIPE, cwd=self.folder,
                              preexec_fn=program.heed_signals, env={**os.environ, "REGISTRYD": program.PROGRAM}) as run:
            run.stdout.readline()
            # its fronts have begun, and are asked
            wait_for(lambda: len(self.of(run.pid, "--seat")) == 4)
            time.sleep(1)
            members = self.of(run.pid, "--data-dir")
            run.terminate()
            printed, said = run.communicate()
        assert (run.returncode, printed, said) == (1, b"", b"")
        assert members != []
        assert [it for it in members if Path(it).parent.exists()] == []

    @staticmethod
    def of(process, option):
        """What the processes that this one has begun are given as an option."""
        found = []
        for child in children(process):
            with contextlib.suppress(OSError):
                words = words_of(child).decode().split("\0")
                found += [after for word, after in zip(words, words[1:]) if word == option]
        return found
