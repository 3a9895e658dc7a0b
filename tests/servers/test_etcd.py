"""Fronts over etcd: what they answer when replies are lost, entries race and cells are dropped. Behind the fronts
stands a small etcd in memory; a real one is asked, too. `tests/transcripts/etcd.t` has what needs no hook."""
import hashlib
import json
import os
import signal
import socket
import ssl
import subprocess
import tempfile
import time
import unittest
from base64 import b64decode, b64encode
from pathlib import Path

from dev.long import etcd_histories
from tests.program.test_readme import blocks
from tests.support import fronts, program
from tests.support.fake_etcd import Drop, Gate, SmallEtcd
from tests.support.members import Members
from tests.support.over_small_etcd import A1, A2, B1, Case, accepted, deaf, refused
from tests.support.ports import free_ports
from tests.support.program import LIST, TOP, publish, resolve, skip_without, yank

SELECTED = '{"place":%d,"revision":%d,"seat":%d,"selected":[["a","%d.0.0"]]}'


class OverSmallEtcd(Case):
    # ---- what is answered

    def test_what_a_look_finds_counts_though_the_replica_was_asked_before(self):
        # an entry comes between the line and the read: the front had no reason to expect one
        entering = []

        def hook(moment, path, asked):
            deaf(moment, path, asked)
            if moment == "before" and path == "/v3/kv/range" and entering:
                self.done("serve", "--seat", "2", given=entering.pop().encode())
        front = self.front(hook=hook)
        assert front.ask(LIST) == ['{"packages":[],"place":0,"revision":0,"seat":1}']
        entering.append(A1)
        selected = SELECTED % (1, 1, 1, 1)
        none = '{"place":1,"refused":true,"revision":1,"seat":1}'
        assert front.ask(resolve("a *"), resolve("a ^2"), resolve("a *")) == [selected, none, selected]
        # what was accepted is known as accepted, and takes no cell once more
        assert front.ask(resolve("a *"), A1) == [selected, refused(7, "AlreadyPublished", 1, 1)]

    # ---- what is lost

    def test_a_lost_reply(self):
        for moment in ("before", "after"):
            front = self.front(hook=self.once(moment, self.drop))
            place = len(self.cells())
            assert front.ask(publish("a", f"{place}.0.0")) == [accepted(place)]
        assert list(self.cells()) == [f"registry/cells/{n:08}" for n in range(3)]

    def test_a_front_that_is_killed_between_its_write_and_its_reply(self):
        for moment, place in ("before", 1), ("after", 3):
            def kill(asked):
                front.child.kill()
                raise Drop
            front = self.front(1, writer=moment, hook=self.once(moment, kill))
            lines = [publish(moment, "1.0.0"), yank(moment, "1.0.0")]
            # it is begun again with the same lines, and the first stands where its first life had put it
            assert [front.ask(line)[0] for line in lines] == [accepted(place), accepted(place + 1)]
        assert len(self.cells()) == 5

    def test_a_write_that_comes_late_puts_nothing(self):
        late = []

        def hold(asked):
            late.append(asked)
            raise Drop
        front = self.front(hook=self.once("before", hold))
        assert front.ask(A1) == [accepted(1)]
        front.ask(*[publish("b", f"1.{n}.0") for n in range(20)])
        stood = self.cells()
        assert "succeeded" not in self.etcd.answer("/v3/kv/txn", late[0])[1]
        # nor where the cell that it is for was dropped
        self.done("compact", "--keep", "2")
        assert "succeeded" not in self.etcd.answer("/v3/kv/txn", late[0])[1]
        assert list(self.cells().items()) == list(stood.items())[-3:]

    def test_an_entry_that_comes_between(self):
        for second, reply in (A1, refused(7, "AlreadyPublished", 2, 1)), (A2, accepted(4, 3)):
            given = (A1 if second == A1 else B1).encode()
            front = self.front(hook=self.once("before", lambda asked: self.done("serve", "--seat", "2", given=given)))
            assert front.ask(second) == [reply]

    def test_two_fronts_see_each_other(self):
        first, second = self.front(1, hook=deaf), self.front(2, hook=deaf)
        for n in range(1, 20, 2):
            assert first.ask(publish("a", f"{n}.0.0")) == [accepted(n)]
            assert second.ask(resolve("a *")) == [SELECTED % (n, n, 2, n)]
            assert second.ask(publish("a", f"{n + 1}.0.0")) == [accepted(n + 1, seat=2)]
            assert first.ask(resolve("a *")) == [SELECTED % (n + 1, n + 1, 1, n + 1)]

    def test_a_stale_front_is_brought_up_by_the_watch_and_asks_nothing(self):
        calls = []
        front = self.front(2, "--stale", hook=lambda moment, path, asked: calls.append((moment, path)))
        front.ask(LIST)
        self.done("serve", given=A1.encode())
        wanted = '{"packages":[["a",[["1.0.0",false]]]],"place":1,"revision":1,"seat":2}'
        assert any(front.ask(LIST) == [wanted] for _ in range(100_000))
        known = len(calls)
        for _ in range(50):
            front.ask(LIST)
        time.sleep(0.5)
        assert calls[known:] == []

    def test_a_member_that_does_not_answer(self):
        with socket.socket() as silent:
            silent.bind(("127.0.0.1", 0))
            silent.listen()
            dead = f"http://127.0.0.1:{silent.getsockname()[1]}"
            ended = fronts.run("serve", [dead, self.gate.url], "--timeout", "0.2", given=A1.encode())
            assert (ended.stdout.decode(), ended.returncode) == (accepted(1) + "\n", 0)
            ended = fronts.run("serve", [dead], "--timeout", "0.1", "--patience", "0.3", given=A1.encode())
        assert (ended.stdout, ended.returncode) == (b"", 1)
        assert b"registryd-etcd: no member of etcd answers" in ended.stderr

    # ---- snapshots

    def test_snapshots_on_the_way(self):
        front = self.front(1, "--compact-every", "4", "--keep", "2")
        for n in range(1, 12):
            assert front.ask(publish("a", f"{n}.0.0")) == [accepted(n)]
        listed = front.ask(LIST)[0]
        assert list(self.cells()) == [f"registry/cells/{n:08}" for n in range(6, 12)]
        assert self.done("serve", given=LIST.encode()) == listed + "\n"
        assert sum(key.startswith(b"registry/pages/") for key in self.etcd.kept) == 1

    def test_a_front_that_was_held_up_goes_on_from_the_snapshot(self):
        held = self.front(1, hook=deaf)
        held.ask(A1)
        lines = "".join(publish("b", f"1.{n}.0") + "\n" for n in range(30))
        self.done("serve", "--seat", "2", given=lines.encode())
        self.done("compact", "--keep", "3")
        assert held.ask(publish("b", "2.0.0")) == [accepted(32)]
        again = self.done("serve", "--seat", "2", given=LIST.encode())
        assert held.ask(LIST)[0].replace('"seat":1', '"seat":2') + "\n" == again

    def test_a_snapshot_that_is_overtaken_while_it_is_read(self):
        # between what names the pages and the pages another snapshot takes their place
        left = [B1]

        def overtake(moment, path, asked):
            if (moment, path) == ("before", "/v3/kv/range") and b"/pages/" in b64decode(asked["key"]) and left:
                self.done("serve", "--seat", "2", given=left.pop().encode())
                self.done("compact", "--keep", "0")
        front = self.front(1, hook=overtake)
        assert front.ask(LIST) == ['{"packages":[["b",[["1.0.0",false]]]],"place":1,"revision":1,"seat":1}']
        assert left == []

    def test_a_reply_that_is_no_longer_kept(self):
        # the entry stands, and before its writer learns of it, a snapshot takes its place
        def overtake(asked):
            self.done("serve", "--seat", "2", given=B1.encode())
            self.done("compact", "--keep", "0")
            raise Drop
        front = self.front(1, writer="w", hook=self.once("after", overtake))
        front.child.stdin.write(A1 + "\n")
        front.child.stdin.flush()
        assert front.end() == (1, "registryd-etcd: line 1 of w was answered before, and its reply is no longer kept\n")
        assert self.journal().count('"name":"a"') == 1

    def test_a_front_begins_with_a_file(self):
        path = os.path.join(self.folder, "journal")
        self.done("serve", "--save", path, given=(A1 + "\n" + yank("c", "1.0.0") + "\n" + A2).encode())
        assert (Path(path).read_text(encoding="ascii")
                == f"registry-journal 1\n{program.journal_line(A1)}\n{program.journal_line(A2)}\nend 2\n")
        self.done("serve", given=B1.encode())
        keys = []
        gate = self.opened(lambda moment, path, asked: keys.append(b64decode(asked["key"])) if path
                           == "/v3/kv/range" else None)
        listed = ('{"packages":[["a",[["1.0.0",false],["2.0.0",false]]],["b",[["1.0.0",false]]]],'
                  '"place":4,"revision":3,"seat":1}\n')
        assert self.done("serve", "--load", path, given=LIST.encode(), gate=gate) == listed
        # no page of the snapshot was read, and no cell before the file's place
        assert set(keys) == {b"registry/snapshot", b"registry/cells/00000003", b"registry/cells/00000004"}
        with open(path, "a", encoding="ascii") as file:
            file.write(" ")
        assert "do not belong together" in self.fails("serve", "--load", path)
        # a file of another journal
        self.done("found", "--prefix", "other")
        self.done("serve", "--prefix", "other", "--save", path)
        assert "is another than that under registry" in self.fails("serve", "--load", path)

    # ---- what lies

    def put(self, place, value):
        key = b64encode(f"registry/cells/{place:08}".encode()).decode()
        self.etcd.answer("/v3/kv/put", {"key": key, "value": value})

    def test_what_nobody_can_read_changes_nothing(self):
        nonsense = ["", "bm9uc2Vuc2U=", encoded({"command": {"op": "list"}, "seat": 1, "serial": 1, "writer": "w"}),
                    encoded({"command": json.loads(A1), "seat": -1, "serial": 1, "writer": "w"})]
        for place, value in enumerate(nonsense, 1):
            self.put(place, value)
        replies = '{"packages":[],"place":4,"revision":0,"seat":1}\n' + accepted(5, 1) + "\n"
        assert self.done("serve", given=(LIST + "\n" + A1).encode()) == replies

    def test_a_cell_that_was_written_twice_or_is_gone(self):
        self.done("serve", given="".join(publish("a", f"{n}.0.0") + "\n" for n in range(4)).encode())
        kept = dict(self.etcd.kept)
        self.put(3, encoded({}))
        assert "cell 3 was written twice" in self.fails("serve")
        self.etcd.kept = {key: row for key, row in kept.items() if not key.endswith(b"3")}
        assert "cell 4 does not follow on cell 2" in self.fails("serve")
        self.etcd.kept = dict(kept)
        del self.etcd.kept[b"registry/cells/00000002"]
        self.put(2, encoded({}))
        assert "cell 3 does not follow on cell 2" in self.fails("serve")
        self.etcd.kept = {**kept, b"registry/cells/x": kept[b"registry/cells/00000004"]}
        assert "no cell has the key b'x'" in self.fails("serve")
        # etcd as it was before: a front that has read more goes no further
        self.etcd.kept = dict(kept)
        front = self.front()
        front.ask(LIST)
        self.etcd.kept = {key: row for key, row in kept.items() if not key.endswith(b"4")}
        assert front.send([A1]) is None
        assert front.end() == (1, "registryd-etcd: cell 4 is gone, and no snapshot stands for it\n")

    def test_a_snapshot_that_lies(self):
        front = self.front(1, hook=deaf)
        front.ask(A1)
        self.done("serve", "--seat", "2", given=B1.encode())
        self.done("compact", "--keep", "0")
        head = json.loads(self.etcd.kept[b"registry/snapshot"][3])
        (page,) = [key for key in self.etcd.kept if b"/pages/" in key]
        told = self.etcd.kept[page][3].replace(b'"1.0.0"', b'"6.6.6"')
        self.etcd.answer("/v3/kv/put", {"key": b64encode(page).decode(), "value": b64encode(told).decode()})
        assert "the pages of the snapshot are not those that were written" in self.fails("serve")
        # whoever writes both is found out by a front that has read what the page was written for
        head["digest"] = hashlib.sha256(told).hexdigest()
        self.etcd.answer("/v3/kv/put", {"key": b64encode(b"registry/snapshot").decode(), "value": encoded(head)})
        assert front.send([LIST]) is None
        assert front.end() == (1, "registryd-etcd: the snapshot does not begin with what was accepted before\n")
        self.etcd.answer("/v3/kv/put", {"key": b64encode(b"registry/snapshot").decode(), "value": encoded({})})
        assert "the snapshot has another form" in self.fails("serve")


def encoded(value):
    return b64encode(json.dumps(value).encode()).decode()


class OverEtcd(unittest.TestCase):
    @skip_without("etcd", "etcd-server")
    def test_what_the_page_tells_to_type(self):
        members, typed, told = blocks("docs/SCALE.md")[:3]
        first = free_ports(30)[9] // 10  # the page writes a member's number behind such a port, and behind the next one
        lines = [line.replace("2379", str(first)).replace("2380", str(first + 1)) for line in members + typed]
        with tempfile.TemporaryDirectory() as folder:
            text = "\n".join(lines).replace("registryd-etcd ", f"registryd-etcd --program {program.PROGRAM} ")
            text = text.replace("tools/", os.path.join(TOP, "tools", ""))
            with subprocess.Popen(["sh", "-c", text], cwd=folder, stdout=subprocess.PIPE, text=True,
                                  start_new_session=True) as shell:
                try:
                    with program.in_time(2 * program.PATIENCE):
                        printed = shell.stdout.read()
                finally:
                    os.killpg(shell.pid, signal.SIGKILL)
        assert printed.splitlines() == told

    @skip_without("openssl", "openssl")
    def test_certificates(self):
        """A gate that asks for a certificate is answered with the one that is named, and checked by the one that is."""
        with tempfile.TemporaryDirectory() as folder:
            cert, key = os.path.join(folder, "cert"), os.path.join(folder, "key")
            subprocess.run(["openssl", "req", "-x509", "-newkey", "rsa:2048", "-nodes", "-subj", "/CN=front",
                            "-addext", "subjectAltName=IP:127.0.0.1", "-keyout", key, "-out", cert],
                           check=True, capture_output=True)
            gate = Gate(SmallEtcd())
            self.addCleanup(gate.close)
            context = ssl.create_default_context(ssl.Purpose.CLIENT_AUTH, cafile=cert)
            context.load_cert_chain(cert, key)
            context.verify_mode = ssl.CERT_REQUIRED
            gate.socket = context.wrap_socket(gate.socket, server_side=True)
            url, known = gate.url.replace("http", "https"), ["--cacert", cert]
            assert fronts.run("found", [url], *known, "--cert", cert, "--key", key).returncode == 0
            ended = fronts.run("serve", [url], *known, "--cert", cert, "--key", key, given=A1.encode())
            assert (ended.returncode, ended.stdout.decode()) == (0, accepted(1) + "\n")
            for words in known, []:
                ended = fronts.run("serve", [url], "--patience", "0.2", *words, given=A1.encode())
                assert (ended.returncode, ended.stdout) == (1, b"")

    @skip_without("etcd", "etcd-server")
    def test_a_history_of_three_fronts_over_three_members(self):
        members = Members(3)
        self.addCleanup(members.close)
        for seed in (1, 2, 3):
            history = etcd_histories.History(members, seed, 3, 4.0, 10)
            assert history.run() is None
            assert history.done["commands accepted"] >= 3
            print(f"({history.done['lines answered']} lines) ", end="")
