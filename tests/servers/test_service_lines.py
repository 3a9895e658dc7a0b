"""What a service answers is what the program answers: the same bytes in the order of each client's lines, however many
there are. `tests/transcripts/watching.t` has what is no request."""
import functools
import itertools
import json
import os
import random
import re
import socket
import threading
from collections import deque
from concurrent.futures import ThreadPoolExecutor

import pytest

from registry_service.child import Child
from tests.support.made_lines import Maker
from tests.support.program import LIST, PATIENCE, SERVE, publish, resolve, run, yank
from tests.support.services import Case, wait_for
from tests.support.tables import tables_under

MOST_LINE_BYTES = 1_048_576
DERIVED = re.compile(rb'^\{"derivation":.*,"refused":true,"revision":')


def plain(reply):
    """A reply without the derivation, which hangs on what the program learnt of other requests."""
    return DERIVED.sub(b'{"refused":true,"revision":', reply)


def without_budget(lines):
    """Whether a budget is spent may hang on what was learnt, too."""
    return [line for line in lines if b"budget" not in line]


def replies_of(client, text):
    """What is answered to a text that is sent while the replies are read."""
    sending = threading.Thread(target=client.socket.sendall, args=(text,))
    sending.start()
    count, told = text.count(b"\n"), b""
    while told.count(b"\n") < count and (piece := client.piece()):
        told += piece
    sending.join()
    return told + client.finish()


class Order(Case):
    def compare(self, lines, *words):
        """A service gives the replies that one session of the program gives."""
        text = b"\n".join([*lines, b""])
        service = self.begin(*words)
        with service.client() as client:
            told = replies_of(client, text).split(b"\n")
        wanted = run(SERVE, text).stdout.split(b"\n")
        for number, (one, other) in enumerate(zip(told, wanted)):
            assert plain(one) == plain(other), f"line {number + 1}: {lines[number:number + 1]}"
        assert len(told) == len(wanted)
        self.ends_well(service)

    def test_the_lines_of_all_tables(self):
        lines = without_budget(line for table in tables_under("lines") for line, _, _ in table.rows)
        assert len(lines) > 500
        for readers in (1, 3):
            with self.subTest(readers):
                self.compare(lines, "--readers", readers)
                os.unlink(os.path.join(self.folder, "team.journal"))

    def test_made_lines(self):
        maker = Maker(random.Random(17))
        self.compare(without_budget(maker.line(maker.value()).replace(b"\n", b" ") for _ in range(2_000)))

    def test_twenty_clients_at_once(self):
        """Each client's replies come in order, at revisions that never fall, and each sees what it was told before."""
        service = self.begin()
        with ThreadPoolExecutor(20) as pool:
            list(pool.map(functools.partial(self.talk, service), range(20)))
        self.ends_well(service)
        assert len(service.commands()) == 20 * 30

    def talk(self, service, number):
        rng, last = random.Random(number), 0
        with service.client() as client:
            for minor in range(30):
                lines = [publish(f"p{number}", f"1.{minor}.0"), resolve(f"p{number} *"),
                         resolve(f"p{(number + 1) % 20} *"), publish(f"p{number}", f"1.{minor}.0"), "no line"]
                if rng.random() < 0.5:
                    accepted, own, other, again, bad = client.ask(*lines)
                else:
                    accepted, own, other, again, bad = (client.ask(line)[0] for line in lines)
                assert (accepted["ok"], own["selected"]) == (True, [[f"p{number}", f"1.{minor}.0"]])
                assert "selected" in other or other["refused"]
                assert (again["error"], bad["error"]) == (7, 19)
                revisions = [last, *(it["revision"] for it in (accepted, own, other, again, bad))]
                assert revisions == sorted(revisions)
                last = revisions[-1]


class Bounds(Case):
    def test_a_line_is_as_long_as_it_may_be(self):
        service = self.begin()
        good = LIST + " " * (MOST_LINE_BYTES - len(LIST))
        listed, bad = b'{"packages":[],"revision":0}\n', b'{"error":19,"name":"BadLine","revision":0}\n'
        for text, told in ((good + "\n", listed), (good + " \n", bad), (good + " \n" + LIST + "\n", bad + listed),
                           (good + " " * 3_000_000, bad), (good, listed), (LIST, listed), ("", b""), ("\n", bad),
                           ("\n\n" + LIST, bad + bad + listed), (LIST + "\r\n", listed)):
            with self.subTest(text.replace(" " * 1_000, "")[:100]), service.client() as client:
                assert client.finish(text.encode()) == told
        self.ends_well(service)

    def test_lines_in_pieces(self):
        service, told = self.begin(), []
        text = "".join(it + "\n" for it in (publish("log", "1.0.0"), resolve("log *"), yank("log", "1.0.0"),
                                            LIST, resolve("log *"))).encode()
        for size in (1, 7, 64):
            with service.client() as client:
                client.socket.setsockopt(socket.SOL_SOCKET, socket.SO_SNDBUF, 4_096)
                for at in range(0, len(text), size):
                    client.socket.sendall(text[at:at + size])
                told.append(client.finish())
        assert told[0] == run(SERVE, text).stdout
        again = (b'{"error":7,"name":"AlreadyPublished","revision":2}\n{"refused":true,"revision'
                 b'":2}\n{"error":12,"name":"AlreadyYanked","revision":2}\n')
        assert told[1] == told[2] and told[1].startswith(again), told[1]

    def test_a_client_that_does_not_read_is_cut_off_and_holds_up_nobody(self):
        service = self.begin(changes=[("client", "STALLED", 1)])
        with service.client() as busy:
            busy.ask(*(publish("log", f"1.{minor}.0") for minor in range(200)))
            with service.client() as idle:
                idle.socket.settimeout(0.5)
                sent = 0
                with pytest.raises(TimeoutError):  # it is read no more from
                    while sent < 5_000_000:
                        sent += idle.socket.send((LIST + "\n").encode() * 1_000)
                assert busy.ask(LIST)[0]["revision"] == 200
                wait_for(lambda: "registryd_clients_cut_off_total 1\n" in service.get("/metrics")[1])
                idle.socket.settimeout(PATIENCE)
                read = idle.rest()
            assert read.startswith(b'{"packages":[["log",[["1.0.0",false],')
            assert read.count(b"\n") < 100_000
        assert "event=cut-off" in service.end()[1]

    def test_a_client_that_reads_late_gets_all(self):
        service = self.begin()
        with service.client() as client:
            client.ask(*(publish("log", f"1.{minor}.0") for minor in range(500)))
            assert replies_of(client, (LIST + "\n").encode() * 500).count(b"\n") == 500

    def test_a_client_that_leaves_has_its_commands_and_no_more(self):
        service = self.begin()
        with service.client() as client:
            client.send(*(publish("log", f"1.{minor}.0") for minor in range(50)))
        with service.client() as client:
            # whoever comes after is answered
            assert "packages" in client.ask(LIST)[0]
        self.ends_well(service)
        commands = service.commands()
        assert [json.loads(it)["version"] for it in commands] == [f"1.{minor}.0" for minor in range(len(commands))]


class TestPieces:
    def test_replies_that_come_in_pieces(self):
        """Of a program, cut at each set of places."""
        text, told = b"ab\n\ncde\nf", [b"ab", b"", b"cde"]
        for cuts in range(2 ** (len(text) - 1)):
            places = [0, *(at for at in range(1, len(text)) if cuts >> (at - 1) & 1), len(text)]
            child, said = Child.__new__(Child), []
            child.waiting, child.pieces, child.is_killed = deque([said.append] * len(told)), [], False
            for begin, end in itertools.pairwise(places):
                child.data_received(text[begin:end])
            assert (said, b"".join(child.pieces)) == (told, b"f"), places
