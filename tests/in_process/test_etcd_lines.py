"""The lines that a front over etcd reads, and its replica: a child in a program's place answers what it is told to."""
import os
import queue
from pathlib import Path
from unittest import mock

from registry_etcd import lines, replica
from registry_etcd.lines import Line, read_line, read_lines, texts
from registry_etcd.replica import NO_LINE, Replica, pieces

YANK = b'{"name":"a","op":"yank","version":"1.0.0"}'
BAD = b'{"error":19,"name":"BadLine","revision":0}'


class Pieces:
    """A stream that gives these pieces, one for each read."""

    def __init__(self, *given):
        self.given, self.written, self.most = list(given), b"", 1 << 30

    def read1(self, _):
        return self.given.pop(0) if self.given else b""

    read = read1

    def write(self, data):
        """Takes no more than so many bytes at once."""
        if self.most == 0:
            raise BrokenPipeError
        self.written += bytes(data[:self.most])
        return min(len(data), self.most)


class TestLines:
    def test_lines_that_come_in_pieces(self):
        for given, wanted in (([], []), ([b"a\n"], [[b"a"]]), ([b"a\nb", b"c\n\nd"], [[b"a"], [b"bc", b""], [b"d"]]),
                              ([b"a", b"b"], [[b"ab"]]), ([b"\n"], [[b""]])):
            assert list(texts(Pieces(*given))) == wanted

    def test_lines_that_are_too_long(self):
        with mock.patch.object(lines, "MOST_LINE_BYTES", 5):
            for given, wanted in (([b"12345\n123456\n1\n"], [[b"12345", NO_LINE, b"1"]]),
                                  ([b"12345", b"\n"], [[b"12345"]]), ([b"123456", b"78\nab\n"], [[NO_LINE, b"ab"]]),
                                  ([b"123456", b"7", b"8\n", b"ab\n"], [[NO_LINE], [b"ab"]]),
                                  ([b"a\n123456"], [[b"a"], [NO_LINE]]), ([b"123456"], [[NO_LINE]]),
                                  ([b"123", b"456", b"\n"], [[NO_LINE]])):
                assert list(texts(Pieces(*given))) == wanted, given

    def test_what_a_line_asks(self):
        for text, wanted in ((b'{"op":"resolve","needs":[]}', ("resolve", None)),
                             (b'{"op": "resolve", "needs": []}', ("resolve", None)),
                             (b'{"needs":[],"op":"resolve"}', ("resolve", None)), (b'{"op":"list"}', ("list", None)),
                             (b'{"op":"none"}', ("none", None)),
                             # a second member may be the `op`, also where it is written otherwise
                             (b'{"op":"resolve","op":"list"}', ("list", None)),
                             (b'{"op":"resolve","\\u006fp":"list"}', ("list", None)),
                             (b'{"op":"yank", "version":"1.0.0","name":"a"}', ("yank", YANK)),
                             (b'{"op":"yank","name":"a"}', ("yank", None)),
                             (b'{"op":1}', (None, None)), (b'{"op":null,"name":"a"}', (None, None)),
                             (b"[]", (None, None)), (b"{}", (None, None)), (b"", (None, None)),
                             (b"\xff", (None, None)), (b"[" * 100_000, (None, None)), (b'{"op":"list"', (None, None)),
                             (b'{"op":"resolve",', ("resolve", None))):
            assert read_line(text) == wanted, text[:40]

    def test_lines_have_numbers(self):
        arrived = queue.Queue()
        read_lines(Pieces(b'{"op":"list"}\n' + YANK + b"\n", b"x"), arrived)
        told = [arrived.get_nowait() for _ in range(3)]
        assert arrived.empty()
        assert [[(it.number, it.text, it.op, it.command) for it in some]
                for some in told[:2]] == [[(1, b'{"op":"list"}', "list", None), (2, YANK, "yank", YANK)],
                                          [(3, b"x", None, None)]]
        assert told[2] is None
        assert Line(7, b"{}").number == 7


class Child:
    """A program that answers with these pieces, in the place of one that is begun."""

    def __init__(self, *answers, said=b"", status=0):
        self.stdin, self.stdout, self.stderr = Pieces(), Pieces(*answers), said
        self.returncode, self.done = status, []

    def begun(self, words, **more):
        """Takes the place of `tied.Tied`; keeps what stood in the journal's file when it was begun."""
        self.words, self.more = words, more
        self.journal = Path(words[-1]).read_bytes()
        return self

    def kill(self):
        self.done.append("kill")

    def communicate(self):
        self.done.append("communicate")
        return b"", self.stderr

    def let_go(self):
        self.done.append("let_go")


class TestReplicas:
    def begun(self, child, workers=1):
        with mock.patch.object(replica.tied, "Tied", child.begun):
            return Replica("program", workers, b"text")

    def test_what_is_begun(self):
        child = Child(BAD + b"\n")
        made = self.begun(child, 3)
        assert (child.words[:-1], child.journal) == (["program", "serve", "--workers", "3", "--load"], b"text")
        assert (child.more["bufsize"], child.more["process_group"]) == (0, 0)
        assert not os.path.exists(child.words[-1])
        assert (child.stdin.written, made.owed) == (NO_LINE + b"\n", 0)
        made.end()
        assert child.done == ["kill", "communicate", "let_go"]

    def test_replies_come_in_pieces(self):
        child = Child(BAD + b"\n")
        made = self.begun(child)
        child.stdin.most = 4
        child.stdout.given = [b"on", b"e", b"\ntwo\n", b"thr", b"ee\n"]
        assert list(made.each([b"1", b"2", b"3"])) == [[b"one", b"two"], [b"three"]]
        assert child.stdin.written == NO_LINE + b"\n1\n2\n3\n"
        # what a pipe holds is sent ahead, and its replies are taken
        with mock.patch.object(replica, "PIPE_BYTES", 4):
            made.send_ahead([b"4", b"5", b"6"])
        assert (made.owed, child.stdin.written[-4:]) == (2, b"4\n5\n")
        child.stdout.given = [b"four\n", b"five\n"]
        assert (list(made.replies()), made.owed) == ([[b"four"], [b"five"]], 0)

    def test_what_was_sent_before_is_passed_over(self):
        child = Child(BAD + b"\n")
        made = self.begun(child)
        child.stdout.given = [b"one\n", b"two\n", b"three\n"]
        made.send([b"1", b"2"])
        assert made.answer([b"3"]) == [b"three"]
        assert made.answer([]) == []

    def test_pieces_fit_into_a_pipe(self):
        with mock.patch.object(replica, "PIPE_BYTES", 10):
            for given, wanted in (([], []), ([b"1234"] * 3, [[b"1234"] * 2, [b"1234"]]),
                                  ([b"1234", b"12345"], [[b"1234"], [b"12345"]]),
                                  ([b"x" * 50, b"1", b"2"], [[b"x" * 50], [b"1", b"2"]]),
                                  ([b"1", b"x" * 50, b"2"], [[b"1"], [b"x" * 50], [b"2"]]),
                                  ([b""] * 11, [[b""] * 10, [b""]])):
                assert [list(it) for it in pieces(given)] == wanted
