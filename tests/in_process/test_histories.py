"""The judge of histories of fronts over etcd: a true one, and lies, each of which it finds; and a client's front."""
import signal
import sys
from unittest import mock

import pytest

from tests.support import fronts, program
from tests.support.fronts import Front, Told
from tests.support.over_small_etcd import A1, A2, B1, accepted, refused
from tests.support.program import LIST, TOP, journal_line, publish, resolve, unyank, yank

YANK = yank("a", "1.0.0")
BOTH = '{"packages":[["a",[["1.0.0",true]]],["b",[["1.0.0",false]]]],"place":4,"revision":3,"seat":1}'


def listing(place, revision, seat, yanked):
    return f'{{"packages":[["a",[["1.0.0",{yanked}]]]],"place":{place},"revision":{revision},"seat":{seat}}}'


class History:
    """One of two fronts, in which nothing is wrong."""

    def __init__(self):
        self.journal, self.opened = [A1, YANK, B1], []
        self.first = [Told(A1, accepted(1), 0, 1), Told(LIST, listing(1, 1, 1, "false"), 1, 2),
                      Told(B1, accepted(4, 3), 6, 7)]
        self.second = [Told(A1, refused(7, "AlreadyPublished", 2, 1, 2), 2, 3), Told(YANK, accepted(3, 2, 2), 3, 5),
                       Told(LIST, listing(3, 2, 2, "true"), 5, 6)]

    def fault(self):
        lines = [journal_line(line) for line in self.journal]
        text = "\n".join(["registry-journal 1", *lines, f"end {len(lines)}", ""])
        return fronts.fault(text, [self.first, self.second], self.opened)

    def add(self, line, reply, asked=8.0, had=9.0, is_again=False):
        self.first.append(Told(line, reply, asked, had, is_again))


def change(front, place, **how):
    front[place] = front[place]._replace(**how)


# each lie, by what it does to the history above, and what is told of it
LIES = [
    (lambda it: it.journal.append(A2), "4 entries, and commands were accepted at [4]"),
    (lambda it: (it.journal.append(A2), it.opened.append(B1)), "accepted at [4]"),
    (lambda it: (it.journal.extend([A2, A2]), it.opened.append(A2)), "5 entries, and commands were accepted at [5]"),
    (lambda it: it.journal.pop(), "2 entries, and commands were accepted at [3]"),
    (lambda it: it.journal.append(B1), "4 entries, and commands were accepted at [4]"),
    (lambda it: it.journal.__setitem__(2, A2), "does not stand at 3"),
    (lambda it: (change(it.second, 1, reply=accepted(3, 3, 2)), change(it.second, 2, reply=listing(3, 3, 2, "true"))),
     "two commands have one revision"),
    (lambda it: it.first.reverse(), "out of order"),
    (lambda it: (change(it.first, 0, is_again=True), change(it.first, 2, is_again=True),
                 it.first.reverse()), "out of order"),
    (lambda it: change(it.first, 1, reply=listing(0, 1, 1, "false")), "out of order"),
    (lambda it: change(it.first, 1, reply=listing(1, 0, 1, "false")), "out of order"),
    (lambda it: it.add(LIST, listing(5, 2, 1, "true")), "out of order"),
    (lambda it: it.add(A2, accepted(4, 3)), "out of order"),
    (lambda it: change(it.first, 2, reply=accepted(4, 1)), "out of order"),
    (lambda it: change(it.first, 2, reply=accepted(3, 3)), "place 3 is revision 3 and 2"),
    (lambda it: it.first.insert(2, Told(LIST, listing(3, 2, 1, "false"), 5, 6)), "two listings at place 3"),
    (lambda it: it.first.insert(2, Told(LIST, listing(1, 1, 1, "false"), 5.5, 6)), "asked when revision 2 was told"),
    (lambda it: change(it.second, 0, reply=refused(11, "NoSuchVersion", 2, 1, 2)), "AlreadyPublished"),
    *[(lambda it, line=line: (it.journal.append(line), it.opened.append(line)), "entry 4: ")
      for line in (A1, yank("c", "1.0.0"), publish("A", "1.0.0"))],
    (lambda it: it.add(LIST, listing(9, 7, 1, "true")), "no such revision: {7: "),
    (lambda it: it.add(resolve("b *"),
                       '{"place":4,"refused":true,"revision":3,"seat":1}'), 'wanted {"revision":3,"selected":'),
    (lambda it: it.add(resolve("a *"), '{"place":4,"revision":3,"seat":1,"selected":[["a","1.0.0"]]}'), resolve("a *")),
    (lambda it: it.add(unyank("b", "1.0.0"), refused(12, "AlreadyYanked", 4, 3)), "NotYanked"),
]


@pytest.mark.parametrize("lie, told", LIES)
def test_a_lie_is_found(lie, told):
    history = History()
    assert history.fault() is None
    lie(history)
    assert told in history.fault()


def test_what_is_right():
    for right in (lambda it: (it.journal.append(A2), it.opened.extend([A2, B1])),
                  lambda it: it.add(resolve("b *"), '{"place":4,"revision":3,"seat":1,"selected":[["b","1.0.0"]]}'),
                  lambda it: it.add(unyank("b", "1.0.0"), refused(13, "NotYanked", 4, 3)),
                  lambda it: it.add(publish("B", "1.0.0"), refused(1, "BadName", 4, 3)),
                  # whoever asks at the moment of a reply need not find it
                  lambda it: (it.first.clear(), it.second.clear(), it.journal.__setitem__(slice(None), [A1]),
                              it.add(A1, accepted(1), 0, 1), it.second.append(
                                  Told(LIST, '{"packages":[],"place":0,"revision":0,"seat":2}', 1, 9)))):
        history = History()
        right(history)
        assert history.fault() is None
    change(history.second, 0, asked=1.01)
    assert "asked when revision 1 was told" in history.fault()


def test_a_front_that_was_begun_again():
    # a list is answered anew, though the command behind it stood before
    history = History()
    history.first[1:] = [Told(LIST, listing(3, 2, 1, "true"), 1, 8, True), Told(YANK, accepted(3, 2), 1, 8, True),
                         Told(B1, accepted(4, 3), 8, 9)]
    history.second = history.second[:1]
    assert history.fault() is None
    change(history.first, 1, reply=BOTH)
    assert "out of order" not in (history.fault() or "")
    change(history.first, 2, is_again=False)
    assert "out of order" in history.fault()


def test_the_highest_of_those_that_were_told_counts():
    # the third was told before the second
    history = History()
    history.second[1:] = [Told(YANK, accepted(3, 2, 2), 3, 20)]
    history.add(LIST, BOTH, 7, 8)
    assert history.fault() is None
    history.second.append(Told(LIST, listing(3, 2, 2, "true"), 21, 22))
    assert history.fault() == f"asked when revision 3 was told: {LIST} {listing(3, 2, 2, 'true')}"


@pytest.mark.parametrize("text", ["", "registry-journal 2\nend 0\n",
                                  "registry-journal 1\nend 1\n", "registry-journal 1\nend 0", "registry-journal 1\n"])
def test_what_is_printed_is_no_journal(text):
    assert fronts.fault(text, []).startswith("no journal: ")


# ---- a front as a client has it, over a child that answers by a script


@pytest.fixture
def begun(monkeypatch):
    """Begins a front. Each life of its child is a list of what it answers, and then its status with what it says."""
    def begin_front(*lives, **more):
        left, front = list(lives), Front(["http://x"], 3, "--more", **more)
        front.begun = []

        def begin(words, **_):
            *answers, end = left.pop(0)
            child = mock.Mock(sent=[])
            child.stdin.write.side_effect = child.sent.append
            child.stdout.readline.side_effect = [answer + "\n" for answer in answers] + [""] * 300
            child.stderr.closed, (child.wait.return_value, child.stderr.read.return_value) = False, end
            front.begun.append((words, child))
            return child
        monkeypatch.setattr(fronts.tied, "Tied", begin)
        front.begin()
        return front
    return begin_front


def test_how_a_front_begins_and_ends(begun):
    front = begun([(3, "said")], writer="w")
    words, child = front.begun[0]
    # nothing is looked for beside what comes with Python
    assert words == [sys.executable, "-S", TOP, "registry_etcd", "serve", "--endpoints", "http://x", "--program",
                     program.PROGRAM, "--seat", "3", "--more", "--writer", "w"]
    child.stdin.close.side_effect = BrokenPipeError()
    assert front.end() == (3, "said")
    child.stderr.closed, child.returncode = True, 3
    assert front.end() == (3, "it had ended")


def test_lines_are_asked_again_where_a_front_was_killed(begun):
    front = begun([accepted(1), (-signal.SIGKILL, "")], [accepted(1), accepted(2), (0, "")])
    assert (front.ask(A1), front.ask(B1)) == ([accepted(1)], [accepted(2)])
    assert [(it.line, it.reply, it.is_again) for it in front.told] == [(A1, accepted(1), False),
                                                                       (B1, accepted(2), True)]
    assert front.begun[1][1].sent == [A1 + "\n", B1 + "\n"]


@pytest.mark.parametrize("end, may_forget", [((1, "no"), True), ((1, f"line 1 of w {fronts.NOT_KEPT}"), False),
                                             ((0, ""), True)])
def test_a_front_that_ends_by_itself(end, may_forget, begun):
    with pytest.raises(AssertionError, match=f"the front ended by itself: {end[0]} {end[1]}"):
        begun([end], may_forget=may_forget).ask(A1)


def test_another_answer_than_before(begun):
    front = begun([accepted(1), (-signal.SIGKILL, "")], [accepted(2), accepted(3), (0, "")])
    front.ask(A1)
    with pytest.raises(AssertionError, match="was answered .* and then"):
        front.ask(B1)
    # what changes nothing may be answered otherwise, and so may a publication that took no cell
    first, then = refused(7, "AlreadyPublished", 1, 1), refused(7, "AlreadyPublished", 5, 4)
    front = begun([listing(1, 1, 3, "false"), first, (-signal.SIGKILL, "")],
                  [listing(2, 2, 3, "true"), then, accepted(6), (0, "")])
    assert [front.ask(line) for line in (LIST, A1, B1)][2] == [accepted(6)]


def test_a_reply_that_is_no_longer_kept(begun):
    front = begun([accepted(1), (1, f"line 2 {fronts.NOT_KEPT}")], [accepted(2), (-signal.SIGKILL, "")],
                  [accepted(2), accepted(3), (0, "")], writer="w", may_forget=True)
    assert [front.ask(line) for line in (A1, B1, A2)] == [[accepted(1)], [accepted(2)], [accepted(3)]]
    # by another name it asks nothing of before, and of the line it is open whether it stands
    assert (front.open, front.names, front.first) == ([B1], 1, 1)
    assert [child.sent for _, child in front.begun[1:]] == [[B1 + "\n", A2 + "\n"]] * 2
    assert [words[-1] for words, _ in front.begun] == ["w", "w-1", "w-1"]
