"""The commands of `dev/long` find what is wrong, a lie of each kind, by replies of hand; and what they print."""
import json
import multiprocessing
import os
import random
import re
import subprocess
import sys
from collections import Counter
from pathlib import Path
from types import SimpleNamespace
from unittest import mock

import pytest

from dev.long import fuzz, fuzz_check, interrupt_sessions, kill_seats, kill_sessions, newest_many, race_many
from dev.long.interrupt_sessions import KNOWN, MISSING, new
from dev.runs import Find
from registryd import Accepted, AlreadyPublished, Ended, NoSelection, Resolve, Selection
from registryd.child import BROKEN_OFF
from tests.program.test_journals import CHAIN, journal, learn
from tests.support import library, program, said
from tests.support.client_python import PYTHON
from tests.support.made_lines import Maker
from tests.support.plain_race import RaceFault
from tests.support.plain_remnant import Reader
from tests.support.program import LIST, TOP, journal_line, publish, yank
from tests.support.reference import Registry

A1, B1 = publish("a", "1.0.0"), publish("b", "1.0.0")
OK1, OK2 = b'{"ok":true,"revision":1}\n', b'{"ok":true,"revision":2}\n'
EMPTY = b'{"packages":[],"revision":0}\n'


def ended(told=b"", status=0, said=b""):
    return SimpleNamespace(returncode=status, stdout=told, stderr=said)


def running(*ends):
    """Has the program end so, time after time."""
    return mock.patch.object(program, "run", side_effect=list(ends))


def finds(told, do, *more):
    with pytest.raises(Find, match=re.escape(told)):
        do(*more)


# ---- what commands print, of what their seeds came to

RACES = r"2 races of 1,300 lines, 110 entries"
KILLS = [
    ([(1, 1_000, 20, None), (1, 30, 5_000, None)],
     r"2 kills of WHAT of 2 files, the largest of 5,000 bytes, 1,030 replies read, in \d+ s; 0 finds\n"),
    ([(0, 0, 0, "seed 1: no"), (2, 1, 3, None)],
     r"seed 1: no\n2 kills of WHAT of 2 files, the largest of 3 bytes, 1 replies read, in \d+ s; 1 finds\n")]
PRINTED = [
    (fuzz, "--sessions", [(30, None), (30, None)], r"60 lines in \d+ s; 0 finds\n"),
    (fuzz, "--sessions", [(30, None), (0, "seed 2: no")], r"seed 2: no\n30 lines in \d+ s; 1 finds\n"),
    (fuzz_check, "--sessions", [(Counter({0: 9}), []), (Counter({1: 4}), [])],
     r"13 lines in \d+ s, answered \{0: 9, 1: 4\}; 0 finds\n"),
    (fuzz_check, "--sessions", [(Counter({0: 9}), ["one", "two"]), (Counter(), ["three"])],
     r"one\ntwo\nthree\n9 lines in \d+ s, answered \{0: 9\}; 3 finds\n"),
    *[(tool, "--kills", ends, printed.replace("WHAT", what))
      for tool, what in ((kill_sessions, "sessions"), (kill_seats, "seats")) for ends, printed in KILLS],
    (interrupt_sessions, "--sessions", [(20, 30, 4_000, None)],
     r"20 sessions, 30 calls interrupted, 4,000 replies judged, in \d+ s; 0 finds\n"),
    (interrupt_sessions, "--sessions", [(20, 30, 4_000, "seed 1: no")],
     r"seed 1: no\n20 sessions, 30 calls interrupted, 4,000 replies judged, in \d+ s; 1 finds\n"),
    (race_many, "--races", [(600, 50, None), (700, 60, None)], RACES + r", in \d+ s; 0 finds\n"),
    (race_many, "--races", [(600, 50, None), (700, 60, "seed 2: no")], rf"seed 2: no\n{RACES}, in \d+ s; 1 finds\n"),
]


@pytest.mark.parametrize("tool, option, ends, printed", PRINTED)
def test_what_is_printed(tool, option, ends, printed, monkeypatch, capsys):
    pool = mock.MagicMock()
    entered = pool.Pool.return_value.__enter__.return_value
    entered.imap_unordered = lambda do, seeds: (end for _, end in zip(seeds, ends))
    monkeypatch.setattr(multiprocessing, "get_context", lambda how: pool)
    monkeypatch.setattr(race_many, "library", lambda folder: "a library")
    monkeypatch.setattr(library, "linked", lambda to, source: to)
    monkeypatch.setattr(program, "PROGRAM", program.PROGRAM)
    monkeypatch.setattr(said, "is_noting", said.is_noting)
    assert tool.main([option, "2", "--jobs", "3", "--program", "x"]) == int("; 0 finds" not in printed)
    assert re.fullmatch(printed, capsys.readouterr().out)
    assert program.PROGRAM == "x"
    pool.Pool.assert_called_once_with(3)


@pytest.mark.parametrize("found", [[], ["one", "two"]])
def test_what_newest_many_prints(found, monkeypatch, capsys):
    monkeypatch.setattr(sys, "argv", ["newest_many.py", "--cases", "3", "--seed", "7"])
    monkeypatch.setattr(newest_many, "faults", lambda seeds: found if seeds == range(7, 10) else None)
    assert newest_many.main() == int(bool(found))
    assert capsys.readouterr().out.splitlines() == [*found, f"3 cases, {len(found)} finds"]


@pytest.mark.parametrize("name", sorted(path.stem for path in Path(TOP, "dev", "long").glob("[a-z]*.py")))
def test_each_command_begins_by_itself(name):
    """With the client beside it alone of what these tests have on their path."""
    done = subprocess.run([sys.executable, TOP, f"dev.long.{name}", "--help"], cwd="/", env=PYTHON, capture_output=True,
                          text=True, timeout=100)
    assert (done.returncode, done.stderr, done.stdout.split()[:2]) == (0, "", ["usage:", f"{name}.py"])


# ---- sessions and journals of all kinds


@pytest.mark.parametrize("end, told", [
    (ended(b"", 1, b"no"), "a session ends with 1 b'no'"), (ended(OK1, 0, b"no"), "a session ends with 0 b'no'"),
    (ended(b"", 3), "a session ends with 3"), (ended(), "1 lines have 0 replies"),
    (ended(OK1[:-1]), "1 lines have 0 replies"), (ended(b"a\nb\n"), "1 lines have 2 replies")])
def test_how_a_session_ends(end, told):
    with running(end):
        finds(told, fuzz.run, [A1.encode()])


def test_replies_that_may_not_be():
    lines = [A1.encode(), b"x", LIST.encode()]
    right = ['{"ok":true,"revision":1}', '{"error":19,"name":"BadLine","revision":1}',
             '{"packages":[["a",[["1.0.0",false]]]],"revision":1}']
    assert [it["name"] for it in fuzz.judged(lines, right).accepted] == ["a"]
    for place, reply in enumerate(right):
        told = [*right[:place], reply.replace('"revision":1', '"revision":2'), *right[place + 1:]]
        finds(f"line {place + 1}: ", fuzz.judged, lines, told)


def test_what_is_saved():
    accepted = [json.loads(line) for line in CHAIN]
    fuzz.saved_well(journal([*CHAIN, learn(0)]), accepted)
    for text, told in ((journal(CHAIN, 1), "a file is saved as "), (journal(CHAIN)[:-1], "a file is saved as "),
                       (journal(CHAIN, end=2), "a file is saved as "),
                       (journal(CHAIN[:2]), "other commands are saved than were accepted"),
                       (journal([CHAIN[1], CHAIN[0], CHAIN[2]]), "other commands are saved"),
                       (journal([learn(0), *CHAIN]), "line 2 of what is saved is at fault")):
        finds(told, fuzz.saved_well, text, accepted)


def test_how_a_journal_is_loaded(tmp_path):
    bad, at = b"registry-journal 2\nx\nend 1\n", b"registryd: journal line %d\n"
    for text, end, told in ((journal(CHAIN), ended(), None), (bad, ended(b"", 1, at % 2), None),
                            (bad, ended(), "a journal is loaded with 0 b'', wanted (1, "),
                            (bad, ended(b"", 1, at % 3), "wanted (1, b'registryd: journal line 2"),
                            (journal(CHAIN), ended(b"", 1, at % 2), "wanted (0, b'')")):
        with running(end):
            if told:
                finds(told, fuzz.loaded, None, tmp_path / "journal", text)
            else:
                fuzz.loaded(None, tmp_path / "journal", text)


def test_damaged_journals_are_at_fault_and_others_not():
    text = journal([*CHAIN, learn(0)])
    made = [fuzz.damaged(Maker(random.Random(seed)), text) for seed in range(300)]
    faults = Counter(fuzz.first_fault(it, fuzz.Requirements()) for it in made)
    assert faults[None] > 10 and faults.total() - faults[None] > 150 and {1, 2, 3, 4, 5, 6} <= set(faults)


@pytest.mark.parametrize("at, told", [(1, None), (2, "the same lines are answered otherwise the second time"),
                                      (3, "what was saved is loaded otherwise")])
def test_a_session_is_sent_twice_and_what_it_leaves_is_loaded(at, told, monkeypatch):
    """Over a program in this process, which takes commands and lists, and lies at one call of it."""
    calls = []

    def run(words, given=b"", **_):
        calls.append(words)
        registry, replies, accepted = Registry(), [], []
        if "--load" in words:
            text = Path(words[-1]).read_bytes()
            if fault := fuzz.first_fault(text, fuzz.Requirements()):
                return ended(b"", 1, b"registryd: journal line %d\n" % fault)
            for line in text.split(b"\n")[1:-2]:
                registry.apply(json.loads(line))
        for line in given.decode().split("\n")[:-1]:
            replies.append(registry.answer(json.loads(line), fuzz.Requirements()))
            accepted += [line] if '"ok"' in replies[-1] else []
        if "--save" in words:
            Path(words[-1]).write_bytes(journal(accepted))
        if told and len(calls) == at:
            replies[-1] += " "
        return ended("".join(f"{reply}\n" for reply in replies).encode())
    lines = [A1.encode(), yank("a", "1.0.0").encode(), A1.encode(), LIST.encode()]
    monkeypatch.setattr(program, "run", run)
    monkeypatch.setattr(fuzz, "first_lines", lambda maker, count: ([], lines))
    assert fuzz.tried(7, 4) == ((0, f"seed 7: {told}") if told else (4, None))


# ---- what `registry check` tells, and newest selections


def test_numbers_that_a_line_has_for_what_it_says(monkeypatch):
    # of 7 to 18 and from 20 on the line says nothing by itself
    replies = [LIST, *(f'{{"error":{number},"name":"x","revision":0}}' for number in range(1, 24))]
    monkeypatch.setattr(fuzz, "run", lambda lines: replies)
    assert fuzz_check.answered([b"x"] * 24) == [0, 1, 2, 3, 4, 5, 6, *[0] * 12, 19, *[0] * 4]


def test_lines_of_which_another_number_is_told(monkeypatch):
    bad = publish("A", "1.0.0").encode()
    assert fuzz_check.edited(bad) == bad.replace(b"A", b"a")
    monkeypatch.setattr(fuzz_check, "made", lambda seed, count: [LIST.encode(), bad, b"x"])
    for answered, found in (([0, 1, 19], []), ([1, 0, 19], [f"seed 3: {LIST.encode()}: told 0, answered 1",
                                                            f"seed 3: {bad}: told 1, answered 0"])):
        monkeypatch.setattr(fuzz_check, "answered", lambda lines: answered)
        assert fuzz_check.tried(3, 4) == (Counter(answered), found)


def test_selections_that_are_not_the_newest():
    def serve(lines, workers):
        """Answers each request by the plain search, and of the second case none by several workers."""
        made = newest_many.Published()
        for line in lines:
            if line["op"] != "resolve":
                made.apply(line)
                yield "{}"
            elif workers > 1 and all(name.endswith("-1") for name, _ in line["needs"]):
                yield '{"refused":true}'
            else:
                found = made.newest(line["needs"], line.get("lock", []))
                yield json.dumps({"refused": True} if found is None else {"selected": found})
    wanted = newest_many.wanted(*newest_many.case_of(5)[::2])
    told = newest_many.faults([4, 5], lambda *asked: [*serve(*asked)])
    assert wanted and told == [f"seed 5, by four workers: None is answered, and {wanted} is the newest"]


# ---- interrupted, killed, racing

ASKED, ONE, TWO = Resolve({"known-1": "*"}), new(7, 0), new(7, 1)
FITS = [(ASKED, Selection(8, {"known-1": "1.1.0"})), (KNOWN[2], AlreadyPublished(8)), (MISSING, NoSelection(8)),
        (ONE, Accepted(9)), (TWO, Accepted(11))]


def test_replies_to_calls_that_were_interrupted():
    judged = interrupt_sessions.judged
    assert judged([FITS[:2], FITS[2:], [(ASKED, Ended(f"{BROKEN_OFF}: said"))]]) == {9: ONE, 11: TWO}
    for request, right in FITS[:4]:
        for reply in [*(reply for _, reply in FITS[:4]), Selection(8, {"known-2": "1.2.0"})]:
            if reply is not right:
                finds(f"{request} is answered {reply!r}", judged, [[(request, reply)]])
    for told, why in (([*FITS, (MISSING, NoSelection(10))], "the revision falls: "),
                      ([(ONE, Accepted(9)), (TWO, Accepted(9))], "revision 9 is told twice"),
                      ([(ASKED, Ended("the program ended by signal 9"))], "the session ended otherwise: the program ")):
        finds(why, judged, [told])
    commands = [journal_line(it.line()).encode() for it in (ONE, TWO)]
    interrupt_sessions.demand_kept({1: ONE, 2: TWO}, commands)
    for accepted in ({1: TWO}, {3: ONE}):
        finds("was accepted at revision", interrupt_sessions.demand_kept, accepted, commands)


def judged(path, commands, lines, read, before=(), text=None):
    path.write_bytes(text or journal(commands)[:-6])
    before, asked = [journal_line(line).encode() for line in before], [line.encode() for line in lines]
    return kill_sessions.judged(Reader(), path, before, asked, read).commands


def test_what_a_killed_session_may_leave(tmp_path):
    path = tmp_path / "journal"
    for commands, read in (([A1], OK1), ([A1, B1], OK1), ([], b""), ([A1, B1], OK1 + OK2), ([A1], OK1[:5])):
        assert len(judged(path, commands, [A1, B1], read)) == len(commands)
    assert len(judged(path, [A1, B1], [B1], OK2, before=[A1])) == 2
    # a part of a reply that tells of no command, though one is accepted behind it
    assert judged(path, [], [LIST, A1], EMPTY[:5]) == []


def test_what_it_may_not(tmp_path):
    for commands, read, told in (([A1], OK1 + OK2, "2 commands were told, and the file has 1: "),
                                 ([], OK1[:5], "1 commands were told, and the file has 0: "),
                                 ([B1], OK1, "1 commands were told, and the file has 1: "),
                                 ([B1], b"", "the file has what was not asked for: "),
                                 ([A1], OK1 + OK2 + OK1, "there are more replies than lines"), ([A1], OK2, "line 1: "),
                                 ([A1], b"no", "a part of a reply is b'no'")):
        finds(told, judged, tmp_path / "journal", commands, [A1, B1], read)
    text = b"registry-journal 2\nx\n"
    finds("the file is no journal: line 2 is", judged, tmp_path / "journal", [], [A1], b"", (), text)


# Of two seats: the first publishes a and lists, the second publishes b and yanks it.
SEATS = [[A1.encode(), LIST.encode()], [B1.encode(), yank("b", "1.0.0").encode()]]
OF_A, OF_B, OF_YANK = (b'{"ok":true,"place":%d,"revision":%d,"seat":%d}\n' % it
                       for it in ((1, 1, 1), (2, 2, 2), (3, 3, 2)))
LISTED = b'{"packages":[["a",[["1.0.0",false]]],["b",[["1.0.0",false]]]],"place":2,"revision":2,"seat":1}\n'


def seats_judged(commands, read, before=()):
    entries, stood = ([journal_line(line).encode() for line in of] for of in (commands, before))
    kill_seats.judged(entries, stood, SEATS, read)


@pytest.mark.parametrize("commands, read", [
    ([], b""), ([A1], b""), ([A1, B1], b""), ([B1, A1], b""), ([A1], OF_A), ([A1], OF_A[:-1]), ([A1, B1], OF_B + OF_A),
    ([A1, B1], OF_A + LISTED), ([A1, B1, yank("b", "1.0.0")], OF_B), ([A1, B1, yank("b", "1.0.0")], OF_B + OF_YANK)])
def test_what_killed_seats_may_leave(commands, read):
    seats_judged(commands, read)


@pytest.mark.parametrize("commands, read, told", [
    ([A1], OF_A + OF_B, "at place 2, and the file has 1 entries"), ([A1], LISTED, "and the file has 1 entries"),
    ([B1], OF_A, "at place 1 stands"), ([A1, B1], OF_A.replace(b'"revision":1', b'"revision":2'), "answered"),
    ([A1, yank("a", "1.0.0")], OF_A, "nobody was at"), ([A1, B1, yank("b", "1.0.0")], OF_A, "nobody was at"),
    ([A1, B1], OF_A + LISTED.replace(b'["b",[["1.0.0",false]]]', b'["b",[["1.0.0",true]]]'), "answered"),
    ([A1], OF_A * 3, "there are more replies than lines"), ([A1], b"no\n", "a reply tells no seat: no"),
    ([A1], OF_A.replace(b'"seat":1', b'"seat":3'), "there are more replies than lines")])
def test_what_they_may_not(commands, read, told):
    with pytest.raises((Find, RaceFault), match=re.escape(told)):
        seats_judged(commands, read)


def test_what_stood_there_before_killed_seats():
    old = publish("old", "1.0.0")
    seats_judged([old, A1], OF_A.replace(b"1,", b"2,"), [old])
    for commands in ([A1, old], [A1], []):
        finds("what stood in the file before does not any more", seats_judged, commands, b"", [old])


WELL = [ended(b"x"), ended(b"x")]
GOOD = (journal([A1])[:-6], True, OK1, (-9, b""))


@pytest.mark.parametrize("session, ends, told", [
    (GOOD, WELL, None), ((None, True, b"", (0, b"")), WELL, "session 0 ends with 0 b''"),
    ((journal([]), True, b"", (-9, b"no")), WELL, "session 0 ends with -9 b'no'"),
    (GOOD, [ended(b"x", 1)], "the last session ends with 1"),
    (GOOD, [ended(b"x"), ended(b"y")], "what it left is loaded with 0"),
    ((None, True, OK1, (-9, b"")), WELL, "replies went out, and there is no file")])
def test_the_sessions_of_one_file(session, ends, told, tmp_path, monkeypatch):
    text, *came = session

    def begin(words, bursts):
        if text is not None:
            (tmp_path / "kept.journal").write_bytes(text)
        return SimpleNamespace(run=lambda rng: came)
    monkeypatch.setattr(kill_sessions, "Session", begin)
    monkeypatch.setattr(kill_sessions, "bursts_of", lambda rng, is_first: [[A1.encode()], [B1.encode()]])
    with running(*ends):
        if told:
            finds(told, kill_sessions.killed, 1, 1, tmp_path)
        else:
            assert kill_sessions.killed(1, 1, tmp_path) == (1, 1, len(text))


def test_a_session_that_does_not_answer(tmp_path, monkeypatch):
    script = tmp_path / "program"
    script.write_text("#!/bin/sh\nread -r line\necho reply\nexec sleep 100\n", encoding="ascii")
    script.chmod(0o755)
    monkeypatch.setattr(program, "PROGRAM", os.fspath(script))
    monkeypatch.setattr(kill_sessions, "LIMIT", 0.3)
    rng = SimpleNamespace(choice=lambda kinds: "end", randrange=lambda count: 0, random=lambda: 0)
    finds("replies to 2 lines in 0.3 seconds", kill_sessions.Session([], [[b"a", b"b"]]).run, rng)


def test_how_a_race_ends(monkeypatch):
    monkeypatch.setattr(race_many, "files_of", lambda rng: [[A1.encode()], [LIST.encode()]])
    replies = ['{"ok":true,"place":1,"revision":1,"seat":1}', '{"packages":[],"place":0,"revision":0,"seat":2}']
    text = "\n".join([*replies, "registry-journal 2", journal_line(A1), "end 1", ""]).encode()
    for came, told in (((0, text, b""), (2, 1, None)), ((1, b"", b"no"), (0, 0, "seed 3: a race ends with 1 b'no'")),
                       ((0, text, b"no"), (0, 0, "seed 3: a race ends with 0 b'no'")),
                       ((0, text[:-1], b""), (0, 0, "seed 3: the last line is not ended"))):
        monkeypatch.setattr(race_many, "run", lambda *_: came)
        assert race_many.tried(3, "pausing") == told
    monkeypatch.setattr(race_many, "run", mock.Mock(side_effect=subprocess.TimeoutExpired("race", 100)))
    assert re.search("seed 3: .*timed out", race_many.tried(3, "pausing")[2])
