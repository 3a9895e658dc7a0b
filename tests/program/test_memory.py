"""Each request for memory of a small session, and of small races, is refused in turn: a reply may then be 18, and
changes in no other way, and nothing is lost."""
import functools
import json
import os
import tempfile
import unittest
from pathlib import Path

from tests.program.test_explained import told
from tests.support import plain_race
from tests.support.plain_session import PlainSession
from tests.support.preloaded import REFUSE_MEMORY, built, each_refused
from tests.support.program import LIST, PROGRAM, SERVE, check, journal_line, publish, resolve, unyank, yank
from tests.support.refuter import Known

# A publication without a fault is read once more where one request for memory was refused at the first time, and one
# that is refused takes memory for nothing else.
READ_AGAIN = publish("a", "1.0.0-alpha.beta+y")


def premise(name, version, target, within, need="^1.0.0"):
    return {"fact": "premise", "name": name, "need": need, "target": target, "versions": [version], "within": within}


# Why neither version of b below can be had.
REFUTED = [
    {"causes": [premise("b", 0, "a", []), premise("b", 1, "d", [])], "conclusion": [["b", True, [0, 1]]], "pivot": "b"},
    {"causes": [{"line": 1}, {"fact": "need", "index": 0}], "conclusion": [["", True, [0]]], "pivot": "b"},
]
LINES = [
    publish("b", "1.0.0", ["a ^1.0.0", "c >=1.0.0, <2.0.0-rc.1"]), publish("a", "1.0.0-alpha.beta+x"), LIST, READ_AGAIN,
    yank("a", "1.0.0-alpha.beta"), yank("a", "1.0.0-alpha.beta"), LIST, unyank("a", "1.0.0-alpha.beta+z"),
    publish("b", "1.0.1", ["d ^1.0.0", "a *"]), resolve("a >=1.0.0-alpha", lock=["b 1.0.0"]), resolve("b ^1.0.0"),
    resolve("b ^1.0.0", budget=0), resolve("b ^1.0.0", explain=True), check("b ^1.0.0", derivation=REFUTED),
    check("a *", derivation=REFUTED), resolve("a >=1.0.0-alpha", budget=0), publish("e", "1.1.0", ["d ^1.0.0"]),
    publish("e", "1.0.0", ["a >=1.0.0-alpha"]), resolve("e *"),
    # what the first request of these led to serves the second, and is ended before the third
    publish("f", "2.0.0", ["g ^1.0.0"]), publish("g", "1.0.0", ["f ^1.0.0"]), publish("f", "1.0.0"),
    resolve("f *"), resolve("f *"),
    publish("g", "1.1.0"), resolve("f *"), publish("A", "1"), LIST,
]
# Each version of x wants another y than the request, and says it in words of its own.
TOGETHER = [publish("y", "1.0.0"), publish("y", "2.0.0"),
            *(publish("x", f"1.{number}.0", [f"y >=2.0.0, <3.{number}.0"]) for number in range(12)),
            *(resolve(f"x >=1.{number}.0", "y ^1.0.0") for number in range(4))]
# Commands between requests that are answered together, of two packages that are known by nothing else.
BETWEEN = [publish("a", "1.0.0"), yank("a", "1.0.0"), resolve("a ^1.0.0"), resolve("a ^1.0.0", lock=["a 1.0.0"]),
           yank("a", "1.0.0"), unyank("a", "1.0.0"), resolve("a ^1.0.0"), unyank("a", "1.0.0"), yank("a", "2.0.0"),
           publish("foo", "2.0.0", ["bar ^1.0.0"]), publish("bar", "1.0.0", ["foo ^1.0.0"]), resolve("foo >=2.0.0"),
           resolve("foo >=1.0.0"), publish("foo", "1.0.0"), resolve("foo >=1.0.0"), resolve("foo >=1.0.0", "a *"),
           yank("foo", "1.0.0"), resolve("foo >=1.0.0", budget=0)]
# Two files that ask for the same, in other orders.
RIVALS = [
    [publish("a", "1.0.0"), yank("a", "1.0.0"), publish("b", "1.0.0", ["a ^1.0.0"]), resolve("b *"), LIST,
     resolve("b *", "c *", explain=True)],
    [publish("b", "1.0.0"), publish("a", "1.0.0"), unyank("a", "1.0.0"), resolve("b *"), yank("a", "1.0.0"),
     check("b ^1.0.0", derivation=REFUTED)],
]
# No run makes so many requests.
MOST_REQUESTS = 5000
# How many runs in a row don't come to their request before that is taken as the end: of threads some runs make more.
LAST_RUNS = 10
NO_MEMORY = b"registryd: no memory\n"


class Short(PlainSession):
    """A session that is refused memory: each line may be answered 18, and changes nothing then."""

    def fault(self, line, reply):
        if reply == self.refused(18):
            return None
        return super().fault(line, reply) or ('"explanation"' in reply and self.in_other_words(line, reply))

    def in_other_words(self, line, reply):
        """What is wrong with the text of a derivation that follows: which one it is depends on what was learnt before,
        and what finds no memory is not learnt."""
        found = json.loads(reply)
        whole = {**found, "explanation": told(Known(self.accepted), json.loads(line), found["derivation"])}
        return None if reply == json.dumps(whole, separators=(",", ":"), ensure_ascii=False) else f"wanted {whole}"


@functools.cache  # most runs are answered alike
def missed(lines, replies):
    """At which places of a session's replies memory was missed; all others are as they may be."""
    plain = Short()
    for line, reply in zip(lines, replies):
        fault = plain.fault(line.encode(), reply)
        assert not fault, (line, reply, fault)
    return [place for place, reply in enumerate(replies) if '"error":18' in reply]


def batch_at(lines, place):
    """The places of the neighbouring resolve lines that this one is among."""
    asks = [json.loads(line)["op"] == "resolve" for line in lines]
    first = max((at + 1 for at in range(place) if not asks[at]), default=0)
    behind = next((at for at in range(place, len(lines)) if not asks[at]), len(lines))
    return list(range(first, behind))


def commands_in(saved):
    return [line for line in saved.decode().split("\n")[1:-2] if not line.startswith('{"derivation"')]


def commands_told(lines, replies):
    """The commands that were told as accepted, as a journal has them."""
    return [journal_line(line) for line, reply in zip(lines, replies) if reply.startswith('{"ok"')]


def text_of(lines):
    return "".join(f"{line}\n" for line in lines)


def each_until_none(library, command, lines):
    """Runs a command on these lines with each request refused in turn, until there are no more; yields what each run
    left, and its replies."""
    behind = number = 0
    for done in each_refused(library, command, text_of(lines).encode(), range(1, MOST_REQUESTS), LAST_RUNS):
        behind, number = 0 if done.came else behind + 1, done.number
        yield done, tuple(done.stdout.decode().split("\n")[:-1])
    assert behind == LAST_RUNS, f"no end of requests at {number}"


class Memory(unittest.TestCase):
    @classmethod
    def setUpClass(cls):
        cls.folder, cls.library = cls.enterClassContext(tempfile.TemporaryDirectory()), built(cls, REFUSE_MEMORY)

    def refuse_each(self, words, lines=()):
        """Runs the program with each request refused in turn; answers its number, what it left, and its replies."""
        for done, replies in each_until_none(self.library, [PROGRAM, *words], lines):
            if done.stderr == NO_MEMORY:
                # before the first line there is nothing to answer, and nothing is saved
                self.assertEqual((done.returncode, done.stdout, done.left("saved")), (1, b"", None), done.number)
            elif done.returncode:
                self.assertEqual((done.returncode, done.stderr, done.left("saved")),
                                 (1, b"registryd: output failed\n", None), done.number)
            else:
                self.assertEqual(done.stderr, b"", done.number)
            yield done.number, done, replies

    def refuse_each_of_a_session(self, words, lines):
        """Refuses each request of a session in turn. Answers how many runs missed it before the first line, how many at
        one line, at all of several lines that are answered together, and behind the last."""
        early = one = several = late = 0
        for number, done, replies in self.refuse_each(words, lines):
            if done.stderr == NO_MEMORY:
                early += 1
                continue
            self.assertEqual(len(replies), len(lines), number)
            places = missed(tuple(lines), replies)
            if len(places) > 1:
                self.assertEqual(places, batch_at(lines, places[0]), number)
            self.assertLessEqual(bool(places) + (done.returncode != 0), done.came, number)
            if done.left("saved") is not None:
                self.assertEqual(commands_in(done.left("saved")), commands_told(lines, replies), number)
            one, several, late = one + (len(places) == 1), several + (len(places) > 1), late + (done.returncode != 0)
        return early, one, several, late

    def test_each_request_of_a_session(self):
        early, one, *_ = self.refuse_each_of_a_session(SERVE, LINES)
        self.assertGreater(early, 2)
        self.assertGreater(one, 20)

    def test_each_request_of_lines_answered_together(self):
        """Requests that four threads answer, each with more conflicts than one thread meets alone. What the threads
        share is done without where there is no room for it, so that no more than one of them misses its answer."""
        early, one, several, _ = self.refuse_each_of_a_session(["serve", "--workers", "4"], TOGETHER)
        self.assertGreater(min(early, one), 0)
        self.assertEqual(several, 0)

    def test_each_request_of_commands_between_batches(self):
        """What is saved are the commands that were told as accepted, wherever memory was missed."""
        _, one, several, late = self.refuse_each_of_a_session(["serve", "--workers", "4", "--save", "saved"], BETWEEN)
        self.assertTrue(one + several > 100 and late > 2)

    def test_each_request_of_a_session_with_journals(self):
        """A session that begins with a journal and leaves one."""
        loaded, causes = os.path.join(self.folder, "loaded"), [premise("a", 0, "b", [0])] * 2
        learnt = {"causes": causes, "conclusion": [["a", True, [0]], ["b", False, [0]]], "pivot": "b"}
        lines = [journal_line(line) for line in (publish("a", "1.0.0", ["b ^1.0.0"]), publish("b", "1.0.0"),
                                                 json.dumps({"derivation": [learnt], "op": "learn"}))]
        asked = [LIST, publish("c", "1.0.0")]
        Path(loaded).write_text(text_of(["registry-journal 2", *lines, "end 3"]), encoding="ascii")
        replies = ['{"packages":[["a",[["1.0.0",false]]],["b",[["1.0.0",false]]]],"revision":2}',
                   '{"ok":true,"revision":3}']
        short, counts = '{"error":18,"name":"NoMemory","revision":2}', {"early": 0, "short": 0, "late": 0}
        for number, done, told_of in self.refuse_each([*SERVE, "--load", loaded, "--save", "saved"], asked):
            if done.stderr == NO_MEMORY:
                counts["early"] += 1
                continue
            self.assertTrue(all(reply in (whole, short) for reply, whole in zip(told_of, replies, strict=True)), number)
            self.assertLessEqual(told_of.count(short) + (done.returncode != 0), done.came, number)
            counts["short"] += told_of.count(short)
            counts["late"] += done.returncode != 0
            if not done.returncode:
                left = [*lines, *commands_told(asked, told_of)]
                self.assertEqual(done.left("saved").decode(),
                                 text_of(["registry-journal 2", *left, f"end {len(left)}"]), number)
        self.assertTrue(counts["early"] > 20 and min(counts.values()) > 2, counts)

    def refuse_each_of_a_race(self, *files):
        """Refuses each request of a race of these files in turn. Answers where the request of each run was missed: 0
        before the first line, 1 at a line, 2 behind the last; and the seats and lines that were answered 18."""
        asked, where, all_short = [[line.encode() for line in lines] for lines in files], [], []
        for number, done, replies in self.refuse_each(["race", *plain_race.written(self.folder, asked)]):
            told_of = plain_race.told_in(asked, list(replies)) if replies else []
            short = [(it.seat, it.line.decode()) for it in told_of if '"error":18' in it.reply]
            # one request is refused, so one line at most, or the end, shows it
            self.assertLessEqual(len(short) + (done.returncode != 0), done.came, number)
            if done.returncode == 0:
                plain_race.judge(asked, done.stdout.decode(), Short())
                where += [1] * len(short)
            else:
                # where the journal can't be printed, none of it is
                self.assertEqual(len(replies), len(told_of), number)
                plain_race.judge_replies(told_of, Short())
                where.append(0 if done.stderr == NO_MEMORY else 2)
            all_short += short
        counts = [where.count(it) for it in range(3)]
        self.assertGreater(min(counts), 2)
        return where, all_short

    def test_each_request_of_a_race_of_one_file(self):
        where, short = self.refuse_each_of_a_race(LINES)
        # one thread makes its requests in one order
        self.assertEqual(where, sorted(where))
        self.assertEqual({line for _, line in short}, set(LINES) - {READ_AGAIN})

    def test_each_request_of_a_race_of_two_files(self):
        # which seat makes a request varies, so each run is judged by the journal that it printed
        _, short = self.refuse_each_of_a_race(*RIVALS)
        self.assertEqual({seat for seat, _ in short}, {1, 2})
