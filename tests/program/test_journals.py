"""Journals that a session begins with and leaves: `--load` and `--save`."""
import json
import os
import random
import tempfile
import unittest
from pathlib import Path

from registry_cli.limits import MOST_LEARNT, MOST_LINE_BYTES, MOST_STORED, MOST_VERSIONS
from tests.program.test_reuse import lines_of, session_of
from tests.support.plain_journal import Unknown, first_fault
from tests.support.program import LIST, SERVE, journal_line, publish, resolve, run, serve, unyank, yank
from tests.support.reference import Registry
from tests.support.teaching import TEACHING

SEEDS = 20
# a needs b, and b needs c, of which there is one version
CHAIN = [publish("a", "1.0.0", ["b ^1.0.0"]), publish("b", "1.0.0", ["c ^1.0.0"]), publish("c", "1.0.0")]
# Both versions of foo are in the way of each other, until the full search finds that the first has to do.
CONFLICT = [publish("foo", "2.0.0", ["bar ^1.0.0"]), publish("bar", "1.0.0", ["foo ^1.0.0"]), publish("foo", "1.0.0")]
REQUIREMENTS = ["^1.0.0", "*", ">=1.0.0, <2.0.0"]


def premise(name, target, within):
    return {"fact": "premise", "name": name, "need": "^1.0.0", "target": target, "versions": [0],
            "within": list(within)}


def learn(*within):
    """The line of what follows from the chain: a version of a wants one of c that is among these."""
    line = {"causes": [premise("a", "b", [0]), premise("b", "c", within)],
            "conclusion": [["a", True, [0]], ["c", False, list(within)]], "pivot": "b"}
    return json.dumps({"derivation": [line], "op": "learn"}, sort_keys=True, separators=(",", ":"))


def journal(lines, form=2, end=None):
    """The text of a journal's file with these lines."""
    lines = [line if line.startswith('{"derivation"') else journal_line(line) for line in lines]
    return "".join(f"{line}\n" for line in [f"registry-journal {form}", *lines,
                                            f"end {len(lines) if end is None else end}"]).encode()


def speaking_of(name, learnt):
    """Those of these learn lines that speak of versions of a package."""
    return [line for line in learnt if f'"name":"{name}"' in line]


# How many packages the versions of p need beside z, in which each of these packages is in the way of one version. That
# p can't be had rests on two facts of each, what p and what that version of z need of it, and on p's need for z; with
# the need of a request these are two facts for each and two more. Each step joins two of what stands there, so it takes
# one step less than there are facts, at the least.
ROWS = (TEACHING - 1) // 2
FEW = 64  # versions of p, of which a line tells that can be written
CHAIN_LEARNT = journal([*CHAIN, learn(0)])


def between_batches(lines, cut):
    """The first place from this one on that is not between two lines that ask to resolve, which are answered
    together."""
    while 0 < cut < len(lines) and all(json.loads(line)["op"] == "resolve" for line in lines[cut - 1:cut + 1]):
        cut += 1
    return cut


class Sessions(unittest.TestCase):
    def setUp(self):
        self.folder = self.enterContext(tempfile.TemporaryDirectory())
        self.loaded, self.saved, self.kept = (os.path.join(self.folder, it) for it in ("loaded", "saved", "kept"))

    def write(self, path, text):
        Path(path).write_bytes(text)

    def read(self, path):
        return Path(path).read_bytes()

    def words(self, load, save):
        return [*SERVE, *(["--load", load] if load else []), *(["--save", save] if save else [])]

    def session(self, lines, load=None, save=None):
        """The replies of a session that ends well."""
        done = run(self.words(load, save), "".join(line + "\n" for line in lines).encode())
        self.assertEqual((done.returncode, done.stderr), (0, b""))
        return done.stdout.decode().split("\n")[:-1]

    def load(self, text, lines=(), save=None):
        """The replies of a session that begins with a journal of this text."""
        self.write(self.loaded, text)
        return self.session(lines, self.loaded, save)

    def fault(self, text, line, **more):
        """A session with a journal of this text ends at once, at a line of it; nothing is written, and nothing
        saved."""
        self.write(self.loaded, text)
        self.write(self.saved, b"as it was")
        done = run(self.words(self.loaded, self.saved), **more)
        self.assertEqual((done.returncode, done.stderr), (1, b"registryd: journal line %d\n" % line), text[-300:])
        self.assertIn(done.stdout, (b"", None))
        self.assertEqual(self.read(self.saved), b"as it was")

    def beside(self):
        """The files of the folder but the one that is loaded."""
        return sorted(set(os.listdir(self.folder)) - {"loaded"})


class Saving(Sessions):
    def test_a_failed_save_leaves_the_file_as_it_was(self):
        lines, whole = (CHAIN[0] + "\n" + LIST + "\n").encode(), journal(CHAIN[:1])
        for most in range(len(whole) + 1):
            self.write(self.saved, b"as it was")
            done = run(self.words(None, self.saved), lines, most=most)
            fails = most < len(whole)
            self.assertEqual((done.returncode, done.stderr), (1, b"registryd: output failed\n") if fails else (0, b""),
                             most)
            # all replies are written before
            self.assertEqual(done.stdout, b'{"ok":true,"revision":1}\n'
                                          b'{"packages":[["a",[["1.0.0",false]]]],"revision":1}\n')
            self.assertEqual(self.read(self.saved), b"as it was" if fails else whole)
            self.assertEqual(self.beside(), ["saved"])


class Loading(Sessions):
    def test_a_session_in_two_parts(self):
        """What is answered behind a journal that is loaded is what is answered in one session."""
        learnt = 0
        for seed in range(SEEDS):
            lines = lines_of(session_of(seed).asked(0))
            cut = between_batches(lines, random.Random(seed).randrange(len(lines)))
            whole = serve(lines)
            self.assertEqual(self.session(lines[:cut], save=self.loaded), whole[:cut], seed)
            self.assertEqual(self.session(lines[cut:], self.loaded, self.saved), whole[cut:], seed)
            text = self.read(self.saved)
            self.session(lines, save=self.loaded)
            self.assertEqual(text, self.read(self.loaded), seed)
            learnt += text.count(b'\n{"derivation":')
        self.assertGreater(learnt, SEEDS)

    def test_what_a_race_prints_is_loaded(self):
        learnt = 0
        for seed in range(SEEDS):
            files = [lines_of(session_of(seed).asked(order)) for order in range(3)]
            paths = [os.path.join(self.folder, str(number)) for number in range(3)]
            for path, lines in zip(paths, files):
                self.write(path, "".join(line + "\n" for line in lines).encode())
            printed = run(["race", *paths]).stdout.splitlines(True)
            text = b"".join(printed[sum(map(len, files)):])
            self.load(text, save=self.saved)
            self.assertEqual(self.read(self.saved), text, seed)
            learnt += text.count(b'\n{"derivation":')
        self.assertGreater(learnt, SEEDS)

    def test_a_journal_at_fault(self):
        a = publish("a", "1.0.0")
        for form in (1, 2):
            text = journal([a], form)
            head, line, end = text.splitlines(True)
            for bad, at in ((head + line, 3), (head + line + b"end 2\n", 3), (text[:-1], 3), (text + b"x", 4),
                            (text + b"\n", 4), (head + line + line + end, 3), (head + line + b"end 01\n", 3), (b"", 1),
                            (head[:-1] + b"\r\n" + line + end, 1),
                            (head + b'{"op":"publish","name":"a","needs":[],"version":"1.0.0"}\n' + end, 2),
                            (head + b"\n" + line + end, 2), (head + line[:-1] + b" \n" + end, 2), (line + end, 1),
                            (head + head + line + end, 2)):
                self.fault(bad, at, given=LIST.encode())

    def test_a_journal_that_is_cut(self):
        for text in (journal([publish("a", "1.0.0")]), CHAIN_LEARNT):
            for most in range(len(text)):
                self.fault(text[:most], 1 + text[:most].count(b"\n"))
            self.load(text)

    def test_damages(self):
        """Journals that are changed in one place, against a plain reader."""
        rng, faults = random.Random(35), 0
        for _ in range(400):
            text = damaged(rng, random_journal(rng))
            try:
                at = first_fault(text, REQUIREMENTS)
            except Unknown:
                continue
            if at is None:
                self.load(text, save=self.saved)
                self.assertEqual(self.read(self.saved), b"registry-journal 2" + text[18:])
            else:
                self.fault(text, at)
                faults += 1
        self.assertGreater(faults, 200)


class Limits(Sessions):
    def test_what_is_learnt_in_a_session(self):
        """Each version of c ends all that was learnt before it, which is as much as a store may have."""
        lines, versions = list(CHAIN), 1
        for _ in range(MOST_LEARNT // MOST_STORED):
            lines += [learn(*range(versions), 100 + number) for number in range(MOST_STORED)]
            lines.append(publish("c", f"1.{versions}.0"))
            versions += 1
        self.load(journal(lines), save=self.saved)
        self.assertEqual(self.read(self.saved), journal(lines))
        # nothing more is learnt, though it would be
        request = resolve("foo >=1.0.0")
        self.session([*CONFLICT, request], self.saved, self.saved)
        self.assertEqual(self.read(self.saved), journal([*lines, *CONFLICT]))
        self.fault(journal([*lines, learn(*range(versions))]), len(lines) + 2)
        # one more than a store may have is at fault itself
        self.fault(journal([*CHAIN, *(learn(0, 100 + number) for number in range(MOST_STORED + 1))]), MOST_STORED + 5)

    def test_what_was_learnt_by_too_long_a_line_is_left_out(self):
        (few, _), (many, then) = (self.learnt_of(versions) for versions in (FEW, MOST_VERSIONS))
        # Each fact of p lists all versions of p, and so does what the step concludes that uses it. There are ROWS + 1
        # of these facts, and a step uses two at most. Where p has as many versions as it may have, these lists alone
        # are more than a line of a journal holds.
        short, long = (",".join(map(str, range(versions))) for versions in (FEW, MOST_VERSIONS))
        self.assertGreater((ROWS + 1) * 3 // 2 * len(long), MOST_LINE_BYTES)
        # Where it has few, three such lists for each step are less.
        self.assertLess(3 * TEACHING * len(short), MOST_LINE_BYTES // 2)
        # the line of p, and that of s, which rests on it
        line, _ = speaking_of("p", few)
        self.assertGreaterEqual(line.count(f"[{short}]"), (ROWS + 1) * 3 // 2)
        self.assertEqual(speaking_of("p", many), [])
        # what was learnt before it stays
        self.assertNotEqual(speaking_of("foo", many), [])
        self.assertEqual(speaking_of("foo", many), speaking_of("foo", few))
        # The session knows what it does not write, and the next one doesn't. What a version needs is looked at when it
        # is decided, and s has
        # two: so the first conflict ends the search only where it is known that p can't be had, which both need.
        self.assertEqual(then, '{"refused":true,"revision":%d}' % (len(CONFLICT) + ROWS * 3 + MOST_VERSIONS + 2))
        self.assertIn("BudgetSpent", *self.session([resolve("s *", budget=1)], self.saved))

    def learnt_of(self, versions):
        """The learn lines that a session leaves that first resolves foo, and in which no version of p can be had, since
        each needs z and all of some packages, of which each is in the way of one version of z; and what is answered
        then of s, whose versions need p, under a budget of one conflict."""
        lines = [line for number in range(ROWS) for line in (
            publish(f"c{number}", "1.0.0"), publish(f"c{number}", "2.0.0"),
            publish("z", f"1.{number}.0", [f"c{number} ^2"]))]
        lines += [publish("p", f"1.{number}.0", ["z *", *(f"c{row} ^1" for row in range(ROWS))])
                  for number in range(versions)]
        lines += [publish("s", "1.0.0", ["p *"]), publish("s", "2.0.0", ["p *"]), *CONFLICT]
        told = self.session([*lines, resolve("foo >=1.0.0"), resolve("p *"), LIST, resolve("s *", budget=1)],
                            save=self.saved)
        text = self.read(self.saved).decode().split("\n")
        learnt = [line for line in text if line.startswith('{"derivation"')]
        self.assertEqual((text[:len(lines) + 1], text[-2]), (["registry-journal 2", *map(journal_line, lines)],
                                                             f"end {len(lines) + len(learnt)}"))
        return learnt, told[-1]


def random_journal(rng):
    """The lines of a journal's file of some commands."""
    registry, lines = Registry(), []
    while len(lines) < rng.randrange(1, 8):
        name, version = rng.choice("abc"), f"1.{rng.randrange(3)}.0{rng.choice(['', '', '-rc.1', '+x'])}"
        others = rng.sample([other for other in "abcd" if other != name], rng.randrange(3))
        line = rng.choice([publish(name, version, [f"{other} {rng.choice(REQUIREMENTS)}" for other in others]),
                           yank(name, version), unyank(name, version)])
        if not registry.refusal(json.loads(line), REQUIREMENTS):
            registry.apply(json.loads(line))
            lines.append(line)
    return journal(lines, rng.choice([1, 2])).splitlines(True)


def damaged(rng, lines):
    """A text that differs from these lines in one place."""
    lines, at = list(lines), rng.randrange(len(lines))
    kind = rng.randrange(6)
    if kind == 0:
        del lines[at]
    elif kind == 1:
        lines.insert(rng.randrange(len(lines) + 1), lines[at])
    elif kind == 2:
        other = rng.randrange(len(lines))
        lines[at], lines[other] = lines[other], lines[at]
    elif kind == 3:
        line = lines[at]
        byte = rng.randrange(len(line))
        lines[at] = line[:byte] + rng.choice([b"", b" ", b"\n", b"0", b"1", b"a", b'"',
                                              b"\\u0061"]) + line[byte + rng.randrange(2):]
    elif kind == 4:
        lines[-1] = b"end %d\n" % rng.randrange(9)
    else:
        lines[at] = lines[at].replace(b"1.", b"2.", 1)
    return b"".join(lines)
