"""Random sessions in which publications, yanks and locks follow requests that led to something that was learnt: each
reply against a plain search, and the same requests once more in another order. No reply may differ but by which lawful
selection or derivation it is, also where what was learnt no longer stands."""
import functools
import json
import os
import random
import tempfile
import unittest

from tests.program.test_check_derivation import said_of
from tests.support.plain_search import Published
from tests.support.program import LIST, run, serve

NAMES = ["a", "b", "c", "d"]
MINORS = 4
REQUIREMENTS = ["*", ">=1.1.0", ">=1.2.0", "<1.1.0", "<1.2.0"]
# A session begins with so many commands, has so many stages, and asks so many requests at each.
BEGUN, STAGES, ASKED = 8, 8, 10
SPENT = 22
SEEDS = 30


class Session:
    """Stages, each of some commands and then of the session's requests, with the selections that may be answered
    there."""

    def __init__(self, seed):
        self.rng, self.published = random.Random(seed), Published()
        self.requests = [self.request() for _ in range(ASKED)]
        self.stages = [self.stage(self.rng.choice([1, 1, 2]) if number else BEGUN) for number in range(STAGES)]

    def version(self):
        return f"1.{self.rng.randrange(MINORS)}.0"

    def needs(self, names, count):
        return [[name, self.rng.choice(REQUIREMENTS)] for name in self.rng.sample(names, count)]

    def request(self):
        made = {"op": "resolve", "needs": self.needs(NAMES, self.rng.choice([1, 1, 2]))}
        if self.rng.random() < 0.3:
            made["lock"] = [[name, self.version()] for name in self.rng.sample(NAMES, self.rng.choice([1, 2]))]
        if self.rng.random() < 0.5:
            made["explain"] = True
        return made

    def stage(self, count):
        """Some commands, and the requests after them, each with what may be answered and whether that is the preferred
        one."""
        made = [it for it in (self.command() for _ in range(count)) if it]
        return made, list(map(self.judged, self.requests))

    def judged(self, request):
        needs, lock = request["needs"], request.get("lock", [])
        lawful, preferred = self.published.selections(needs, lock), self.published.preferred_selection(needs, lock)
        is_preferred = preferred in lawful
        return request, [preferred] if is_preferred else lawful, is_preferred

    def command(self):
        """A command that is accepted, and is carried out, or none: mostly a publication, which may end what was
        learnt."""
        name, version = self.rng.choice(NAMES), self.version()
        held = {row[0]: row[2] for row in self.published.versions.get(name, [])}
        if version not in held:
            others = [other for other in NAMES if other != name]
            made = {"op": "publish", "name": name, "version": version,
                    "needs": self.needs(others, self.rng.choice([0, 1, 1, 2]))}
        elif self.rng.random() < 0.5:
            made = {"op": "unyank" if held[version] else "yank", "name": name, "version": version}
        else:
            return None
        self.published.apply(made)
        return made

    def asked(self, order):
        """All lines, the requests of each stage in an order of their own; beside each what may be answered, or none."""
        rng, lines = random.Random(order), []
        for made, asked in self.stages:
            lines += [(command, None, False) for command in made]
            lines += rng.sample(asked, len(asked)) if order else asked
        return lines


@functools.cache
def session_of(seed):
    return Session(seed)


def lines_of(asked):
    return [json.dumps(it) for it, _, _ in asked]


class Reuse(unittest.TestCase):
    def lawful(self, request, lawful, reply, told):
        """A command is accepted; a request is answered a lawful selection, or refused where there is none."""
        if lawful is None:
            self.assertIn("ok", reply, told)
        elif "selected" in reply:
            self.assertIn(reply["selected"], lawful, told)
        else:
            self.assertEqual((reply.get("refused"), lawful), (True, []), told)
            self.assertEqual("derivation" in reply, "explain" in request, told)

    def follow(self, asked, texts, told):
        """Checks the replies to these lines, and answers how many selections and how many refusals there are."""
        replies = list(map(json.loads, texts))
        self.assertEqual(len(replies), len(asked), told)
        for (request, lawful, _), reply in zip(asked, replies):
            self.lawful(request, lawful, reply, f"{told}: {request} answered {reply}")
        return sum("selected" in it for it in replies), sum("refused" in it for it in replies)

    def test_no_order_changes_what_is_answered(self):
        found = refused = derived = 0
        for seed in range(SEEDS):
            session = session_of(seed)
            for order in (0, 1, 2):
                asked, told = session.asked(order), f"seed {seed}, order {order}"
                texts = serve(lines_of(asked))
                counts = self.follow(asked, texts, told)
                found, refused = found + counts[0], refused + counts[1]
                # those derivations too that carry lines from the store
                status, printed = said_of([it for it, _, _ in asked], list(map(json.loads, texts)))
                self.assertEqual(status, 0, f"{told}: {printed}")
                derived += printed.count(" follows\n")
        self.assertGreater(min(found, refused, derived), 500)

    def test_a_file_of_a_race_is_answered_alike(self):
        for seed in range(SEEDS):
            asked, told = session_of(seed).asked(seed + 3), f"seed {seed}"
            (texts,), journal = raced([lines_of(asked)])
            self.follow(asked, texts, told)
            replies = list(map(json.loads, texts))
            places = [it["place"] for it in replies]
            self.assertEqual(places, sorted(places), told)
            self.assertEqual(journal, [it for it, lawful, _ in asked if lawful is None], told)
            status, printed = said_of([it for it, _, _ in asked], replies, journal)
            self.assertEqual(status, 0, f"{told}: {printed}")

    def test_files_of_a_race_serve_one_another(self):
        """Each file has some of a session's commands, and all of its requests. Each reply is judged at its revision of
        the journal that all files share."""
        for seed in range(SEEDS // 3):
            files = dealt(session_of(seed).asked(0), random.Random(seed))
            printed, journal = raced([[json.dumps(it) for it in asked] for asked in files])
            places = Places(journal)
            for asked, texts in zip(files, printed):
                told, replies = f"seed {seed}", list(map(json.loads, texts))
                for request, reply in zip(asked, replies):
                    if request["op"] == "resolve":
                        self.lawful(request, places.answers(request, reply["revision"]), reply,
                                    f"{told}: {request} answered {reply}")
                status, said = said_of(asked, replies, journal)
                self.assertEqual(status, 0, f"{told}: {said}")

    def test_what_one_request_led_to_serves_the_next(self):
        """Each request is asked under small budgets, then without one, and under these budgets again."""
        first = again = 0
        for seed in range(SEEDS):
            groups = [around(line) for line in session_of(seed).asked(0)]
            # a listing between them, since lines that are answered together spare each other nothing
            replies = iter(list(map(json.loads,
                                    serve([it for line in lines_of(sum(groups, [])) for it in (line, LIST)])[::2])))
            for group in groups:
                told = [next(replies) for _ in group]
                for (request, lawful, is_preferred), reply in zip(group, told):
                    text = f"seed {seed}: {request} answered {reply}"
                    if is_spent(reply):
                        self.assertTrue("budget" in request and not is_preferred, text)
                    else:
                        self.lawful(request, lawful, reply, text)
                first += sum(map(is_spent, told[:len(BUDGETS)]))
                again += sum(map(is_spent, told[len(BUDGETS):]))
        self.assertLess(again, first)


BUDGETS = (0, 1, 2)


def around(line):
    """A request under small budgets, without one, and under these budgets again; a command once."""
    request, *more = line
    under = [({**request, "budget": budget}, *more) for budget in BUDGETS]
    return [*under, line, *under] if request["op"] == "resolve" else [line]


def is_spent(reply):
    return reply.get("error") == SPENT


FILES = 4


def dealt(asked, rng):
    """Lines for so many files: a command is in one of them, and a request in all."""
    files = [[] for _ in range(FILES)]
    for request, lawful, _ in asked:
        for lines in [rng.choice(files)] if lawful is None else files:
            lines.append(request)
    return files


class Places:
    """What may be answered at each revision of a journal."""

    def __init__(self, journal):
        self.journal, self.found = journal, {}

    def answers(self, request, revision):
        asked = json.dumps([request, revision])
        if asked not in self.found:
            published = Published()
            for command in self.journal[:revision]:
                published.apply(command)
            self.found[asked] = published.answers(request)
        return self.found[asked]


def raced(files):
    """The reply lines of a race of these files, and the commands of its journal."""
    with tempfile.TemporaryDirectory() as folder:
        paths = [os.path.join(folder, str(number)) for number in range(len(files))]
        for path, lines in zip(paths, files):
            with open(path, "w", encoding="utf-8") as out:
                out.write("".join(line + "\n" for line in lines))
        done = run(["race", *paths])
    assert (done.returncode, done.stderr) == (0, b""), done
    printed, replies = done.stdout.decode().splitlines(), []
    for lines in files:
        replies.append(printed[:len(lines)])
        printed = printed[len(lines):]
    return replies, [it for it in map(json.loads, printed[1:-1]) if it["op"] != "learn"]


class Sessions(unittest.TestCase):
    def test_what_a_publication_ends_is_asked_for(self):
        """Many requests are searched for selections none of which was lawful at the stage before, so that a store that
        keeps what no longer stands would show."""
        newly = 0
        for seed in range(SEEDS):
            before = {}
            for _, asked in session_of(seed).stages:
                for request, lawful, is_preferred in asked:
                    text = json.dumps(request)
                    was_before = any(it in before.get(text, lawful) for it in lawful)
                    newly += not is_preferred and any(lawful) and not was_before
                    before[text] = lawful
        self.assertGreater(newly, 30)
