"""Lines that ask to resolve and come together are answered together by several threads, and as they are one by one."""
import fcntl
import time
import unittest

from tests.program.test_broken_streams import waiting
from tests.support.program import LIST, PAGE, check, end, publish, read_lines, resolve, run, talking, unyank, yank
from tests.support.tables import tables_under

WORKERS = ("1", "2", "7", "64")

# Packages in a chain, the last of which has two versions; the older one of each other package asks for the newer of the
# next.
CHAIN = [publish(f"p{i}", f"1.{minor}.0", [f"p{i + 1} ^1.{1 - minor}"]) for i in range(9)
         for minor in (0, 1)] + [publish("p9", f"1.{minor}.0") for minor in (0, 1)]


def served(workers, lines):
    """The reply lines to these lines."""
    done = run(["serve", "--workers", workers], "".join(line + "\n" for line in lines).encode())
    assert (done.returncode, done.stderr) == (0, b""), done
    return done.stdout.decode().splitlines()


def asked_one_by_one(workers, lines):
    """The reply lines to these lines, each of which is sent when the line before it is answered."""
    with talking(["serve", "--workers", workers]) as client:
        replies = []
        for line in lines:
            client.stdin.write(line.encode() + b"\n")
            replies.append(read_lines(client, 1).decode().removesuffix("\n"))
        assert end(client) == (b"", 0)
    return replies


# Packages none of which can be chosen in its higher version, as conflicts show, by 256 lines each: so much is learnt of
# a request, as much as may be learnt of one.
TOPS, ROW = 4, 255
CLASHING = [publish("x", "1.0.0"), publish("x", "2.0.0"),
            *(publish(f"p{i}", "1.0.0", [f"p{i + 1} *"]) for i in range(1, ROW)), publish(f"p{ROW}", "1.0.0", ["x ^2"]),
            *(publish(f"t{i}", *version) for i in range(TOPS) for version in (["0.9.0"], ["1.0.0", ["x ^1", "p1 *"]]))]


def busy(client):
    """How many nanoseconds of a processor a program took so far."""
    with open(f"/proc/{client.pid}/schedstat", encoding="ascii") as told:
        return int(told.read().split()[0])


def said_to(client, lines):
    """The replies to lines that are sent in one piece."""
    client.stdin.write("".join(line + "\n" for line in lines).encode())
    return read_lines(client, len(lines)).decode().splitlines()


def busy_behind(client, line):
    """How long a program is busy once its reply to a line is on its way: it is put behind a listing for which the pipe
    has no room, and so it waits with both until they are read. A request comes behind it: one that waits alone is
    searched for once what is before it was written."""
    client.stdin.write(f"{LIST}\n{line}\n{resolve()}\n".encode())
    while waiting(client.stdout) < PAGE:
        time.sleep(0.001)
    time.sleep(0.01)
    before, replies = busy(client), read_lines(client, 3)
    # a line more is answered once the program is through
    said_to(client, [""])
    return busy(client) - before, replies.decode().splitlines()[1]


# So many pairs of packages that are in each other's way: the higher version of each foo is ruled out by one conflict.
PAIRS = 12
PAIRED = [line for number in range(PAIRS) for line in (
    publish(f"foo{number}", "2.0.0", [f"bar{number} ^1.0.0"]),
    publish(f"bar{number}", "1.0.0", [f"foo{number} ^1.0.0"]), publish(f"foo{number}", "1.0.0"))]


class Batches(unittest.TestCase):
    def test_budgets_around_the_conflicts_that_there_are(self):
        # of requests that are answered together none is spared a conflict by another one
        asked = [(count, budget) for count in (2, 5, 9, PAIRS) for budget in range(max(count - 2, 0), count + 2)]
        lines = [resolve(*(f"foo{number} >=1.0.0" for number in range(count)), budget=budget) for count,
                 budget in asked]
        selected = ['"selected":[' + ",".join(sorted(f'["foo{number}","1.0.0"]' for number in range(count))) + "]}"
                    for count, _ in asked]
        for workers in WORKERS:
            replies = served(workers, [*PAIRED, *lines])[len(PAIRED):]
            for (count, budget), found, reply in zip(asked, selected, replies, strict=True):
                with self.subTest(workers=workers, count=count, budget=budget):
                    self.assertTrue(reply.endswith(found) if budget >= count else '"name":"BudgetSpent"' in reply,
                                    reply)

    def test_tables_by_any_number_of_workers(self):
        tables = tables_under("lines")
        for table in tables:
            first = run(["serve", "--workers", WORKERS[0]], table.requests()).stdout
            for workers in WORKERS[1:]:
                with self.subTest(table.place, workers=workers):
                    self.assertEqual(run(["serve", "--workers", workers], table.requests()).stdout, first)

    def test_lines_of_other_kinds_between(self):
        lines, wanted = [], []
        for i in range(40):
            lines += [resolve("q *"), resolve("q *"), publish("q", f"1.{i}.0"), '{"op":"resolve","nee',
                      resolve(f"q =1.{i}.0"), LIST]
            before = f'{{"revision":{i},"selected":[["q","1.{i - 1}.0"]]}}' if i else '{"refused":true,"revision":0}'
            listed = ",".join(f'["1.{k}.0",false]' for k in range(i + 1))
            wanted += [before, before, f'{{"ok":true,"revision":{i + 1}}}',
                       f'{{"error":19,"name":"BadLine","revision":{i + 1}}}',
                       f'{{"revision":{i + 1},"selected":[["q","1.{i}.0"]]}}',
                       f'{{"packages":[["q",[{listed}]]],"revision":{i + 1}}}']
        for workers in WORKERS:
            self.assertEqual(served(workers, lines), wanted)

    def test_who_asks_and_waits_is_answered(self):
        for workers in WORKERS:
            with talking(["serve", "--workers", workers]) as client:
                for many in (1, 2, 3):
                    client.stdin.write((resolve() + "\n").encode() * many)
                    self.assertEqual(read_lines(client, many), b'{"revision":0,"selected":[]}\n' * many)
                self.assertEqual(end(client), (b"", 0))

    def test_who_waits_after_each_line_of_any_kind(self):
        lines = [*CHAIN, LIST, resolve("p9 ^1"), resolve("p0 *", "p9 ^2", explain=True), resolve("p9 ^1", budget=0),
                 yank("p9", "1.1.0"), resolve("p9 ^1"), yank("p9", "1.1.0"), check("p9 *", derivation=[]),
                 '{"op":"resolve","nee', "", unyank("p9", "1.1.0"), resolve("p9 ^1", lock=["p9 1.0.0"]), LIST,
                 resolve()]
        whole = served(WORKERS[0], lines)
        self.assertEqual(len(whole), len(lines))
        for workers in (WORKERS[0], WORKERS[-1]):
            self.assertEqual(served(workers, lines), whole)
            self.assertEqual(asked_one_by_one(workers, lines), whole)

    def test_a_client_has_its_answer_before_that_is_learnt(self):
        line = resolve(*(f"t{i} *" for i in range(TOPS)))
        with talking() as client:
            fcntl.fcntl(client.stdout, fcntl.F_SETPIPE_SZ, PAGE)
            said_to(client, CLASHING)
            first, told = busy_behind(client, line)
            again, _ = busy_behind(client, line)
            self.assertEqual(end(client), (b"", 0))
        self.assertIn('["t0","0.9.0"]', told)
        # what the first request led to is not learnt again
        self.assertGreater(first, 4 * again)

    def test_the_last_line_may_lack_its_line_feed(self):
        for workers in WORKERS:
            done = run(["serve", "--workers", workers], (resolve() + "\n" + resolve()).encode())
            self.assertEqual(done.stdout, b'{"revision":0,"selected":[]}\n' * 2)
