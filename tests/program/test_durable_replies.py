"""What a session that keeps a journal answers, and when: as one without, and with no sync too many."""
import os

from tests.program.test_batches import CLASHING, TOPS
from tests.program.test_journals import CONFLICT, Sessions
from tests.support.durable_sessions import Watched
from tests.support.preloaded import WATCH_CALLS, built
from tests.support.program import LIST, publish, resolve, run, yank
from tests.support.tables import tables_under

TEACHING = resolve(*(f"t{number} *" for number in range(TOPS)))


class Replies(Sessions):
    TAUGHT = [0, 0], [1, 0]  # syncs that a request may take which taught something, and the same one again

    @classmethod
    def setUpClass(cls):
        cls.library = built(cls, WATCH_CALLS)

    def words(self, workers):
        return ["serve", "--workers", workers, "--journal", self.kept]

    def test_the_same_replies_and_the_same_file(self):
        for table in tables_under("lines"):
            for workers in ("1", "4"):
                with self.subTest(table.place, workers=workers):
                    saved = run(["serve", "--workers", workers, "--save", self.saved], table.requests())
                    kept = run(self.words(workers), table.requests())
                    self.assertEqual((kept.returncode, kept.stderr, kept.stdout), (0, b"", saved.stdout))
                    self.assertEqual(kept.stdout.decode().splitlines(), table.replies())
                    self.assertEqual(self.read(self.kept), self.read(self.saved))
                    os.unlink(self.kept)

    def steps(self, steps, workers="1"):
        """The calls of a session: for each step of its lines those between its read and the next one."""
        watched = Watched(self.library, self.words(workers))
        status, told, calls = watched.follow(steps)
        self.assertEqual((status, told), (0, b""))
        self.assertEqual(len(watched.client.replies()), sum(map(len, steps)))
        starts = [place for place, call in enumerate(calls) if call.name == "read" and call.number == 0]
        self.assertEqual(len(starts), len(steps) + 1)
        return [calls[start:end] for start, end in zip(starts, starts[1:])]

    def syncs(self, steps, workers="1"):
        return [sum(call.name in ("fsync", "fdatasync") for call in calls) for calls in self.steps(steps, workers)]

    def test_one_sync_for_each_publication_that_is_waited_for(self):
        for workers in ("1", "4"):
            steps = [[publish("a", f"1.{number}.0")] for number in range(50)]
            self.assertEqual(self.syncs(steps, workers), [1] * 50)
            steps = [[publish("a", "1.0.0")], [yank("a", "1.7.0")], [yank("a", "1.7.0")], [LIST], ["no line"],
                     [resolve("a *")], [resolve("b *", explain=True)], [resolve("a ^2")], [publish("b", "1.0.0")]]
            self.assertEqual(self.syncs(steps, workers), [0, 1, 0, 0, 0, 0, 0, 0, 1])
            os.unlink(self.kept)

    def test_one_sync_for_all_lines_at_hand(self):
        self.assertEqual(self.syncs([[publish("a", f"1.{number}.0") for number in range(300)], [LIST] * 300]), [1, 0])

    def test_at_most_one_sync_for_what_a_request_taught(self):
        for workers in ("1", "4"):
            request = resolve("foo >=1.0.0")
            first, *taught, published, listed = self.syncs([CONFLICT, [request], [request], [publish("a", "1.0.0")],
                                                            [LIST]], workers)
            self.assertEqual((first, published, listed), (1, 1, 0))
            self.assertIn(taught, self.TAUGHT)
            self.assertIn(b'\n{"derivation":', self.read(self.kept))
            os.unlink(self.kept)

    def test_a_reply_does_not_wait_for_what_it_taught(self):
        for workers in ("1", "4"):
            _, calls = self.steps([CLASHING, [TEACHING]], workers)
            written = [(call.number == 1, call.given) for call in calls if call.name == "write"]
            (is_reply, text), *more = written
            self.assertTrue(is_reply, "what was learnt is written before the reply")
            self.assertIn(b'"selected":[[', text)
            self.assertTrue(any(b'{"derivation":' in text for _, text in more))
            os.unlink(self.kept)
