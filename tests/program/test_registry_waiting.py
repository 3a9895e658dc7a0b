"""For whom and how long a session of the command `registry` waits. A transcript has sessions that wait."""
import io
import os
from unittest import mock

from registry_cli import session, table, waiting
from registry_cli.failures import Failed
from tests.support.program import PATIENCE
from tests.support.registry_folder import Folder

LOCKS = """1: POSIX  ADVISORY  WRITE 11 {place} 0 EOF
2: FLOCK  ADVISORY  WRITE 12 00:01:1 0 EOF
2: -> FLOCK  ADVISORY  WRITE 13 {place} 0 EOF
3: FLOCK  ADVISORY  WRITE {pid} {place} 0 EOF
"""


class Holders(Folder):
    def test_how_long_it_waits_by_itself(self):
        self.assertTrue(table.WAIT.about.endswith(f"(else: {session.SECONDS})"))

    def held(self, pid, words, above=()):
        """Who is told to have the journal where the process of this number has these words, and what began it has
        those."""
        self.hold()
        found, texts = os.stat(self.journal), {}
        place = f"{os.major(found.st_dev):02x}:{os.minor(found.st_dev):02x}:{found.st_ino}"
        texts["/proc/locks"] = LOCKS.format(place=place, pid=pid)
        texts[f"/proc/{pid}/stat"] = f"{pid} (a) 9 1) S 77 1 1"
        for number, of in ((pid, words), (77, above)):
            texts[f"/proc/{number}/cmdline"] = "".join(it + "\0" for it in of)

        def opened(path, mode="r", **_):
            if path not in texts:
                raise FileNotFoundError(path)
            return io.BytesIO(texts[path].encode()) if "b" in mode else io.StringIO(texts[path])
        with mock.patch("builtins.open", opened):
            return waiting.holder(self.journal)

    def test_who_it_is(self):
        program = ["/opt/registryd", "serve", "--journal=j"]
        command = ["python3", "-S", "/opt/bin/registry", "--json", "serve", "--port", "7"]
        for words, above, told, is_service in (
                (program, ["bash"], 'process 9, "registryd serve --journal=j"', False),
                (program, command, 'process 77, "registry --json serve --port 7"', True),
                (program, ["/opt/registry", "shell"], 'process 77, "registry shell"', False),
                (program, ["/opt/registry", "serv"], 'process 77, "registry serv"', False),
                (["python3", "a\x1b[31m\u202eb"], [], 'process 9, "python3 a\\u001b[31m\\u202eb"', False),
                ([], [], "process 9", False)):
            found = self.held(9, words, above)
            self.assertEqual((str(found), found.is_service), (told, is_service))

    def test_where_it_is_not_told(self):
        self.assertIsNone(self.held(0, ["a"]))  # a process of another machine, or of another container
        self.assertIsNone(waiting.holder(self.path("none")))
        self.assertIsNone(waiting.holder(self.journal))
        with mock.patch("builtins.open", side_effect=PermissionError):
            self.assertIsNone(waiting.holder(self.journal))

    def test_the_time_counts_anew_for_each_session(self):
        """Only the time of waiting counts: what its own tries take, as on a busy machine, does not."""
        turn, slept = waiting.Turn(self.path("none"), 10), []
        turn.is_told = True
        with mock.patch.object(waiting, "time", mock.Mock(monotonic=lambda: 1e9, sleep=slept.append)):
            for seconds, pid, wanted in ((6, 7, 6), (6, 7, 4), (6, 7, None), (1, 8, 1), (8, 0, 8), (8, 8, 1),
                                         (8, 8, None), (8, 0, None), (8, 7, 8)):
                with mock.patch.object(waiting, "holding", lambda _, pid=pid: pid):
                    self.assertIs(turn.waits(seconds), wanted is not None, (seconds, pid))
                self.assertEqual(slept, [] if wanted is None else [wanted], (seconds, pid))
                slept.clear()

    def test_the_turn_is_given_back_for_a_try_where_it_may_be_in_the_way(self):
        self.hold()
        turn = waiting.Turn(self.journal, PATIENCE)
        self.addCleanup(turn.leave)
        for held, stands in ((True, True), (False, False), (False, True), (True, True)):
            with mock.patch.object(waiting, "holder", lambda _, held=held: waiting.Holder(9, ["a"]) if held else None):
                turn.again()
            self.assertEqual(turn.file is not None, stands)
        with mock.patch.object(waiting, "holder", lambda _: None), mock.patch.object(turn, "waits", lambda _: False):
            self.assertRaisesRegex(Failed, r"\A.* is in use by another session: try again once that has ended\Z",
                                   turn.again)
