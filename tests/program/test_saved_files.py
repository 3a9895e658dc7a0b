"""The file that `--save` names: its link, mode and owner, two sessions at once, and each call that fails or kills the
session."""
import fcntl
import os
import stat
import subprocess

from tests.program.test_journals import CHAIN, Sessions, journal
from tests.support.durable_sessions import Client, Watched
from tests.support.plain_disk import Disk
from tests.support.preloaded import BREAK_CALLS, WATCH_CALLS, Break, built
from tests.support.program import LIST, PROGRAM, SERVE, publish, run

OLD, NEW = journal([publish("old", "1.0.0")]), journal(CHAIN)
REPLIES = b"".join(b'{"ok":true,"revision":%d}\n' % number for number in (1, 2, 3))
GIVEN = "".join(line + "\n" for line in CHAIN).encode()
FAILED = b"registryd: output failed\n"
NOBODY = 65_534


class Saved(Sessions):
    @classmethod
    def setUpClass(cls):
        cls.breaking, cls.watching = built(cls, BREAK_CALLS), built(cls, WATCH_CALLS)

    def begin(self, is_there):
        """A folder in which the file stands, or does not."""
        for name in os.listdir(self.folder):
            os.unlink(os.path.join(self.folder, name))
        if is_there:
            self.write(self.saved, OLD)

    def left(self):
        return self.read(self.saved) if os.path.exists(self.saved) else None

    def save(self, path=None, **more):
        return run([*SERVE, "--save", path or self.saved], GIVEN, **more)

    def saves(self, path=None, **more):
        done = self.save(path, **more)
        self.assertEqual((done.returncode, done.stderr, done.stdout), (0, b"", REPLIES))


class Places(Saved):
    def test_the_target_of_a_link_is_replaced(self):
        os.mkdir(os.path.join(self.folder, "there"))
        target, link, second = (os.path.join(self.folder, name) for name in ("there/target", "link", "second"))
        os.symlink(os.path.join("there", "target"), link)
        os.symlink(link, second)
        for path in (second, link, second):
            self.saves(path)
            self.assertEqual((os.readlink(link), os.readlink(second)), (os.path.join("there", "target"), link))
            self.assertEqual(self.read(target), NEW)
            self.write(target, OLD)
        self.assertEqual((self.beside(), os.listdir(os.path.join(self.folder, "there"))),
                         (["link", "second", "there"], ["target"]))

    def test_what_a_link_leads_to_is_made(self):
        link, target = os.path.join(self.folder, "link"), os.path.join(self.folder, "none")
        os.symlink("none", link)
        self.saves(link)
        self.assertEqual((self.read(target), os.readlink(link)), (NEW, "none"))

    def test_mode_and_owner_stay(self):
        for mode in (0o600, 0o640, 0o664, 0o604, 0o444):
            self.begin(True)
            os.chmod(self.saved, mode)
            if os.getuid() == 0:
                os.chown(self.saved, NOBODY, NOBODY - 1)
            before = os.stat(self.saved)
            self.saves()
            after = os.stat(self.saved)
            self.assertEqual((after.st_mode, after.st_uid, after.st_gid),
                             (before.st_mode, before.st_uid, before.st_gid))
            self.assertNotEqual(after.st_ino, before.st_ino)
            self.assertEqual(self.left(), NEW)

    def test_a_new_file_has_the_mode_that_the_mask_leaves(self):
        self.addCleanup(os.umask, os.umask(0o027))
        self.saves()
        self.assertEqual(stat.S_IMODE(os.stat(self.saved).st_mode), 0o640)

    def test_standard_output(self):
        # a link as /dev/stdout is one: a program that put a file in its place would do that here alone
        link = os.path.join(self.folder, "stdout")
        os.symlink("/proc/self/fd/1", link)
        for path in (link, "/proc/self/fd/1"):
            done = self.save(path)
            self.assertEqual((done.returncode, done.stderr, done.stdout), (0, b"", REPLIES + NEW))
            for append in (False, True):
                self.write(self.saved, OLD)
                with open(self.saved, "ab" if append else "wb") as out:
                    done = self.save(path, stdout=out)
                self.assertEqual((done.returncode, done.stderr), (0, b""))
                self.assertEqual((self.left(), self.beside()),
                                 ((OLD if append else b"") + REPLIES + NEW, ["saved", "stdout"]))
        self.assertEqual(os.readlink(link), "/proc/self/fd/1")

    def test_other_files_that_are_written_themselves(self):
        reading, writing = os.pipe()
        with os.fdopen(reading, "rb") as pipe:
            self.saves(f"/proc/self/fd/{writing}", pass_fds=[writing])
            os.close(writing)
            self.assertEqual(pipe.read(), NEW)
        fifo = os.path.join(self.folder, "fifo")
        os.mkfifo(fifo)
        with subprocess.Popen(["cat", fifo], stdout=subprocess.PIPE) as reader:
            self.saves(fifo)
            self.assertEqual(reader.communicate(timeout=100)[0], NEW)
        self.assertEqual(self.beside(), ["fifo"])

    def test_a_standard_stream_that_is_closed_gets_no_file(self):
        kept, line = self.kept, publish("a", "1.0.0")
        self.begin(True)
        for closed, told in (("<&-", b"registryd: input failed\n"), (">&-", FAILED)):
            for option, file in (("--save", self.saved), ("--journal", kept)):
                done = subprocess.run(["sh", "-c", f'printf "%s\\n" \'{line}\' | {{ "$0" serve --workers 1 {option} '
                                       f'{file} {closed}; }}', PROGRAM], capture_output=True, timeout=60)
                self.assertEqual((done.returncode, done.stdout, done.stderr), (1, b"", told), (closed, option))
        # a command that was accepted is kept, though it could not be told
        self.assertEqual((self.left(), self.read(kept)), (OLD, journal([line]).removesuffix(b"end 1\n")))

    def test_it_is_told_before_the_first_line_that_no_file_can_be_made(self):
        client = Client([*SERVE, "--save", os.path.join(self.folder, "none", "file")])
        # not a line was sent, and its input has not ended
        self.assertFalse(client.read_until(1))
        self.assertEqual(client.leave(), (1, FAILED))
        os.symlink("loop", os.path.join(self.folder, "loop"))
        for path in (os.path.join(self.folder, "loop"), os.path.join(self.folder, "loop", "file")):
            done = self.save(path)
            self.assertEqual((done.returncode, done.stdout, done.stderr), (1, b"", FAILED))

    def test_what_stands_beside_stays(self):
        for name in ("saved.new", "saved.new1"):
            self.write(os.path.join(self.folder, name), b"another's")
        for _ in range(2):
            self.saves()
            self.assertEqual((self.left(), self.beside()), (NEW, ["saved", "saved.new", "saved.new1"]))
            self.assertEqual(self.read(os.path.join(self.folder, "saved.new")), b"another's")


class Several(Saved):
    def test_two_at_once(self):
        """Whatever the order of their steps, one of several that run side by side saves, the others are told that they
        don't, and the file is the whole journal of that one."""
        refused = 0
        for number in range(60):
            self.begin(number % 2)
            texts = [[publish(f"p{index}", f"1.{line}.0") for line in range(50)] for index in range(2 + number % 3)]
            clients = [Client([*SERVE, "--save", self.saved]) for _ in texts]
            for client, lines in zip(clients, texts):
                client.send(lines)
                client.read_until(len(lines))
            for client in clients:
                client.running.stdin.close()
            ended = [client.leave() for client in clients]
            self.assertTrue(all(it in ((0, b""), (1, FAILED)) for it in ended), ended)
            whole = [journal(lines) for lines, (status, _) in zip(texts, ended) if status == 0]
            self.assertEqual([self.left()], whole)
            self.assertEqual(self.beside(), ["saved"])
            refused += len(texts) - len(whole)
        self.assertGreater(refused, 10)

    def held(self):
        """A session that has answered its first line, and saves at its end."""
        client = Client([*SERVE, "--save", self.saved])
        client.send([LIST])
        self.assertTrue(client.read_until(1))
        return client

    def test_the_second_is_told_before_its_first_line(self):
        self.begin(True)
        first = self.held()
        for words, told in ((["--save", self.saved], FAILED), (["--load", self.saved, "--save", self.saved], FAILED),
                            (["--journal", self.saved],
                             f"registryd: journal {self.saved}: in use by another session\n".encode())):
            done = run([*SERVE, *words], GIVEN)
            self.assertEqual((done.returncode, done.stdout, done.stderr), (1, b"", told), words)
        first.send(CHAIN)
        self.assertEqual(first.leave(), (0, b""))
        self.assertEqual((self.left(), self.beside()), (NEW, ["saved"]))
        self.saves()

    def test_a_file_that_came_meanwhile_stays(self):
        for come, text in ((self.saves, NEW), (lambda: self.write(self.saved, b"another's"), b"another's")):
            self.begin(False)
            first = self.held()
            come()
            first.send([publish("a", "2.0.0")])
            self.assertEqual(first.leave(), (1, FAILED))
            self.assertEqual((self.left(), self.beside()), (text, ["saved"]))

    def test_nothing_stands_beside_it_while_the_session_runs(self):
        for is_there, names in ((True, ["saved"]), (False, [])):
            self.begin(is_there)
            client = self.held()
            self.assertEqual((self.beside(), self.left()), (names, OLD if is_there else None))
            client.kill()
            self.assertEqual((self.beside(), self.left()), (names, OLD if is_there else None))

    def test_what_is_loaded_may_be_held_by_another_program(self):
        self.write(self.loaded, OLD)
        with open(self.loaded, "rb") as file:
            fcntl.flock(file, fcntl.LOCK_EX)
            self.assertEqual(self.session([LIST], self.loaded),
                             ['{"packages":[["old",[["1.0.0",false]]]],"revision":1}'])


class Calls(Saved):
    LOOKS = ("statx",)  # by which it is asked what stands there

    def test_each_call_that_fails(self):
        failed = set()
        for is_there in (True, False):
            for call, error in (("open", "EACCES"), *((look, "EIO") for look in self.LOOKS), ("flock", "ENOLCK"),
                                ("write", "ENOSPC"), ("fsync", "EIO"), ("rename", "EXDEV"), ("link", "EIO"),
                                ("unlink", "EIO"), ("fchmod", "EPERM"), ("fchown", "EPERM"), ("close", "EIO")):
                for number in range(1, 30):
                    self.begin(is_there)
                    done, came = Break(call, number, error).run(self.breaking, [*SERVE, "--save", self.saved], GIVEN)
                    if not came:
                        break
                    at, left = (is_there, call, number), self.left()
                    self.assertTrue(REPLIES.startswith(done.stdout), at)
                    if done.returncode == 0:
                        self.assertEqual((done.stdout, done.stderr, left), (REPLIES, b"", NEW), at)
                    else:
                        failed.add((is_there, call))
                        self.assertEqual((done.returncode, done.stderr), (1, FAILED), at)
                        self.assertIn(left, (OLD if is_there else None, NEW), at)
                    if call != "unlink":
                        self.assertEqual(self.beside(), [] if left is None else ["saved"], at)
        # these alone tell nothing: a link is tried first, an owner may not be given away, and what is closed was synced
        self.assertEqual({call for _, call in failed}, {"open", *self.LOOKS, "flock", "write", "fsync", "rename",
                                                        "unlink", "fchmod"})

    def watched(self, is_there, kill=0, side=""):
        """How a session that saves ended, and its calls."""
        self.begin(is_there)
        return Watched(self.watching, [*SERVE, "--save", self.saved], kill, side).follow([CHAIN])

    def test_killed_at_each_call(self):
        for is_there in (True, False):
            _, _, calls = self.watched(is_there)
            for number, call in enumerate(calls, 1):
                for side in ("before", "behind", *(["amid"] if call.name == "write" else [])):
                    status, _, _ = self.watched(is_there, number, side)
                    at = (is_there, number, call.name, side)
                    self.assertEqual(status, -9, at)
                    self.assertIn(self.left(), (OLD if is_there else None, NEW), at)
                    # what it left beside is in nobody's way
                    self.saves()
                    self.assertEqual(self.left(), NEW, at)

    def crash_fault(self, calls, is_there):
        """What a crash may leave behind one of these calls that is not the whole file, and at the end not the new
        one."""
        disk, old = Disk(self.folder, {"saved": OLD} if is_there else {}), OLD if is_there else None
        for number, call in enumerate(calls, 1):
            disk.follow(call)
            left = set(disk.may_be_left("saved"))
            if not left <= {old, NEW}:
                return f"half of it behind call {number}, {call.name}"
        return None if left == {NEW} else "the old one at the end"

    def test_a_crash_at_each_moment(self):
        for is_there in (True, False):
            status, told, calls = self.watched(is_there)
            self.assertEqual((status, told), (0, b""))
            self.assertIsNone(self.crash_fault(calls, is_there))
            # without a sync of the file, or of its folder, the judge finds what a crash would leave
            syncs = [place for place, call in enumerate(calls) if call.name == "fsync"]
            self.assertEqual(len(syncs), 2)
            for place, fault in zip(syncs, ("half of it", "the old one")):
                self.assertRegex(self.crash_fault(calls[:place] + calls[place + 1:], is_there), fault)
