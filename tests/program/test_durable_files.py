"""The file that a session keeps its journal in: cut, damaged, held by another session, changed by someone else, or none
at all."""
import os
import random
import shutil
import stat
import subprocess
import tempfile

from registry_cli.limits import MOST_COMMANDS, MOST_LINE_BYTES, MOST_VERSIONS
from tests.program.test_journals import CHAIN, Sessions, damaged, journal, learn, random_journal
from tests.support.durable_sessions import Client
from tests.support.plain_remnant import NoRemnant, remnant
from tests.support.program import LIST, PROGRAM, SERVE, journal_line, publish, run, unyank, yank

ACCEPTED = '{"ok":true,"revision":%d}\n'
LEARNT = journal([*CHAIN, learn(0), yank("c", "1.0.0"), unyank("c", "1.0.0")])
PLAIN = journal([*CHAIN, yank("c", "1.0.0"), unyank("c", "1.0.0")], 1)
CHANGED = "registryd: journal %s: changed by another program, and not gone on with\n"
UNSAVED = b"registryd: output failed\n"
NOBODY = 65_534
BEGUN = journal([publish("a", "1.0.0")]).removesuffix(b"end 1\n")


class Keeping(Sessions):
    """Sessions that keep a journal in one file."""

    def keep(self, lines=(), workers="1", path=None):
        """The replies of a session that ends well."""
        done = run(["serve", "--workers", workers, "--journal", path or self.kept],
                   "".join(line + "\n" for line in lines).encode())
        self.assertEqual((done.returncode, done.stderr), (0, b""))
        return done.stdout.decode()

    def refused(self, words, path=None, text=None, **more):
        """A session ends before the first line is read, and says of the file why; the file stays as it is."""
        path = path or self.kept
        folder = os.open(self.folder, os.O_RDONLY)
        try:
            # a read of this input would fail
            done = run(["serve", "--workers", "1", "--journal", path], stdin=folder, **more)
        finally:
            os.close(folder)
        self.assertEqual((done.returncode, done.stdout, done.stderr.decode()),
                         (1, b"", f"registryd: journal {path}: {words}\n"))
        if text is not None:
            self.assertEqual(self.read(path), text)


class Cuts(Keeping):
    def test_cut_behind_each_byte(self):
        for text in (LEARNT, PLAIN):
            for cut in range(len(text) + 1):
                self.write(self.kept, text[:cut])
                self.assertEqual(self.keep(), "")
                whole = [line for line in text[:cut].split(b"\n")[1:-1] if not line.startswith(b"end")]
                self.assertEqual(self.read(self.kept), b"".join(line + b"\n" for line in [b"registry-journal 2", *whole,
                                                                                          b"end %d" % len(whole)]), cut)
        self.assertEqual(self.beside(), ["kept"])

    def test_what_was_cut_off_is_gone_on_with(self):
        # a session whose every line is written anew behind a cut has the same file as one that was not cut
        for cut in range(0, len(LEARNT), 7):
            self.write(self.kept, LEARNT[:cut])
            done = [line for line in LEARNT[:cut].split(b"\n")[1:-1] if line.startswith(b'{"n')]
            commands = [*CHAIN, yank("c", "1.0.0"), unyank("c", "1.0.0")]
            self.assertEqual(self.keep(commands[len(done):]),
                             "".join(ACCEPTED % number for number in range(len(done) + 1, 6)))
            kept = remnant(self.read(self.kept))
            self.assertEqual(kept.commands, [journal_line(line).encode() for line in commands])

    def test_an_unfinished_line_may_say_anything(self):
        for rest in (b"\0" * 9, b'{"derivation"', b"en", b"end", b"end 5", b"x" * MOST_LINE_BYTES, b"\xff"):
            self.write(self.kept, PLAIN[:PLAIN.index(b"end")] + rest)
            self.assertEqual(self.keep([publish("z", "1.0.0")]), ACCEPTED % 6)
            self.assertEqual(self.read(self.kept),
                             journal([*CHAIN, yank("c", "1.0.0"), unyank("c", "1.0.0"), publish("z", "1.0.0")]))

    def test_a_file_that_is_no_journal_stays_as_it_is(self):
        lines = PLAIN.splitlines(True)
        for text, line in ((b"hello", 1), (b"hello\n", 1), (b"registry-journal 3\n", 1), (b"registry-journal 22", 1),
                           (b"\n", 1), (LEARNT + b"x", 9), (LEARNT + b"\n", 9), (b"".join(lines[:3]) + b"end 3\n", 4),
                           (b"".join(lines[:3]) + lines[2], 4), (lines[0] + b"\0\n", 2), (lines[0] + b"end 1\n", 2),
                           (b"".join(lines[:4]) + b"x" * (MOST_LINE_BYTES + 1), 5),
                           (b"".join(lines[:3]) + b"end 2\n" + lines[3], 5), (lines[0] + lines[1].replace(b",", b", "),
                                                                              2)):
            self.write(self.kept, text)
            self.refused(f"line {line} is not a journal's, and nothing was changed", text=text)

    def test_another_byte_in_its_midst(self):
        faults = 0
        for text in (LEARNT, PLAIN):
            for place in range(0, len(text), 3):
                changed = text[:place] + bytes([text[place] ^ 1]) + text[place + 1:]
                faults += self.is_refused(changed)
        self.assertGreater(faults, 250)

    def test_damages(self):
        rng = random.Random(49)
        faults = sum(self.is_refused(damaged(rng, random_journal(rng))[:rng.choice([None, None, -1, -9])])
                     for _ in range(300))
        self.assertGreater(faults, 100)
        self.assertLess(faults, 290)

    def is_refused(self, text):
        """Whether a text is refused, which it is at the line that the plain reader tells, or is gone on with as that
        reads it."""
        self.write(self.kept, text)
        try:
            found = remnant(text)
        except NoRemnant as fault:
            self.refused(f"line {fault.line} is not a journal's, and nothing was changed", text=text)
            return True
        self.keep()
        self.assertEqual(self.read(self.kept), found.text + b"end %d\n" % len(found.lines))
        return False

    def test_as_many_commands_as_a_session_may_have(self):
        lines = [publish(f"p{p}", f"1.{v}.0") for p in range(13) for v in range(MOST_VERSIONS)][:MOST_COMMANDS]
        self.write(self.kept, journal(lines[:-1])[:-3])
        full = f'{{"error":10,"name":"JournalFull","revision":{MOST_COMMANDS}}}\n'
        self.assertEqual(self.keep([lines[-1], publish("more", "1.0.0"), yank("p0", "1.0.0")]),
                         ACCEPTED % MOST_COMMANDS + 2 * full)
        self.assertEqual(self.read(self.kept), journal(lines))
        self.assertEqual(self.keep([yank("p0", "1.0.0")], "4"), full)
        self.assertEqual(self.read(self.kept), journal(lines))
        more = journal([*lines, publish("more", "1.0.0")])
        self.write(self.kept, more)
        self.refused(f"line {MOST_COMMANDS + 2} is not a journal's, and nothing was changed", text=more)


class Others(Keeping):
    """Another session on the file, or another program."""

    def setUp(self):
        super().setUp()
        self.there = os.path.join(self.folder, "there")

    def talking(self, path=None, **more):
        """A client whose first publication is accepted."""
        client = Client([*SERVE, "--journal", path or self.kept], **more)
        client.send([publish("a", "1.0.0")])
        self.assertTrue(client.read_until(1))
        return client

    def test_a_second_session(self):
        client = self.talking()
        text = self.read(self.kept)
        for _ in range(2):
            self.refused("in use by another session", text=text)
        done = run(["serve", "--workers", "1", "--save", self.kept], LIST.encode())
        self.assertEqual((done.returncode, done.stdout, done.stderr), (1, b"", UNSAVED))
        self.assertEqual(self.read(self.kept), text)
        client.send([publish("b", "1.0.0")])
        self.assertTrue(client.read_until(2))
        self.assertEqual(client.leave(), (0, b""))
        self.assertEqual(self.read(self.kept), journal([publish("a", "1.0.0"), publish("b", "1.0.0")]))
        self.assertEqual(self.beside(), ["kept"])

    def test_the_lock_goes_with_a_kill(self):
        for number in range(1, 6):
            client = Client(["serve", "--workers", "4", "--journal", self.kept])
            client.send([publish("a", f"1.{number}.0")])
            self.assertTrue(client.read_until(1))
            self.assertEqual(client.read.decode(), ACCEPTED % number)
            client.kill()
        self.assertEqual(self.keep(), "")
        self.assertEqual(self.read(self.kept), journal([publish("a", f"1.{number}.0") for number in range(1, 6)]))

    def changed(self, change, left, there=None):
        """A session goes on with no file that someone else has changed, and tells so; nothing that rests on it is told.
        What is left stands in the file of its name, and in the one that has the name `there`."""
        client = self.talking()
        change()
        client.send([publish("b", "1.0.0"), LIST])
        status, told = client.leave()
        self.assertEqual((client.read.decode(), status, told.decode()), (ACCEPTED % 1, 1, CHANGED % self.kept))
        self.assertEqual([self.read(path) if os.path.exists(path) else None for path in (self.kept, self.there)],
                         [left, there])
        for path in self.beside():
            os.unlink(os.path.join(self.folder, path))

    def append(self, text):
        with open(self.kept, "ab") as file:
            file.write(text)

    def test_a_file_that_someone_else_changes(self):
        whole, other = BEGUN + b"end 1\n", os.path.join(self.folder, "other")
        for more in (b"x", journal_line(publish("c", "1.0.0")).encode() + b"\n"):
            self.changed(lambda: self.append(more), BEGUN + more)
        self.changed(lambda: os.truncate(self.kept, 5), BEGUN[:5])
        self.changed(lambda: os.truncate(self.kept, 0), b"")
        self.changed(lambda: self.write(self.kept, whole + whole), whole + whole)
        self.changed(lambda: os.unlink(self.kept), None)
        self.changed(lambda: (self.write(other, b"other"), os.rename(other, self.kept)), b"other")

    def test_a_name_that_leads_to_another_file_or_to_none(self):
        begun, other = BEGUN, os.path.join(self.folder, "other")

        def with_a_copy(change):
            shutil.copy(self.kept, other)
            change(self.kept, self.there)
            os.replace(other, self.kept)

        for change, left in ((lambda: os.rename(self.kept, self.there), None),
                             (lambda: (os.link(self.kept, self.there), os.unlink(self.kept)), None),
                             (lambda: with_a_copy(os.rename), begun), (lambda: with_a_copy(os.link), begun),
                             (lambda: (os.rename(self.kept, self.there), self.keep([publish("z", "1.0.0")])),
                              journal([publish("z", "1.0.0")]))):
            self.changed(change, left, begun)

    def test_a_link_that_leads_elsewhere(self):
        begun, other = BEGUN, os.path.join(self.folder, "other")

        def lead_to_a_copy():
            shutil.copy(self.there, other)
            os.unlink(self.kept)
            os.symlink("other", self.kept)

        for change, left in ((lead_to_a_copy, begun), (lambda: os.unlink(self.kept), None)):
            os.symlink("there", self.kept)
            self.changed(change, left, begun)

    def test_a_file_that_has_no_name_left(self):
        # this name of an open file leads to it all the same
        self.write(self.kept, b"")
        with open(self.kept, "rb") as file:
            path = f"/dev/fd/{file.fileno()}"
            client = self.talking(path, pass_fds=[file.fileno()])
            os.unlink(self.kept)
            client.send([publish("b", "1.0.0")])
            self.assertEqual(client.leave(), (1, (CHANGED % path).encode()))
        self.assertEqual(client.read.decode(), ACCEPTED % 1)

    def test_a_name_that_leads_to_it_again(self):
        client = self.talking()
        os.rename(self.kept, self.there)
        os.symlink("there", self.kept)
        client.send([publish("b", "1.0.0")])
        self.assertEqual((client.leave(), client.read.decode()), ((0, b""), ACCEPTED % 1 + ACCEPTED % 2))
        self.assertEqual(self.read(self.kept), journal([publish("a", "1.0.0"), publish("b", "1.0.0")]))

    def test_a_request_goes_on_without_it(self):
        client = self.talking()
        os.unlink(self.kept)
        client.send([LIST])
        self.assertTrue(client.read_until(2))
        self.assertEqual(client.replies()[1], '{"packages":[["a",[["1.0.0",false]]]],"revision":1}')
        client.kill()

    def test_a_change_is_told_at_the_end_too(self):
        for change in (lambda: self.append(b"x"), lambda: os.rename(self.kept, self.there)):
            client = self.talking()
            change()
            self.assertEqual(client.leave(), (1, (CHANGED % self.kept).encode()))
            self.write(self.kept, b"")


class Places(Keeping):
    """Names that stand for no file that may be written."""

    def test_what_is_no_plain_file(self):
        fifo = os.path.join(self.folder, "fifo")
        os.mkfifo(fifo)
        for path in (self.folder, "/dev/null", "/dev/full", fifo):
            self.refused("not a plain file", path)
        self.assertTrue(stat.S_ISFIFO(os.stat(fifo).st_mode))

    def test_where_no_file_can_be_made(self):
        self.refused("can't be created: No such file or directory (os error 2)",
                     os.path.join(self.folder, "none", "file"))
        self.refused("can't be opened: File name too long (os error 36)", os.path.join(self.folder, "n" * 256))
        self.write(self.kept, b"")
        self.refused("can't be opened: Not a directory (os error 20)", os.path.join(self.kept, "file"))
        self.assertEqual(self.beside(), ["kept"])

    def test_links(self):
        os.mkdir(os.path.join(self.folder, "there"))
        link, second = (os.path.join(self.folder, name) for name in ("link", "second"))
        os.symlink(os.path.join("there", "kept"), link)
        os.symlink("link", second)
        # a link that leads nowhere so far leads to a file that is made; later to one that is gone on with
        for number, path in enumerate((second, link, os.path.join(self.folder, "there", "kept")), 1):
            self.assertEqual(self.keep([publish("a", f"1.{number}.0")], path=path), ACCEPTED % number)
        self.assertTrue(os.path.islink(link) and os.path.islink(second))
        self.assertEqual(self.read(link), journal([publish("a", f"1.{number}.0") for number in (1, 2, 3)]))
        self.assertEqual(os.listdir(os.path.join(self.folder, "there")), ["kept"])
        os.symlink("loop", os.path.join(self.folder, "loop"))
        self.refused("can't be opened: Too many levels of symbolic links (os error 40)",
                     os.path.join(self.folder, "loop"))

    def test_a_name_with_control_characters_is_told_in_one_line(self):
        done = run(["serve", "--workers", "1", "--journal", "a\nb\x1b[1m\x7f\u00e9 \\x/kept"], LIST.encode(),
                   cwd=self.folder)
        told = ("registryd: journal a\\x0ab\\x1b[1m\\x7f\u00e9 \\x/kept: "
                "can't be created: No such file or directory (os error 2)\n")
        self.assertEqual((done.returncode, done.stdout, done.stderr.decode()), (1, b"", told))

    def test_what_another_user_may_not_write(self):
        folder, program = tempfile.mkdtemp(), os.path.join(self.folder, "registryd")
        self.addCleanup(shutil.rmtree, folder)
        shutil.copy(PROGRAM, program)
        os.chmod(self.folder, 0o755)
        file = os.path.join(folder, "file")
        self.write(file, journal(CHAIN))
        for modes, path, words in (((0o444, 0o755), file, "can't be opened"), ((0o200, 0o755), file, "can't be opened"),
                                   ((0o644, 0o555), os.path.join(folder, "none"), "can't be created"),
                                   ((0o644, 0o000), file, "can't be opened")):
            os.chmod(file, modes[0])
            os.chmod(folder, modes[1])
            done = subprocess.run([program, "serve", "--workers", "1", "--journal", path], input=LIST.encode(),
                                  capture_output=True, timeout=100, user=NOBODY if os.getuid() == 0 else None)
            os.chmod(folder, 0o755)
            self.assertEqual((done.returncode, done.stdout, done.stderr.decode()),
                             (1, b"", f"registryd: journal {path}: {words}: Permission denied (os error 13)\n"))
            self.assertEqual((os.listdir(folder), self.read(file)), (["file"], journal(CHAIN)))
