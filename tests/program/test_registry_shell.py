"""`registry shell` at a terminal: lines, keys and completion. A transcript has lines from a pipe."""
import fcntl
import os
import pty
import re
import select
import signal
import stat
import subprocess
import termios
import time
from unittest import mock

from registry_cli.failures import Refused
from registry_cli.shell import Standing
from tests.support.preloaded import built
from tests.support.processes import is_idle
from tests.support.program import PROGRAM, TOP, publish
from tests.support.registry_folder import Folder, pigeons

COMMAND = os.path.join(TOP, "registry")
ESCAPES = re.compile(r"\x1b\[[0-9;?]*[A-Za-z]|\x07")
SECONDS = 60  # until what is waited for has failed


class Terminal:
    """A shell whose standard streams are a terminal, in a folder."""

    def __init__(self, folder, *words, **environment):
        self.ours, theirs = pty.openpty()
        kept = {name: it for name, it in os.environ.items() if not name.startswith("REGISTRY_")}
        told = {**kept, "REGISTRY_PROGRAM": PROGRAM, "TERM": "xterm", "HOME": folder,
                "XDG_STATE_HOME": os.path.join(folder, "state"), "INPUTRC": os.devnull, "NO_COLOR": "1", **environment}
        self.running = subprocess.Popen([COMMAND, "shell", *words], cwd=folder, stdin=theirs, stdout=theirs,
                                        stderr=theirs, env=told, start_new_session=True, preexec_fn=take_terminal)
        os.close(theirs)
        self.shown, self.seen = "", 0

    def read(self, until):
        """What is shown, up to what is waited for."""
        ends = time.monotonic() + SECONDS
        while True:
            found = self.shown.find(until, self.seen)
            if found >= 0:
                said, self.seen = self.shown[self.seen:found], found + len(until)
                return said
            if not select.select([self.ours], [], [], max(0, ends - time.monotonic()))[0]:
                raise AssertionError(f"{until!r} was not shown, but {self.shown[self.seen:]!r}")
            try:
                part = os.read(self.ours, 65536)
            except OSError:
                part = b""
            if not part:
                raise AssertionError(f"the shell ended before {until!r}, with {self.shown[self.seen:]!r}")
            self.shown = ESCAPES.sub("", (self.shown + part.decode(errors="replace"))).replace("\r\n", "\n")

    def type(self, text):
        os.write(self.ours, text.encode())

    def answer(self, line):
        """What is shown for a line that is typed, up to the next prompt."""
        self.type(line + "\n")
        self.read("\n")
        return self.read("registry> ")

    def child(self):
        """The process of the program that the shell asks; none where there is none."""
        done = subprocess.run(["ps", "-o", "pid=", "--ppid", str(self.running.pid)], stdout=subprocess.PIPE, text=True)
        return [int(it) for it in done.stdout.split()]

    def end(self, typed="\x04"):
        """The status of the shell when it has ended."""
        self.type(typed)
        try:
            while os.read(self.ours, 65536):
                pass
        except OSError:
            pass
        return self.running.wait(timeout=SECONDS)

    def __enter__(self):
        return self

    def __exit__(self, *_):
        if self.running.poll() is None:
            self.running.kill()
            self.running.wait()
        os.close(self.ours)


def take_terminal():
    """Makes standard input the terminal of this process, so that its keys are signals to it. Whoever runs these tests
    may have it pass over them."""
    signal.signal(signal.SIGINT, signal.SIG_DFL)
    fcntl.ioctl(0, termios.TIOCSCTTY, 0)


class Typed(Folder):
    def terminal(self, *words, **environment):
        found = Terminal(self.folder, *words, **environment)
        found.read("registry> ")
        return found

    def test_lines_over_one_session(self):
        with self.terminal() as shell:
            self.assertEqual(shell.child(), [])
            self.assertEqual(shell.answer("list"),
                             "registry: registry.journal: there is no such journal: `registry publish` or `registry "
                             "import` begins one, and --journal FILE names another\n")
            self.assertEqual(shell.answer("publish log 1.0.0"), "published log 1.0.0 (revision 1)\n")
            child = shell.child()
            self.assertEqual(len(child), 1)
            self.assertEqual(shell.answer("publish app 1.0.0 'log@>=1, <2'"), "published app 1.0.0 (revision 2)\n")
            self.assertEqual(shell.answer("registry resolve app"), "app 1.0.0\nlog 1.0.0\n")
            self.assertEqual(shell.answer("yank log 2.0.0"), "registry: log 2.0.0 is not published; there is 1.0.0\n")
            self.assertEqual(shell.answer("show 'log"), "registry: a quote is not closed, or nothing follows a "
                                                        "backslash\n")
            self.assertEqual(shell.answer("shell"), "registry: this is the shell already: Ctrl-D ends it\n")
            self.assertEqual(shell.answer(""), "")
            self.assertEqual(shell.child(), child)
            said = subprocess.run([COMMAND, "publish", "other", "1.0.0", "--wait", "0"], cwd=self.folder,
                                  env={**os.environ, "REGISTRY_PROGRAM": PROGRAM}, stderr=subprocess.PIPE)
            self.assertEqual((said.returncode, said.stderr.decode()), (
                3, f'registry: registry.journal is in use by another session (process {shell.running.pid}, "registry '
                   'shell"): try again once that has ended\n'))
            self.assertEqual(shell.end(), 0)
            self.assertFalse(os.path.exists(f"/proc/{child[0]}/exe"))
        self.assertEqual(self.text("registry.journal").splitlines()[-1], "end 2")

    def test_what_another_journal_has(self):
        other = self.path("other.journal")
        with self.terminal("--journal", other) as shell:
            shell.answer("publish log 1.0.0")
            self.assertEqual(shell.answer("publish zlib 1.0.0 --journal third.journal"),
                             "published zlib 1.0.0 (revision 1)\n")
            self.assertEqual(shell.answer("list"), "log  1.0.0  1 version\n")
            self.assertEqual(shell.answer("list --journal third.journal"), "zlib  1.0.0  1 version\n")
            self.assertEqual(shell.end("exit\n"), 0)
        self.assertFalse(os.path.exists(self.journal))

    def test_completion(self):
        self.hold(publish("log", "1.0.0"), publish("log", "1.2.0"), publish("logger", "0.1.0"),
                  publish("zlib", "1.0.0"))
        os.mkdir(self.path("folder"))
        self.path("my lock.lock", "[]")
        for typed, shown in (("pub\t", "publish "), ("jour\tver\t", "journal verify "), ("show z\t", "show zlib "),
                             ("registry show z\t", "registry show zlib "), ("yank log 1.2\t", "yank log 1.2.0 "),
                             ("yank zlib \t", "yank zlib 1.0.0 "), ("ex\t", "exit "), ("check fol\t", "check folder/"),
                             ("resolve zlib --bud\t", "resolve zlib --budget "),
                             ("resolve zlib@=1\t", "resolve zlib@=1.0.0 "),
                             ("resolve zlib@^\t", "resolve zlib@^1.0.0 "), ("show none\t", "show none")):
            with self.subTest(typed), self.terminal() as shell:
                shell.type(typed + "|")
                self.assertEqual(shell.read("|").rpartition("\n")[2].strip("\x07"), shown)

    def test_two_candidates(self):
        self.hold(publish("log", "1.0.0"), publish("logger", "0.1.0"))
        with self.terminal() as shell:
            shell.type("show lo\t\t\t")
            self.assertEqual(shell.read("logger").split(), ["show", "log", "log"])

    def test_history(self):
        with self.terminal() as shell:
            shell.answer("publish log 1.0.0")
            shell.answer("  ")
            shell.answer("list")
            shell.end()
        path = self.path("state/registry/history")
        self.assertEqual(self.text("state/registry/history").splitlines(), ["publish log 1.0.0", "list"])
        self.assertEqual((stat.S_IMODE(os.stat(path).st_mode), stat.S_IMODE(os.stat(os.path.dirname(path)).st_mode)),
                         (0o600, 0o700))
        with self.terminal() as shell:
            shell.type("\x1b[A\x1b[A")
            self.assertTrue(shell.read("publish log 1.0.0").endswith(""))
            shell.type("\n")
            self.assertIn("log 1.0.0 is published already", shell.read("registry> "))
            shell.end()
        self.assertEqual(self.text("state/registry/history").splitlines()[-1], "publish log 1.0.0")

    def test_history_that_can_not_be_kept(self):
        self.path("state", "a file where a folder should be")
        with self.terminal() as shell:
            self.assertEqual(shell.answer("publish log 1.0.0"), "published log 1.0.0 (revision 1)\n")
            self.assertEqual(shell.end(), 0)

    def test_a_key_ends_a_line(self):
        self.hold(publish("log", "1.0.0"))
        with self.terminal() as shell:
            shell.answer("publish zlib 1.0.0")
            child = shell.child()
            shell.type("yank log 1.0.0\x03")
            shell.read("registry> ")
            self.assertEqual(shell.answer("list"), "log   1.0.0  1 version\nzlib  1.0.0  1 version\n")
            self.assertEqual(shell.child(), child)
            self.assertEqual(shell.end(), 0)

    def test_a_key_ends_a_search(self):
        lines, needs = pigeons(14)
        self.hold(*lines)
        with self.terminal() as shell:
            shell.answer("publish log 1.0.0")
            child = shell.child()
            shell.type("resolve " + " ".join(needs) + "\n")
            self.assertFalse(is_idle(*child))  # it has the request
            shell.type("\x03")
            self.assertIn("registry: interrupted\n", shell.read("registry> "))
            self.assertEqual(shell.answer("show log").splitlines()[:2], ["log", "  1.0.0"])
            self.assertNotEqual(shell.child(), child)
            self.assertEqual(shell.end(), 0)

    def test_a_program_that_is_killed(self):
        with self.terminal() as shell:
            shell.answer("publish log 1.0.0")
            (child,) = shell.child()
            os.kill(child, signal.SIGKILL)
            self.assertIn(" ended with status -9 before it had answered", shell.answer("list"))
            self.assertEqual(shell.answer("list"), "log  1.0.0  1 version\n")
            self.assertEqual(shell.end(), 0)

    def test_a_shell_that_is_ended(self):
        for sent, status in ((signal.SIGTERM, 143), (signal.SIGHUP, 129)):
            with self.subTest(sent), self.terminal() as shell:
                shell.answer(f"publish log {int(sent)}.0.0")
                (child,) = shell.child()
                shell.running.send_signal(sent)
                self.assertEqual(shell.running.wait(timeout=SECONDS), status)
                self.assertFalse(os.path.exists(f"/proc/{child}/exe"))
        self.assertIn("end 2", self.text("registry.journal"))

    def test_a_shell_that_is_ended_amid_a_search(self):
        lines, needs = pigeons(14)
        self.hold(*lines)
        with self.terminal() as shell:
            shell.answer("publish log 1.0.0")
            (child,) = shell.child()
            shell.type("resolve " + " ".join(needs) + "\n")
            self.assertFalse(is_idle(child))  # it has the request
            shell.running.send_signal(signal.SIGTERM)
            self.assertEqual(shell.running.wait(timeout=SECONDS), 143)
            self.assertFalse(os.path.exists(f"/proc/{child}/exe"))

    def test_a_signal_just_before_the_wait_for_a_key(self):
        with self.terminal(LD_PRELOAD=built(type(self), "signal_before_select.c")) as shell:
            self.assertEqual(shell.running.wait(timeout=SECONDS), 143)


class Lent(Folder):
    def test_replies_that_a_command_left(self):
        """What a command that is refused did not read is not taken for what the next one asks."""
        self.hold(publish("log", "1.0.0"))
        with mock.patch.dict(os.environ, REGISTRY_PROGRAM=PROGRAM):
            standing = Standing(self.journal)
            self.addCleanup(standing.close)
            with self.assertRaises(Refused), standing.lent(self.journal) as session:
                next(session.each([{"op": "yank", "name": "log", "version": "2.0.0"}, *[{"op": "list"}] * 3]))
                raise Refused("log 2.0.0 is not published")
            with standing.lent(self.journal) as session:
                self.assertEqual(session.ask({"op": "yank", "name": "log", "version": "1.0.0"}),
                                 [{"ok": True, "revision": 2}])
                self.assertEqual(len(session.commands()), 2)
