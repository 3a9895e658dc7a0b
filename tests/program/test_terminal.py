"""A person at a terminal is told what `serve` waits for, and nobody else is; and a client that waits for each reply."""
import os
import pty
import subprocess
import unittest

from tests.support.program import PROGRAM, SERVE, end, publish, read_lines, run, talking

WAITING = b'registryd: waiting for request lines, such as {"op":"list"}; Ctrl-D ends them\n'
# what a terminal sends on as the end of input
CTRL_D = b"\x04"


def at_terminal(words, typed):
    """What the program leaves where standard input is a terminal at which this is typed."""
    person, terminal = pty.openpty()
    try:
        with subprocess.Popen([PROGRAM, *words], stdin=terminal, stdout=subprocess.PIPE,
                              stderr=subprocess.PIPE) as running:
            os.write(person, typed)
            told, said = running.communicate(timeout=100)
    finally:
        os.close(person)
        os.close(terminal)
    return running.returncode, told, said


class Terminal(unittest.TestCase):
    def test_what_is_said_where_it_waits(self):
        typed = b'{"op":"list"}\n' + CTRL_D
        for words, typed, *wanted in ((SERVE, typed, 0, b'{"packages":[],"revision":0}\n', WAITING),
                                      # the last line tells how it ended
                                      ([*SERVE, "--load", "no/such/file"], CTRL_D, 1, b"",
                                       WAITING + b"registryd: input failed\n"),
                                      (["race", os.devnull], CTRL_D, 0, b"registry-journal 2\nend 0\n", b"")):
            with self.subTest(words=words):
                self.assertEqual(at_terminal(words, typed), tuple(wanted))

    def test_words_that_are_bad_wait_for_nothing(self):
        for words in ([], ["serve"]):
            with self.subTest(words=words):
                status, told, said = at_terminal(words, CTRL_D)
                self.assertEqual((status, told), (2, b""))
                self.assertRegex(said, rb"(?s)\Aerror: .*\nregistryd: bad words\n\Z")

    def test_neither_does_help(self):
        for words in (["--help"], ["serve", "--help"], ["help", "serve"]):
            with self.subTest(words=words):
                status, told, said = at_terminal(words, CTRL_D)
                self.assertEqual((status, said), (0, b""))
                self.assertIn(b"Usage: registryd ", told)

    def test_no_program_is_told(self):
        done = run(SERVE, b'{"op":"list"}\n')
        self.assertEqual((done.returncode, done.stderr), (0, b""))

    def test_a_client_that_waits_gets_each_reply(self):
        with talking() as client:
            for n in range(3):
                client.stdin.write(publish("a", f"1.{n}.0").encode() + b"\n")
                self.assertEqual(read_lines(client, 1), b'{"ok":true,"revision":%d}\n' % (n + 1))
            self.assertEqual(end(client), (b"", 0))
