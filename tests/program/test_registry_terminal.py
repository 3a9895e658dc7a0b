"""What `registry` shows at a terminal: how wide, in which colours, how much of a long explanation, and what while it
waits; and the options that say so."""
import io
import json
import os
import re
import signal
import socket
import sys
import threading
import time
from pathlib import Path
from unittest import mock

from registry_cli import bar, cases, output, searching
from registry_cli.commands import why
from tests.support.called import registry
from tests.support.program import PATIENCE, PROGRAM, TOP, publish, resolve, serve
from tests.support.registry_folder import Folder, at_terminal, pigeons

COMMAND = os.path.join(TOP, "registry")
CODES = re.compile(r"\x1b\[[0-9;]*m")
LIMIT = "{} more than {} in all: --seconds N allows more (0: without a limit)"
LINES = [publish("log", "1.0.0"), publish("log", "1.2.0"), publish("app", "1.0.0", ["log ^1"]),
         publish("web", "1.0.0", ["log >=2, <3"])]
# lines, the columns of a terminal, and the rows that are shown
WRAPPED = json.loads(Path(TOP, "tests", "support", "data", "wrapped.json").read_text(encoding="ascii"))


def without_end(*_):
    """In place of an explanation."""
    threading.Event().wait()


def b(text):
    return f"\x1b[1m{text}\x1b[0m"


def red(text):
    return f"\x1b[1;31m{text}\x1b[0m"


class Shown(Folder):
    def shown(self, *words, **more):
        """The status of a command at a terminal, and what that shows in the end: a line that says how long something
        takes is taken away."""
        status, said = self.seen(*words, **more)
        return status, re.sub(r"\r.*\r\x1b\[K", "", said)

    def seen(self, *words, typed=b"", columns=0, lines=0, **environment):
        """The same with all that was shown meanwhile."""
        status, said = at_terminal([COMMAND, *words, "--journal", self.journal],
                                   {"REGISTRY_PROGRAM": PROGRAM, **environment}, typed, columns, lines)
        return status, said.replace("\r\n", "\n").replace(self.folder + os.sep, "")

    def test_lines_are_wrapped(self):
        for line, columns, wanted in WRAPPED:
            self.assertEqual(output.wrapped(line, columns), wanted, line)
        # a colour takes no room, and goes on in the next row
        bold = f"{output.MARK}1mtwo words{output.MARK}0m"
        self.assertEqual(output.wrapped(f"some more than {bold} here", 20),
                         f"some more than {bold.replace(' ', chr(10))} here")

    def test_an_explanation(self):
        self.hold(*LINES)
        status, said = self.shown("resolve", "app", "log@^3", columns=48)
        self.assertEqual((status, said), (1, (
            f"{b('app')} *, {red('log ^3')}: {red('refused')} at revision 4\n"
            f"  Because the request depends on {red('log ^3')} and {red('no|version of log matches ^3')}, "
            "resolving failed.\n"
            f"  {red('No version of log matches ^3')}; there are 1.2.0\n  and 1.0.0.\n").replace("|", "\n  ")))
        self.assertEqual(CODES.sub("", self.shown("why", "web", columns=60, NO_COLOR="1")[1]),
                         "web *: refused at revision 4\n"
                         '  Because every version of web depends on log ">=2, <3" and\n'
                         '  no version of log matches ">=2, <3", web is forbidden.\n'
                         "  And because the request depends on web *, resolving\n" "  failed.\n"
                         "  No version of log matches >=2, <3; there are 1.2.0 and\n" "  1.0.0.\n")

    def test_where_there_is_colour(self):
        self.hold(*LINES)
        for words, environment, coloured in (([], {"NO_COLOR": ""}, True), (["--color=auto"], {"NO_COLOR": "1"}, False),
                                             ([], {"TERM": "dumb"}, False), (["--color", "never"], {}, False),
                                             (["--color=always"], {"NO_COLOR": "1"}, True)):
            with self.subTest(words=words, environment=environment):
                listed = self.shown("list", *words, **environment)[1]
                refused = self.shown("yank", "log", "3.0.0", *words, **environment)[1]
                self.assertEqual((listed.startswith("\x1b[1mapp"), red("registry:") in refused), (coloured, coloured))
        self.assertNotIn("\x1b", self.shown("list", "--json")[1])

    def test_a_question(self):
        self.hold(publish("app", "1.0.0", ["log ^1"]), publish("log", "1.2.0"), publish("log", "1.3.0"))
        self.path("registry.needs", "app ^1\n")
        old = '[\n  ["app", "1.0.0"],\n  ["log", "1.2.0"]\n]\n'
        lock = self.path("registry.lock", old)
        for typed, status, last in ((b"n\n", 1, "is unchanged"), (b"\n", 1, "is unchanged"),
                                    (b"\x04", 1, "is unchanged"), (b"y\n", 0, "is written")):
            ended, shown = self.seen("upgrade", "log", "--lock", lock, typed=typed)
            self.assertEqual(ended, status)
            self.assertIn("write this to registry.lock? [y/N] ", shown)
            self.assertTrue(shown.rstrip().endswith(f"registry:\x1b[0m registry.lock {last}"), shown)
            # what changed stands above the question, in colour
            self.assertIn("\x1b[33m~ log 1.2.0 -> 1.3.0\x1b[0m", shown.partition("write this")[0])
            self.assertEqual(self.text("registry.lock"), old.replace("1.2.0", "1.3.0") if status == 0 else old)

    # ---- long explanations

    def test_a_long_explanation(self):
        lines, needs = pigeons(5)
        self.hold(*lines)
        status, whole, noted = self.registry("why", *needs)
        told = whole.splitlines()
        self.assertGreater(len(told), 80)
        self.assertEqual((status, noted, told[-1][-18:]), (0, "", " resolving failed."))
        status, said, noted = self.registry("resolve", *needs)
        cut = noted.splitlines()
        self.assertEqual((status, said, cut[:2], cut[2:-1]), (1, "", [told[0], "  .."], told[-38:]))
        self.assertEqual(cut[-1], f"registry: {len(told) - 39} of {len(told)} lines are left out: `registry why` tells "
                                  "all of them")
        for height, rows in ((24, 20), (100, 40), (3, 10)):
            status, said = self.shown("why", *needs, columns=80, lines=height, NO_COLOR="1")
            *shown, last, rest = said.split("\n")
            self.assertEqual((status, shown[:2], rest), (0, [told[0], "  .."], ""))
            self.assertLessEqual(len(shown), rows)
            self.assertGreaterEqual(len(shown), rows - 5)  # a sentence is shown whole
            self.assertLessEqual(max(map(len, shown)), 80)
            self.assertTrue(" ".join(told).replace(" ", "").endswith("".join(shown[2:]).replace(" ", "")))
            self.assertRegex(last, rf"\Aregistry: [0-9]+ of {len(told)} lines are left out: --full tells all of them\Z")
        self.assertEqual(self.shown("why", *needs, "--full", columns=999, lines=24, NO_COLOR="1"), (0, whole))

    # ---- searches that take long

    def test_a_search_that_takes_long(self):
        lines, needs = pigeons(12)
        self.hold(*lines)
        before = Path(self.journal).read_bytes()
        told = "no answer was found in {}: --seconds N searches longer (0: without a limit)\n"
        status, said = self.seen("resolve", *needs, "--seconds", "2", NO_COLOR="1")
        self.assertEqual(status, 1)
        self.assertRegex(said, r"\A\r\x1b\[Ksearching for [0-9]+ s, at most 2 s; Ctrl-C ends it.*\r\x1b\[Kregistry: "
                         + re.escape(told.format("2 seconds")))
        told = told.format("1 second")
        for words, error in ((["resolve", "--json"], json.dumps({"error": "refused", "message": told[:-1]},
                                                                separators=(",", ":")) + "\n"), (["why"], "")):
            self.assertEqual(self.registry(*words, *needs, "--seconds", "1"), (1, error, f"registry: {told}"))
        self.assertEqual(self.registry("resolve", *needs, "--seconds", "0", "--budget", "100")[0], 1)
        self.assertEqual(Path(self.journal).read_bytes(), before)

    def test_what_is_said_meanwhile(self):
        class Terminal(io.StringIO):
            def isatty(self):
                return True

        for is_quiet, stream in ((False, Terminal()), (True, Terminal()), (False, io.StringIO())):
            ticks = threading.Event()
            with (mock.patch.multiple(sys, stderr=stream), mock.patch.object(bar, "TICK", 0.001),
                  mock.patch.object(output, "chosen", output.Choice(is_quiet=is_quiet)), bar.timed("waiting"),
                  bar.timed("a part of that")):
                for _ in range(6_000 if stream.isatty() and not is_quiet else 5):
                    if stream.getvalue().count("waiting") > 1:
                        break
                    ticks.wait(0.01)
            said = stream.getvalue()
            if stream.isatty() and not is_quiet:
                self.assertRegex(said, r"\A(\r\x1b\[Kwaiting for [0-9]+ s; Ctrl-C ends it){2,}\r\x1b\[K\Z")
            else:
                self.assertEqual(said, "")

    def test_a_shell_goes_on(self):
        lines, needs = pigeons(12)
        self.hold(*lines)
        given = f"publish log 1.0.0\nresolve {' '.join(needs)} --seconds 1\npublish log 1.1.0\nresolve log\n"
        status, said, noted = self.registry("shell", given=given)
        published = "".join(f"published log 1.{it}.0 (revision {len(lines) + it + 1})\n" for it in (0, 1))
        self.assertEqual((status, said), (0, published + "log 1.1.0\n"))
        self.assertRegex(noted, r"\Aregistry: no answer was found in 1 second: .*\n\Z")

    def over_service(self, seconds, replies):
        """What `registry resolve` leaves over a service that answers these lines, and then nothing more."""
        path = self.path("socket")
        with socket.socket(socket.AF_UNIX) as listening:
            listening.bind(path)
            listening.listen()

            def serve():
                with listening.accept()[0] as client, client.makefile("rb") as lines:
                    for reply in replies:
                        lines.readline()
                        client.sendall(reply)
                    lines.read()
            serving = threading.Thread(target=serve)
            serving.start()
            answer = registry("resolve", "a", "--connect", path, "--seconds", seconds)
            serving.join()
        return answer

    def test_a_service_that_does_not_answer(self):
        self.assertEqual(self.over_service("1", [b'{"revision":0,"selected":[]}\n']),
                         (1, "", "registry: no answer was found in 1 second: --seconds N searches longer (0: without a "
                                 "limit)\n"))

    # ---- explanations that take long

    def hurry(self):
        """The search has all seconds, and its explanation hardly any."""
        self.enterContext(mock.patch.object(searching, "LEAST", 0.1))
        self.enterContext(mock.patch.object(output, "time", mock.Mock(monotonic=lambda: time.monotonic() - 1000)))

    @mock.patch.multiple(cases.Case, answer=without_end, why_not=without_end)
    def test_an_explanation_that_takes_long(self):
        self.hold(*LINES)
        before = signal.getsignal(signal.SIGALRM), signal.getitimer(signal.ITIMER_REAL)[1]
        told = LIMIT.format("there is no selection; to say why takes", "100 seconds")
        self.hurry()
        for words, shown, said in ((["resolve", "web"], "", told), (["tree", "web", "--json"], '{"derivation":', told),
                                   (["why", "web", "--json"], f'{{"error":"refused","message":"{told}"}}', told),
                                   (["why", "app", "--not", "log", "1.0.0"], "",
                                    LIMIT.format("to explain that takes", "100 seconds"))):
            status, answer, noted = self.registry(*words, "--seconds", "100")
            self.assertEqual((status, answer[:len(shown)], bool(answer), noted),
                             (1, shown, bool(shown), f"registry: {said}\n"), words)
        self.assertEqual(self.registry("shell", given="resolve web --seconds 100\nresolve app\n"),
                         (0, "app 1.0.0\nlog 1.2.0\n", f"registry: {told}\n"))
        self.assertEqual((signal.getsignal(signal.SIGALRM), signal.getitimer(signal.ITIMER_REAL)[1]), before)

    def test_it_has_what_the_search_left_of_the_seconds(self):
        class Set(Exception):
            pass

        for seconds, used, given in ((30, 0, 30), (30, 24, 6), (30, 29, 3), (30, 99, 3), (1, 0, 3), (0, 99, 0)):
            begun, now = 1000.0, mock.Mock(monotonic=lambda used=used: 1000.0 + used)
            for chosen, other in ((output.Choice(seconds=seconds, begun=begun), None),
                                  (output.Choice(seconds=seconds), begun)):
                with (mock.patch.object(output, "chosen", chosen), mock.patch.object(searching, "time", now),
                      mock.patch.object(bar, "timed", side_effect=Set) as timed, self.assertRaises(Set),
                      searching.explaining(True, other)):
                    pass
                self.assertEqual(timed.call_args, mock.call("explaining", given))
        before = signal.getsignal(signal.SIGALRM)
        with searching.Alarm(0, "never"):
            self.assertEqual(signal.getsignal(signal.SIGALRM), before)

    def test_each_of_several_has_seconds_of_its_own(self):
        asked = [publish("a", "1.0.0"), *(resolve(f"a ={number}", explain=True) for number in (1, 2, 3))]
        paths = [self.path(name, text) for name, text in (("asked", "".join(it + "\n" for it in asked)),
                                                          ("told", "".join(it + "\n" for it in serve(asked))))]
        with mock.patch.object(why, "explaining", side_effect=searching.explaining) as explained:
            self.assertEqual(registry("why", "--asked", paths[0], "--told", paths[1])[0], 0)
        first, second = (it.args[1] for it in explained.call_args_list)
        self.assertIsNone(first)
        self.assertLess(abs(time.monotonic() - second), PATIENCE)

    def test_a_service_that_does_not_tell_its_journal(self):
        self.hurry()
        told = LIMIT.format("there is no selection; to say why takes", "100 seconds")
        replies = [b'{"revision":0,"selected":[]}\n', b'{"refused":true,"revision":0}\n']
        self.assertEqual(self.over_service("100", replies), (1, "", f"registry: {told}\n"))
