"""What all subcommands of `registry` have in common: the table of words with the help, the completions and the manual
page that are made of it; and a key that interrupts it."""
import importlib
import os
import re
import shlex
import signal
import subprocess
import unittest
from functools import partial

from registry_cli import command_line, completion, manual, table
from tests.support.called import registry
from tests.support.processes import child_of, is_gone
from tests.support.program import PROGRAM, TOP
from tests.support.registry_folder import Folder, pigeons

COMMAND = os.path.join(TOP, "registry")


class Table(unittest.TestCase):
    def test_each_subcommand_has_a_module_that_runs_it(self):
        self.assertGreater(len(table.SUBCOMMANDS), 13)
        self.assertEqual(len({it.name for it in table.SUBCOMMANDS}), len(table.SUBCOMMANDS))
        for it in table.SUBCOMMANDS:
            self.assertTrue(callable(importlib.import_module(f"registry_cli.commands.{it.module}").run), it.name)
            self.assertTrue(it.examples, it.name)

    def test_each_example_can_be_read(self):
        for it in table.SUBCOMMANDS:
            for example in it.examples:
                first, *words = shlex.split(example.split(" | ")[0].split(" < ")[0])
                found, rest = command_line.split(words)
                self.assertEqual((first, found.name), ("registry", it.name), example)
                command_line.read(found, rest)

    def test_the_help_has_each_word_and_each_example(self):
        for it in table.SUBCOMMANDS:
            status, said, fault = registry(*it.name.split(" "), "--help")
            self.assertEqual((status, fault, said.splitlines()[0][:len(it.name) + 16]),
                             (0, "", f"usage: registry {it.name}"))
            plain = " ".join(said.split())
            for word in (*it.words, *table.COMMON):
                self.assertIn(" ".join([word.flag or word.names[0],
                                        *(word.names if word.flag and not word.many else [])]), plain)
                self.assertIn(" ".join(word.about.split()), plain)
            for part in (it.summary, " ".join(it.more.split()), *it.examples):
                self.assertIn(part, plain)

    def test_the_whole_help_has_each_subcommand(self):
        for words in (["--help"], ["-h"], ["--json", "--help"]):
            status, said, fault = registry(*words)
            self.assertEqual((status, fault), (0, ""))
            for it in table.SUBCOMMANDS:
                self.assertIn(f"\n  {it.name.ljust(max(len(each.name) for each in table.SUBCOMMANDS))}  {it.summary}\n",
                              said)


class Completed(unittest.TestCase):
    def test_the_words_of_the_program_are_its_own(self):
        run = partial(subprocess.run, stdin=subprocess.DEVNULL, capture_output=True, timeout=60, check=False)

        def helped(*words):
            said = run([PROGRAM, *words, "--help"]).stdout.decode()
            return dict(re.findall(r"^ +(?:-h, +)?((?:--)?\w+)((?: <\w+>)?) {2,}\S", said, re.M))
        self.assertEqual({*helped()}, {*completion.PROGRAM, "--help"})
        for command, options in completion.PROGRAM.items():
            if options:
                self.assertEqual({it: bool(value) for it, value in helped(command).items()},
                                 {**{it: bool(takes) for it, takes in options.items()}, "--help": False})
            for option, takes in options.items():
                for value in takes if isinstance(takes, tuple) else ():
                    workers = ["--workers", "1"] if option != "--workers" else []
                    done = run([PROGRAM, command, *workers, option, value])
                    self.assertEqual((done.returncode, done.stderr), (0, b""), value)


class Manual(unittest.TestCase):
    def test_it_has_each_subcommand_with_its_words(self):
        status, said, fault = registry("--manual")
        self.assertEqual((status, fault), (0, ""))
        parts = dict(part.split("\n", 1) for part in said.split("\n.SS ")[1:])
        self.assertEqual([name.replace("\\-", "-") for name in parts], [it.name for it in table.SUBCOMMANDS])
        for it, text in zip(table.SUBCOMMANDS, parts.values()):
            for word in it.words:
                self.assertIn("\\fB" + word.flag.replace("-", "\\-") if word.flag else "\\fI" + word.names[0], text)
            for example in it.examples:
                self.assertIn(manual.escaped(example), text)


class Ends(Folder):
    def test_a_key_that_interrupts_a_long_search(self):
        # the program ends with it
        lines, needs = pigeons(14)
        self.hold(*lines)
        for word, sent, status in (("resolve", signal.SIGINT, 130), ("resolve", signal.SIGTERM, 143),
                                   ("resolve", signal.SIGKILL, -9), ("why", signal.SIGKILL, -9)):
            words = [COMMAND, word, *needs, "--journal", self.journal]
            # a shell that runs these tests behind others may have it pass over the key
            with subprocess.Popen(words, env={**os.environ, "REGISTRY_PROGRAM": PROGRAM}, stdout=subprocess.PIPE,
                                  stderr=subprocess.PIPE,
                                  preexec_fn=lambda: signal.signal(signal.SIGINT, signal.SIG_DFL)) as running:
                try:
                    child = child_of(running.pid)
                    running.send_signal(sent)
                    said = running.communicate(timeout=60)
                finally:
                    running.kill()
            self.assertEqual((running.returncode, *said), (status, b"", b""))
            self.assertTrue(is_gone(child), sent)
