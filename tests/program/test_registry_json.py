"""What `registry` prints with `--json`: each answer and each error is one line that `docs/registry.schema.json` admits,
which admits nothing else that is near; and an error has the text that people read on standard error."""
import contextlib
import json
import os
import re
import signal
import subprocess

from registry_cli.table import SUBCOMMANDS
from tests.program.test_check_derivation import rows
from tests.program.test_readme import page
from tests.support import lines_schema
from tests.support.program import PROGRAM, TOP, publish, yank
from tests.support.registry_folder import Folder, pigeons

DATA = os.path.join(TOP, "tests", "support", "data")
WITHOUT = "Python's jsonschema is not there (Debian: python3-jsonschema)"
HOLES, _ = pigeons(3)
LINES = [publish("app", "1.0.0", ["log ^1"]), publish("log", "1.0.0"), publish("log", "1.1.0"), publish("log", "2.0.0"),
         yank("log", "1.0.0"), *HOLES]
MADE = {"needs": [["app", "*"]], "revision": 1, "selected": [["app", "1.0.0"], ["log", "1.0.0"], ["gone", "1.0.0"]]}


# each with its status, and what is printed: an answer, or an error's number or word
COMMANDS = [row.replace("DATA", DATA).split(maxsplit=2) for row in rows("json_answers.txt")]


def kind_of(words):
    """The definition of what a command line answers."""
    return "registry " + next(it.name for it in SUBCOMMANDS if words == it.name or words.startswith(it.name + " "))


class Json(Folder):
    def setUp(self):
        super().setUp()
        self.hold(*LINES)
        whole = self.text("registry.journal").splitlines(keepends=True)
        for name, text in (("x.lock", json.dumps(MADE)), ("y.lock", '[["log","1.1.0"]]'), ("z.lock", "[]"),
                           ("x.needs", "app\n"), ("rubbish", "{"), ("whole.lines", '{"op":"list"}\n'),
                           ("faulty.lines", '{"op":"list",}\n{"op":"yank","name":"A","version":"1"}\n\n'),
                           ("cut.journal", "".join(whole[:-2])), ("bad.journal", "".join([*whole[:2], *whole[1:]]))):
            self.path(name, text)
        self.enterContext(contextlib.chdir(self.folder))

    def answered(self, status, words):
        """The one line of a command line, read as JSON, and what people read."""
        ended, said, fault = self.registry(*words.split(), "--json")
        self.assertEqual((ended, said.count("\n"), said[-1:]), (int(status), 1, "\n"), words)
        return json.loads(said), fault

    def judged(self, pairs):
        """The pairs of a definition's name and a value in which the value is not of that."""
        if not lines_schema.judge():
            self.skipTest(WITHOUT)
        return [pairs[place] for place in lines_schema.refused(pairs)]

    def test_answers(self):
        found = [(kind_of(words), self.answered(status, words)[0]) for status, told,
                 words in COMMANDS if told == "answer"]
        found += [self.listening("page"), self.listening("serve", "--port", "0")]
        self.assertEqual({it for it in lines_schema.ANSWERS["$defs"] if it.startswith("registry ")},
                         {kind for kind, _ in found})
        self.assertEqual({f"registry {it.name}" for it in SUBCOMMANDS} - {kind for kind, _ in found},
                         {"registry shell"})
        self.assertEqual(self.judged(found), [])

    def listening(self, *words):
        """What a subcommand answers that goes on until a signal ends it."""
        with subprocess.Popen([f"{TOP}/registry", *words, "--json", "--journal", self.journal],
                              env={**os.environ, "REGISTRY_PROGRAM": PROGRAM},
                              stdout=subprocess.PIPE, stderr=subprocess.DEVNULL) as running:
            line = running.stdout.readline()
            running.send_signal(signal.SIGTERM)
        return f"registry {words[0]}", json.loads(line)

    def test_errors(self):
        found = []
        for status, error, words in (it for it in COMMANDS if it[1] != "answer"):
            told, fault = self.answered(status, words)
            self.assertEqual((str(told["error"]), fault.splitlines()[-1]), (error, f"registry: {told['message']}"),
                             words)
            found.append(("error", told))
        self.assertEqual(self.judged(found), [])

    def test_the_table_of_statuses_has_each_subcommand_that_ends_with_1(self):
        rows = re.findall(r"(?m)^\| 1 \| (.*?) \|", page("docs/REGISTRY_COMMAND.md"))
        ended = [words for status, _, words in COMMANDS if status == "1"]
        self.assertEqual(set(re.findall("`(.*?)`", " ".join(rows))),
                         {re.sub("^import .*", "import", kind_of(words).removeprefix("registry ")) for words in ended})

    def test_what_the_schema_refuses(self):
        wrong = [(kind, json.loads(value)) for kind, _,
                 value in (row.partition(": ") for row in rows("wrong_answers.txt"))]
        self.assertEqual(self.judged(wrong), wrong)

    def test_an_answer_that_is_given_stays_the_one_line(self):
        told, fault = self.answered(3, "resolve log --write none/x.lock")
        self.assertEqual((told["selected"], fault),
                         ([["log", "2.0.0"]], "registry: none/x.lock is not written: No such file or directory\n"))

    def test_its_names_are_none_of_the_lines(self):
        self.assertEqual(set(lines_schema.KINDS) & set(lines_schema.ANSWERS["$defs"]), set())
