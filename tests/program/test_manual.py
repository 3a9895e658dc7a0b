"""The manual pages: they can be shown, and name what the program and the tools take, print and end with."""
import os
import re
import subprocess
import tempfile
import unittest
from pathlib import Path

from dev.installing import installed
from registry_cli.completion import PROGRAM as COMMANDS
from tests.support.called import registry
from tests.support.program import PROGRAM, TOP, skip_without

VERSION = open(os.path.join(TOP, "VERSION"), encoding="ascii").read().strip()
# The tools of the second page, each with the words before its options.
TOOLS = {name: (called, [""]) for name, (called, _) in installed.TOOLS.items()}


def page(name):
    return Path(TOP, "docs", name).read_text(encoding="utf-8")


def sections(text, mark):
    """The sections of a page, or the subsections, by their titles."""
    first, *others = re.split(rf"^\.{mark} (.*)\n", text, flags=re.M)
    return dict(zip(others[::2], others[1::2]))


def options(text):
    """The options that a text names, without the one for help."""
    return set(re.findall(r"\bFl \\-([a-z-]+)", text)) - {"help"}


def examples(text):
    """What an example tells to type."""
    return re.findall(r"^\.Bd .*\n((?:.*\n)*?)\.Ed", text, re.M)


class Pages(unittest.TestCase):
    @skip_without("man", "man-db")
    @skip_without("groff", "groff-base")
    def test_they_are_shown_without_a_warning(self):
        made = os.path.join(self.enterContext(tempfile.TemporaryDirectory()), "registry.1")
        Path(made).write_text(registry("--manual")[1], encoding="ascii")
        more = ("registry resolve app@^1 zlib", "--not NAME VERSION", "REGISTRY_JOURNAL", "--index ~/.cargo/registry")
        for path, texts in (("registryd.1", ()), ("registry-tools.1", ()), (made, more)):
            with self.subTest(path):
                done = subprocess.run(["man", "--warnings", "-E", "UTF-8", "-l", os.path.join(TOP, "docs", path)],
                                      env={**os.environ, "MANWIDTH": "100", "LC_ALL": "C.UTF-8"}, capture_output=True)
                self.assertEqual((done.returncode, done.stderr), (0, b""))
                for text in ("EXIT STATUS", *texts):
                    self.assertIn(text, done.stdout.decode())

    def test_they_have_the_version(self):
        for name in ("registryd.1", "registry-tools.1"):
            self.assertIn(f'.Os "registryd {VERSION}"\n', page(name))


class OfTheProgram(unittest.TestCase):
    def test_each_option_is_in_the_synopsis_and_told(self):
        parts = sections(page("registryd.1"), "Sh")
        taken = {it[2:] for options in COMMANDS.values() for it in options} | {"version"}
        self.assertEqual(options(parts["SYNOPSIS"]), taken)
        told = re.findall(r"^\.It Fl \\-([a-z-]+)", parts["OPTIONS"], re.M)
        self.assertEqual(sorted(told), sorted([*taken, "help"]))
        self.assertEqual(re.findall(r"^\.Cm (\w+)", parts["SYNOPSIS"], re.M), [*COMMANDS])

    def test_each_status_and_each_line_of_standard_error_is_there(self):
        rows = re.findall(r"^\| (\d) \|.*\| (nothing|`registryd: (.*)`) \|$", page("FORMATS.md"), re.M)
        parts = sections(page("registryd.1"), "Sh")
        self.assertEqual(re.findall(r"^\.It (\d)$", parts["EXIT STATUS"], re.M),
                         sorted({status for status, *_ in rows}))
        told = [line.replace(" Ar ", " ") for line in re.findall(r"^\.It Li registryd: (.*)$", parts["DIAGNOSTICS"],
                                                                 re.M)]
        self.assertEqual(sorted(told), sorted({line for *_, line in rows if line}))

    def test_the_example_can_be_typed(self):
        first, _ = examples(page("registryd.1"))
        with tempfile.TemporaryDirectory() as folder:
            os.symlink(PROGRAM, os.path.join(folder, "registryd"))
            done = subprocess.run(["sh", "-c", first], cwd=folder,
                                  env={**os.environ, "PATH": f"{folder}:{os.environ['PATH']}"},
                                  stdout=subprocess.PIPE, text=True, check=True, timeout=60)
        self.assertEqual(done.stdout.splitlines(),
                         ['{"ok":true,"revision":1}', '{"revision":1,"selected":[["app","1.0.0"]]}'])


class OfTheTools(unittest.TestCase):
    def taken(self, file, commands):
        """The options that the help of a tool names."""
        found = set()
        for command in commands:
            words = [os.path.join(TOP, file), *command.split(), "--help"]
            said = subprocess.run(words, stdout=subprocess.PIPE, text=True, check=True, timeout=60).stdout
            found |= set(re.findall(r"^  (?:-h, )?--([a-z-]+)", said, re.M)) - {"help"}
        return found

    def test_each_option_is_told_and_in_the_synopsis(self):
        parts = sections(page("registry-tools.1"), "Sh")
        told, synopsis = sections(parts["OPTIONS"], "Ss"), re.split(r"^\.Nm ", parts["SYNOPSIS"], flags=re.M)[1:]
        self.assertEqual(list(told), list(TOOLS))
        for name, (file, commands) in TOOLS.items():
            taken = self.taken(file, commands)
            self.assertEqual(options("".join(re.findall(r"^\.It .*$", told[name], re.M))), taken, name)
            if name != "registryd-etcd":  # its synopsis has no room for them
                self.assertEqual(options("".join(it for it in synopsis if it.split()[0] == name)), taken, name)
