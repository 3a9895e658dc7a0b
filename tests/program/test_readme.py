"""What the pages tell a reader to type can be typed, and answers what they say; and README leads on."""
import importlib.util
import os
import re
import shutil
import subprocess
import tempfile
import unittest

from tests.support.program import PROBE, PROGRAM, TOP

PAGES = ["README.md", *(os.path.join("docs", page) for page in sorted(os.listdir(os.path.join(TOP, "docs")))
                        if page.endswith(".md"))]


def page(name):
    with open(os.path.join(TOP, name), encoding="utf-8") as text:
        return text.read()


def blocks(name="README.md"):
    """A page's indented blocks, each a list of lines."""
    return [re.findall("^    (.*)$", block, re.M) for block in re.findall("(?:^    .*\n)+", page(name), re.M)]


def following(found, part, line=0):
    """The first of these blocks that has this in such a line, and the one behind it."""
    at = next(at for at, block in enumerate(found) if part in block[line])
    return found[at:at + 2]


def answers(folder, lines):
    """What a shell in a folder prints for lines that are typed, and its exit status."""
    typed = re.sub(r"\b(tools|tests)/", rf"{TOP}/\1/", "\n".join(lines).replace("./registryd", PROGRAM))
    typed = re.sub(r"\./registry\b", os.path.join(TOP, "registry"), typed)
    variables = {**os.environ, "REGISTRY_PROGRAM": PROGRAM, "NO_COLOR": "1"}
    variables.pop("REGISTRY_JOURNAL", None)
    done = subprocess.run(["sh", "-c", typed], cwd=folder, env=variables, stdin=subprocess.DEVNULL,
                          stdout=subprocess.PIPE, text=True, timeout=300)
    return done.stdout.splitlines(), done.returncode


FORMATS = blocks("docs/FORMATS.md")
CLIENTS = ["clients/README.md", "clients/rust/README.md", "clients/c/README.md"]
# where an example begins a journal's file
BEGUN = re.compile(r"""(?:--save |--journal |\./example |journal="|Some\(")([\w-]+\.journal)""")


class Readme(unittest.TestCase):
    def test_each_file_that_is_typed_can_be_run(self):
        words = [line.split()[0] for name in ("README.md", "docs/WHY.md", "docs/BENCHMARKS.md")
                 for block in blocks(name) for line in block]
        files = {word for word in words if re.fullmatch(r"[a-z./_]+", word) and "/" in word}
        self.assertLessEqual({"./registryd", "./registry", "tools/check_derivation.py"}, files)
        files.add("./test")
        self.assertEqual([file for file in sorted(files) if not os.access(os.path.join(TOP, file), os.X_OK)], [])

    def test_each_module_that_is_typed_can_be_run(self):
        modules = {module for name in PAGES for module in re.findall(r"python3 -m ((?:bench|dev)[.\w]*)", page(name))}
        self.assertLessEqual({"bench.resolve", "dev.mutate"}, modules)
        self.assertEqual([module for module in sorted(modules) if not importlib.util.find_spec(module)], [])

    @unittest.skipUnless(shutil.which("rt"), "no command rt on the path")
    def test_it_names_the_logic_of_the_kit(self):
        told = subprocess.run(["rt", "version"], stdout=subprocess.PIPE, text=True, check=True, timeout=60).stdout
        self.assertEqual(re.findall(r"`rattle-kit-\w+ logic ([0-9a-f]+)`", page("README.md")),
                         re.findall(r"logic ([0-9a-f]+)", told))

    def test_each_page_is_named(self):
        self.assertEqual([name for name in PAGES[1:] if f"({name})" not in page("README.md")], [])

    def test_no_two_examples_share_a_file(self):
        begun = [(file, block[0]) for name in [*PAGES, *CLIENTS] for block in blocks(name)
                 for file in set(BEGUN.findall("\n".join(block)))]
        self.assertLessEqual({"a.journal", "python.journal", "rust.journal", "c.journal"}, {file for file, _ in begun})
        self.assertEqual(len(begun), len({file for file, _ in begun}), begun)

    def test_what_is_typed_prints_what_is_shown(self):
        kept = following(FORMATS, "--journal a.journal")
        imported = ["exec 2> counts", *blocks("docs/IMPORTING.md")[0]], blocks("docs/IMPORTING.md")[1]
        for typed, told in (blocks()[:2], following(blocks(), "./registry "), kept, imported):
            with self.subTest(typed=typed), tempfile.TemporaryDirectory() as folder:
                self.assertEqual(answers(folder, typed), (told, 0))

    def test_what_is_kept(self):
        typed, told = following(FORMATS, "--save saved.journal")
        with tempfile.TemporaryDirectory() as folder:
            self.assertEqual(answers(folder, typed), (told, 0))
            # the line that is printed last asks for the same
            replies = answers(folder, [f"echo '{told[-1]}' | ./registryd serve --workers 1 --load saved.journal",
                                       "cat selected.line"])
            self.assertEqual(replies, (['{"revision":1,"selected":[["app","1.0.0"]]}'] * 2, 0))

    def test_each_journal_that_is_shown_is_loaded(self):
        shown = [block for block in FORMATS if block[0].startswith("registry-journal")]
        self.assertEqual([block[0] for block in shown], ["registry-journal 1", "registry-journal 2"])
        for block in shown:
            with tempfile.TemporaryDirectory() as folder:
                with open(os.path.join(folder, "journal"), "w", encoding="ascii") as out:
                    out.write("".join(line + "\n" for line in block))
                typed = ["./registryd serve --workers 1 --load journal --save saved < /dev/null", "cat saved"]
                self.assertEqual(answers(folder, typed), (["registry-journal 2", *block[1:]], 0))

    def test_the_race(self):
        typed, told = following(FORMATS, "./registryd race", -1)
        # either file may be first
        turned = [told[1].replace('"seat":2', '"seat":1'), told[0].replace('"seat":1', '"seat":2'), *told[2:]]
        with tempfile.TemporaryDirectory() as folder:
            printed, status = answers(folder, typed)
            self.assertIn(printed, (told, turned))
            self.assertEqual(status, 0)

    def test_the_example_of_using_is_shown_as_it_stands_and_prints_what_is_shown(self):
        *shown, printed = blocks("docs/USING.md")
        code = [line.strip() for line in page("crates/probe/src/team.rt").splitlines() if line.strip()]
        for block in shown:
            wanted = [line.strip() for line in block if line.strip()]
            self.assertTrue(any(code[at:at + len(wanted)] == wanted for at in range(len(code))), block)
        done = subprocess.run([PROBE, "team"], stdin=subprocess.DEVNULL, stdout=subprocess.PIPE, text=True, check=True)
        self.assertEqual(done.stdout.splitlines(), printed)
