"""Changes a Python file in one place at a time, and prints each such mutant that no test notices.

    python3 -m dev.mutate [--most N] FILE [TEST ..]

Comparisons are turned, constants changed, conditions made true or false, `None` put for what is returned, and
statements deleted. Each mutant is tried in a copy of this folder by the files of tests that are given, else by those
that name the file. A mutant may remove whatever its tests may: where this is root, they run as nobody."""
import argparse
import ast
import contextlib
import os
import random
import re
import shutil
import signal
import subprocess
import sys
import tempfile
from collections.abc import Iterator, Sequence
from pathlib import Path
from typing import Any

from dev.building.programs import path_for_tests
from dev.building.progress import TOP
from dev.testing.run import PYTEST

TURNED: dict[type[ast.AST], type[ast.AST]] = {
    ast.Eq: ast.NotEq, ast.NotEq: ast.Eq, ast.Lt: ast.LtE, ast.LtE: ast.Lt, ast.Gt: ast.GtE, ast.GtE: ast.Gt,
    ast.In: ast.NotIn, ast.NotIn: ast.In, ast.Is: ast.IsNot, ast.IsNot: ast.Is, ast.And: ast.Or, ast.Or: ast.And,
    ast.Add: ast.Sub, ast.Sub: ast.Add, ast.Mult: ast.Add}
DELETED = (ast.Expr, ast.Assign, ast.AugAssign, ast.Raise, ast.Assert, ast.Break, ast.Continue, ast.Delete)
# how many times as long as without a mutant tests may take, and seconds beside that
TIMES, PATIENCE = 4, 20
NULL = subprocess.DEVNULL
NOBODY: dict[str, Any] = {"user": 65_534, "group": 65_534, "extra_groups": []} if os.geteuid() == 0 else {}


def mutants(text: str) -> Iterator[tuple[int, str, str]]:
    """Each mutant of a source that can be compiled: its line, what is told of it, and its text."""
    tree = ast.parse(text)
    for node in list(ast.walk(tree)):
        for field, held in ast.iter_fields(node):
            for place, child in enumerate(held if isinstance(held, list) else [held]):
                if not isinstance(child, ast.AST) or field in ("annotation", "returns"):
                    continue
                for new in changes(node, field, child):
                    changed = [*held[:place], new, *held[place + 1:]] if isinstance(held, list) else new
                    shown = child if isinstance(child, ast.stmt) else node
                    line, told = getattr(shown, "lineno", 0), ast.unparse(shown)
                    setattr(node, field, changed)
                    made = ast.unparse(ast.fix_missing_locations(tree))
                    told += " is deleted" if shown is child else f"  is  {ast.unparse(node)}"
                    setattr(node, field, held)
                    with contextlib.suppress(SyntaxError):
                        compile(made, "a mutant", "exec")
                        yield line, " ".join(told.split())[:160], made


def changes(parent: ast.AST, field: str, node: ast.AST) -> Iterator[ast.AST]:
    """What may stand in the place of a node."""
    if type(node) in TURNED:
        yield TURNED[type(node)]()
    if isinstance(node, ast.Constant) and not isinstance(parent, ast.Expr):
        value = node.value
        yield from [ast.Constant(not value if isinstance(value, bool) else value + 1)] if isinstance(value, int) else []
        yield from [ast.Constant("" if value else "x")] if isinstance(value, str) else []
    if isinstance(node, ast.UnaryOp) and isinstance(node.op, ast.Not):
        yield node.operand
    if field == "test" and isinstance(parent, (ast.If, ast.While, ast.IfExp)):
        yield from map(ast.Constant, (False,) if isinstance(parent, ast.While) else (True, False))
    if isinstance(parent, ast.Return) and not isinstance(node, ast.Constant):
        yield ast.Constant(None)
    is_comment = isinstance(node, ast.Expr) and isinstance(node.value, ast.Constant)
    if isinstance(node, DELETED) and not is_comment:
        yield ast.Pass()


def status(copy: Path, tests: Sequence[Path], seconds: float | None = None) -> int:
    """How these files of tests end in a copy of the folder: a mutant may keep them from ending at all."""
    environment = {**os.environ, "HOME": str(copy), "TMPDIR": str(copy), "PYTHONDONTWRITEBYTECODE": "1"}
    environment |= {name.upper(): path_for_tests(name) for name in ("registryd", "probe", "embedded")}
    with subprocess.Popen([*PYTEST, "-x", "-p", "no:cacheprovider", *map(str, tests)], cwd=copy, env=environment,
                          stdin=NULL, stdout=NULL, stderr=NULL, start_new_session=True, **NOBODY) as running:
        try:
            return running.wait(seconds)
        except subprocess.TimeoutExpired:
            return -1
        finally:
            with contextlib.suppress(ProcessLookupError):
                os.killpg(running.pid, signal.SIGKILL)


def main(words: Sequence[str]) -> int:
    parser = argparse.ArgumentParser(prog="python3 -m dev.mutate", description=__doc__.partition("\n")[0])
    parser.add_argument("file", type=Path, metavar="FILE")
    parser.add_argument("tests", type=Path, nargs="*", metavar="TEST")
    parser.add_argument("--most", type=int, metavar="N", help="try so many mutants, taken at random")
    chosen = parser.parse_args(words)
    file, text = chosen.file.resolve().relative_to(TOP), chosen.file.read_text(encoding="utf-8")
    named = re.compile(rf"\b{re.escape(file.stem)}\b")
    tests = [it.resolve().relative_to(TOP) for it in chosen.tests or sorted(TOP.glob("**/test_*.py"))
             if chosen.tests or named.search(it.read_text(encoding="utf-8"))]
    with tempfile.TemporaryDirectory(prefix="mutate-") as folder:
        copy = Path(folder, "tree")
        shutil.copytree(TOP, copy, ignore=shutil.ignore_patterns(".git", "out", "__pycache__"), symlinks=True)
        subprocess.run(["chown", "-R", "nobody", folder] if NOBODY else ["true"], check=True)
        begun = os.times().elapsed
        if not tests or status(copy, tests):
            parser.error(f"no tests of {file} pass without a mutant: {' '.join(map(str, tests))}")
        seconds, found = TIMES * (os.times().elapsed - begun) + PATIENCE, list(mutants(text))
        tried, left = random.Random(1).sample(found, min(chosen.most or len(found), len(found))), []
        for line, told, made in sorted(tried):
            (copy / file).unlink(missing_ok=True)
            shutil.copy2(TOP / file, copy / file)
            (copy / file).write_text(f"{text.splitlines()[0]}\n" * text.startswith("#!") + made, encoding="utf-8")
            if status(copy, tests, seconds) == 0:
                left.append(f"  line {line}: {told}")
                print(left[-1], flush=True)
    print(f"{file}: {len(tried) - len(left)} of {len(tried)} mutants were noticed")
    return 0


if __name__ == "__main__":
    sys.exit(main(sys.argv[1:]))
