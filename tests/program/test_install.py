"""What `tools/install` puts below a prefix, how it runs there, and goes again; and what it says where it can't."""
import os
import re
import shutil
import subprocess
from pathlib import Path

import pytest

from dev.building.c_library import Library
from dev.building.programs import COMPILED, PROVED, Program
from dev.installing import install as command
from dev.installing import installed, prefix
from dev.installing.installed import Piece, pieces
from dev.installing.prefix import install, remove
from tests.program.test_readme import blocks
from tests.support.called import called
from tests.support.library import FOLDER, LACKING
from tests.support.program import PROGRAM, TOP
from tests.support.tunables import ROWS, TELL, environment

VERSION = Path(TOP, "VERSION").read_text(encoding="ascii").strip()
LIST = '{"op":"list"}\n'
TOOLS = ["registry", "registry-check-derivation", "registryd-etcd"]


def below(folder):
    """Each file and folder below one, by its path; a folder's ends with a slash."""
    found = set()
    for at, folders, files in os.walk(folder):
        inner = os.path.relpath(at, folder).removeprefix(".").removesuffix("/")
        found |= {os.path.join(inner, it) for it in files} | {os.path.join(inner, it, "") for it in folders}
    return found


def run(words, given="", patience=60, **more):
    return subprocess.run(words, input=given, timeout=patience, capture_output=True, text=True, **more)


def left_by(words, given="", **more):
    """How a command ends, and what it prints, with what it says of errors."""
    done = run(words, given, **more)
    return done.returncode, done.stdout, done.stderr


@pytest.fixture
def stub(tmp_path):
    """A program that only says its words."""
    path = tmp_path / "stub"
    path.write_text("#!/bin/sh\nprintf 'stub:'\nprintf ' <%s>' \"$@\"\n", encoding="ascii")
    return path


@pytest.fixture
def where(tmp_path):
    """A prefix with a name that needs quotes."""
    return tmp_path / "the prefix"


def put(where, stub, kind=PROVED, more=()):
    install(where, [*pieces(Program(stub, kind, "")), *more])


# ---- one install of the program under test, that the tests share

@pytest.fixture(scope="module")
def whole(tmp_path_factory):
    prefix_of_all = tmp_path_factory.mktemp("installed") / "the prefix"
    mask = os.umask(0o077)  # others may read it, whatever the mask of who installs it
    try:
        install(prefix_of_all,
                pieces(Program(Path(PROGRAM), COMPILED, ""), library=FOLDER and Library(FOLDER, COMPILED)))
    finally:
        os.umask(mask)
    return prefix_of_all


def test_what_stands_where(whole):
    there = below(whole)
    assert {it for it in there if it.startswith("bin/")} == {"bin/", "bin/registryd", *(f"bin/{it}" for it in TOOLS)}
    assert {it.split("/")[0] for it in there} == {"bin", "lib", "share", *(["include"] if FOLDER else [])}
    wanted = {f"lib/registryd/{it}" for it in ("registryd", "registry", "registry_cli/commands/why.py",
                                               "registry_cli/page/files/page.html", "registry_etcd/front.py")}
    wanted |= {f"share/man/man1/{it}.1" for it in ("registryd", "registry-tools", *TOOLS)}
    wanted |= {f"share/{it}" for it in (
        "bash-completion/completions/registry", "zsh/site-functions/_registry",
        "fish/vendor_completions.d/registry.fish",
        "bash-completion/completions/registryd", "fish/vendor_completions.d/registryd.fish",
        "registryd/lines.schema.json",
        "registryd/registry.schema.json", "doc/registryd/FORMATS.md", "registryd/clients/python/registryd/__init__.py",
        "registryd/clients/c/registryd.h", "registryd/clients/c/embedded.c", "registryd/clients/c/Makefile",
        "registryd/clients/rust/Cargo.toml", "registryd/clients/rust/src/lib.rs")}
    if FOLDER:
        wanted |= {"include/registryd.h", "lib/pkgconfig/registryd.pc", "lib/libregistryd.a", "lib/libregistryd.so.0"}
        assert os.readlink(whole / "lib/libregistryd.so") == "libregistryd.so.0"
    assert wanted <= there
    assert {*(whole / prefix.LIST).read_text(encoding="utf-8").splitlines()} == there | {"./"}


@pytest.mark.skipif(not FOLDER, reason=LACKING)
def test_the_page_on_installing_names_places_that_there_are(whole):
    rows = re.findall(r"^\| (`.*?) \|", Path(TOP, "docs", "INSTALLING.md").read_text(encoding="utf-8"), re.M)
    named = [it if "/" in it else f"bin/{it}" for row in rows for it in re.findall("`([^`]+)`", row)]
    assert [it for it in named if not (whole / it).exists()] == []
    assert {it for it in named if it.startswith("bin/")} == {f"bin/{it}" for it in ("registryd", *TOOLS)}


def test_who_may_do_what(whole):
    for path in sorted(whole.rglob("*")):
        if not path.is_symlink():
            runs = path.is_dir() or path.parent.name == "bin" or path == whole / "lib/registryd/registryd"
            assert oct(path.stat().st_mode & 0o777) == oct(0o755 if runs else 0o644), path


@pytest.mark.parametrize("client", ["python", "c", "rust"])
def test_each_client_has_all_of_its_files(whole, client):
    at = os.path.join("clients", client)
    told = run(["git", "-C", TOP, "ls-files", at]).stdout.split()
    if not told:
        pytest.skip("this is no checkout of git")
    there = {it for it in below(whole / "share/registryd" / at) if not it.endswith("/")}
    assert there == {os.path.relpath(it, at) for it in told}


def test_the_program_runs_through_a_link_and_from_anywhere(whole, tmp_path):
    link, other = tmp_path / "link", tmp_path / "other"
    link.symlink_to(whole / "bin/registryd")
    other.symlink_to("link")
    for word, more in ((whole / "bin/registryd", {}), (other, {}),
                       ("registryd", {"env": {"PATH": f"{whole}/bin:/usr/bin:/bin"}}),
                       ("./registryd", {"cwd": whole / "bin"}), ("../the prefix/bin/registryd", {"cwd": whole})):
        assert left_by([word, "serve", "--workers", "1"], LIST,
                       **more) == (0, '{"packages":[],"revision":0}\n', ""), word


def test_the_version_whatever_follows(whole):
    told = run([whole / "bin/registryd", "--version"]).stdout
    assert re.fullmatch(r"registryd 0\.\d+\.\d+, commit .*\nThe program is .*\n", told)
    for words in ("registryd -V", "registryd --version --x", "registryd -V serve", "registry -V", "registry --version"):
        name, *more = words.split()
        assert left_by([whole / "bin" / name, *more]) == (0, told, ""), words
    # behind another word it is the program's
    status, said, error = left_by([whole / "bin/registryd", "serve", "--version"])
    assert (status, said) == (2, "") and "unexpected argument '--version' found" in error


def typed(whole, text, folder):
    """What is printed in a folder for what is typed there, the installed commands being found first."""
    done = run(["sh", "-c", text], cwd=folder, env={**os.environ, "PATH": f"{whole}/bin:{os.environ['PATH']}"})
    return done.stdout.splitlines(), done.stderr


def test_the_first_session_and_the_refusal_of_the_first_page(whole, tmp_path):
    # the second command of the page is for a checkout alone
    shown = [it for it in blocks() if it != ["./test"]]
    for lines, wanted in zip(shown[:4:2], shown[1:4:2]):
        assert typed(whole, installed.renamed("\n".join(lines)), tmp_path) == (wanted, "")


def test_what_an_installed_page_tells_to_type(whole, tmp_path):
    # a block that names a tool is typed; those up to the next one are printed, with an empty line between them
    said = []
    for block in blocks(os.path.relpath(whole / "share/doc/registryd/WHY.md", TOP)):
        if re.search("^registry ", "\n".join(block), re.M):
            said.append((block, []))
        else:
            said[-1][1].extend([""] * bool(said[-1][1]) + block)
    assert len(said) > 2
    (tmp_path / "docs").mkdir()
    for lines, told in said:
        assert typed(whole, "\n".join(lines), tmp_path) == (told, "")


@pytest.mark.parametrize("name", TOOLS)
def test_each_tool_calls_itself_by_its_name(whole, name):
    status, said, error = left_by([whole / "bin" / name, "--help"])
    assert (status, error) == (0, "") and f"usage: {name} " in said
    assert not re.search(r"tools/|\./registryd", said)


def test_python_compiles_none_of_the_modules_and_keeps_nothing(whole):
    before = below(whole)
    said = run([whole / "bin/registry", "diff", "/dev/null", "/dev/null"],
               env={"PATH": os.environ["PATH"], "PYTHONVERBOSE": "1"})
    loaded = re.findall(rf"# code object from '?{re.escape(str(whole))}/lib/registryd/(.+?)'?\n", said.stderr)
    assert len(loaded) > 10 and all("__pycache__" in it for it in loaded)
    assert below(whole) == before


def test_the_links_of_pages_lead_somewhere(whole):
    found = [(page, target) for page in whole.rglob("*.md")
             for target in re.findall(r"\]\(([^)#]+)", page.read_text(encoding="utf-8")) if "://" not in target]
    assert [it for it in found if not (it[0].parent / it[1]).exists()] == []
    assert len(found) > 20


# ---- installs of a program that only says its words

def test_glibc_is_asked_for_huge_pages(where, stub):
    """Also by what the tools begin."""
    log = where.parent / "log"
    stub.write_text(f"#!/bin/sh\n{{ {TELL.strip()}; }} >> '{log}'\n", encoding="ascii")
    put(where, stub)

    def told(given, name, *words):
        """What the program, begun by an installed command, has in its environment."""
        run([where / "bin" / name, *words], env=environment(given), cwd=where.parent)
        said = log.read_text(encoding="ascii").splitlines()
        log.unlink()
        return {*said}

    for given, wanted in ROWS:
        assert told(given, "registryd") == {wanted}
    (where.parent / "journal").touch()
    for words in ("registry list --journal journal", "registry journal verify journal",
                  "registry serve --journal journal --socket socket", "registryd-etcd found --journal journal"):
        for given, wanted in (ROWS[0], ROWS[3]):
            assert told(given, *words.split()) == {wanted}, words


def version_of(where, stub, kind):
    put(where, stub, kind)
    status, said, error = left_by([where / "bin/registryd", "--version"])
    assert (status, error) == (0, "")
    return said


def test_the_version_tells_the_commit_and_whether_it_is_proved(where, stub, monkeypatch):
    monkeypatch.setattr(installed.programs, "commit", lambda: "62c06fc")
    page = Path(TOP, "docs", "INSTALLING.md").read_text(encoding="utf-8")
    proved, compiled = (version_of(where, stub, kind) for kind in (PROVED, COMPILED))
    assert re.fullmatch(f"registryd {VERSION}, commit 62c06fc\nThe program is proved: .*\n",
                        proved) and "not proved" not in proved
    assert re.fullmatch(f"registryd {VERSION}, commit 62c06fc\nThe program is compiled .*It is not proved.*\n",
                        compiled)
    assert re.sub("^", "    ", proved, flags=re.M).rstrip() + "\n" in page
    assert f"`{compiled.splitlines()[1]}`" in page


def test_it_needs_no_kit_no_python_and_no_git(where, stub, tmp_path):
    put(where, stub)
    found, link = tmp_path / "found", tmp_path / "link"
    found.mkdir()
    for name in ("sh", "cat", "readlink"):
        (found / name).symlink_to(shutil.which(name))
    link.symlink_to(where / "bin/registryd")
    for words, wanted in (("--version", f"registryd {VERSION}, "),
                          ("serve  --load 'a  b' ''", "stub: <serve> <--load> <a  b> <>")):
        status, said, error = left_by(["sh", "-c", f'"$0" {words}', link], env={"PATH": str(found)})
        assert (status, error) == (0, "") and said.startswith(wanted)


def test_an_earlier_install_is_replaced_while_it_runs(where, stub, tmp_path):
    before = below(tmp_path)
    put(where, stub, COMPILED, [Piece("bin/registry-old", b""), Piece("share/old/file", b"")])
    # nothing outside of the prefix is written
    assert {it for it in below(tmp_path) if not it.startswith("the prefix/")} == before
    stub.write_text("#!/bin/sh\nread line\necho new\n", encoding="ascii")
    with open(where / "lib/registryd/registryd", "rb") as running:
        put(where, stub)
        assert b"stub" in running.read()
    assert run([where / "bin/registryd"], "\n").stdout == "new\n"
    there = below(where)
    assert not {"bin/registry-old", "share/old/file"} & there
    assert {it for it in there if not it.endswith("/")} <= {*prefix.listed(where)}
    # a prefix may be moved
    moved = where.rename(tmp_path / "moved")
    assert run([moved / "bin/registryd"], "\n").stdout == "new\n"
    remove(moved)
    assert not moved.exists()


# ---- what the command says, and which program it takes

@pytest.fixture
def say(stub, monkeypatch):
    """Calls the command where a program of this kind stands, or none, and no library."""
    monkeypatch.setattr(installed.c_library, "standing", lambda: None)

    def call(*words, kind=None):
        monkeypatch.setattr(installed.programs, "current", lambda _: kind and Program(stub, kind, ""))
        return called(command, *map(str, words))
    return call


@pytest.mark.parametrize("words, kind, told", [((), PROVED, "is proved"), (("--unproved",), PROVED, "is proved"),
                                               (("--unproved",), COMPILED, "is not proved")])
def test_which_program_is_taken(say, where, words, kind, told):
    status, said, error = say(where, *words, kind=kind)
    assert (status, error) == (0, "") and f"and {told}\n" in said
    assert told in run([where / "bin/registryd", "--version"]).stdout


@pytest.mark.parametrize("words, kind, told", [((), None, "run ./test or tools/build --proved first"),
                                               ((), COMPILED, "or take the compiled one with --unproved"),
                                               (("--unproved",), None, "run tools/build --compiled first")])
def test_what_has_to_be_run_first(say, where, words, kind, told):
    status, said, error = say(where, *words, kind=kind)
    assert (status, said, error.count("\n")) == (1, "", 1)
    assert error.startswith("tools/install: no program") and told in error
    assert not where.exists()


def test_removing_by_what_the_install_says(say, where):
    _, said, _ = say(where, kind=PROVED)
    (typed_then,) = re.findall("^remove it by: (.*)$", said, re.M)
    assert left_by(["sh", "-c", typed_then], cwd=TOP) == (0, "", "") and not where.exists()
    status, said, error = say("--remove", where)
    assert (status, said) == (1, "") and "nothing is installed below" in error


def test_what_stays_is_named(say, where):
    say(where, kind=PROVED)
    (where / "share/mine").touch()
    told = "".join(f"tools/install: {it} stays, since there is something else in it\n"
                   for it in (where / "share", where))
    assert say("--remove", where) == (0, "", told)
    assert below(where) == {"share/", "share/mine"}


def test_below_another_folder(say, tmp_path):
    made = tmp_path / "made/opt/it"
    status, said, _ = say("/opt/it", "--destdir", tmp_path / "made", kind=PROVED)
    assert (status, said.splitlines()[0]) == (0, f"{made}/bin/registryd is installed, and is proved")
    assert run([made / "bin/registryd", "x"]).stdout == "stub: <x>"
    # what is installed speaks of where it will be
    unit = (made / "lib/systemd/system/registryd.service").read_text(encoding="utf-8")
    assert '\nExecStart="/opt/it/bin/registry" serve' in unit and str(tmp_path) not in unit
    assert say("/opt/it", "--destdir", tmp_path / "made", "--remove")[0] == 0
    assert say("it", "--destdir", tmp_path, kind=PROVED)[0] == 2


def test_without_a_prefix_or_where_it_fails(say, where, stub, tmp_path, monkeypatch):
    status, _, error = say("", kind=PROVED)
    assert (status, error.splitlines()[-1]) == (2, "tools/install: error: the prefix is a folder's name")
    before = below(tmp_path)
    assert re.fullmatch(r"tools/install: .*Not a directory.*\n", say(stub / "prefix", kind=PROVED)[2])
    for fault, told in ((KeyboardInterrupt, "it was broken off"),
                        (OSError(28, "No space left on device"), "No space left on device")):
        def failing(*_, fault=fault):
            raise fault
        monkeypatch.setattr(Path, "symlink_to", failing)
        status, said, error = say(where, kind=PROVED)
        assert (status, said) == (1, "") and re.search(f"{told}.*; nothing was installed\n$", error)
    assert below(tmp_path) == before


def test_names_of_a_checkout():
    for text, wanted in (("tools/check_derivation.py, tools/registryd-etcd.",
                          "registry-check-derivation, registryd-etcd."),
                         ("./registry why, ./registryd", "registry why, registryd")):
        assert installed.renamed(text) == wanted
    for text in ("../tools/registryd-etcd tools/registryd-etcd/x", "./registry-tools ./registry/x ../registry"):
        assert installed.renamed(text) == text


def test_what_systemd_reads():
    for at, place in (("/usr", "/usr"), ("/usr/", "/usr"), ("/a%b", "/a%%b"), ('/a"\\', '/a\\"\\\\')):
        unit, _ = installed.systemd_pieces(at)
        assert f'ExecStart="{place}/bin/registry" serve' in unit.data.decode()
