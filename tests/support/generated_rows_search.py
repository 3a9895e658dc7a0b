"""Tables of `walk`, of `solver` and of what a seat learns that would be too large to be kept: each public function
makes some.

A table is a title and its rows; a row's member `gives` is what the call is wanted to answer, or what the function in
its member `by` is to give of that."""
from collections.abc import Iterator
from typing import Any

from registry_cli.limits import MOST_DERIVATION_LINES as MOST
from registry_cli.limits import MOST_OFFERED_LINES
from tests.support.generated_rows import KEPT_SETS, entered, pairs, premise, published, row, tables
from tests.support.program import publish
from tests.support.registry_folder import pigeons

Rows = list[dict[str, Any]]


# ---- what is learnt

def _line(conclusion: list[Any]) -> dict[str, Any]:
    """A line from two premises, that version 0 of package 1 needs 2, and version 0 of that needs 3."""
    return {"conclusion": conclusion, "causes": [premise(1, 2, [0]), premise(2, 3, [0])], "pivot": 2}


@tables
def so_many_lines_are_learnt() -> Iterator[tuple[str, Rows]]:
    follows = _line([[1, {"in": [0]}], [3, {"not": [0]}]])
    other = _line([[1, {"in": [0]}], [3, {"not": [1]}]])
    steps = [[1, "publish", {"name": name, "version": "1.0.0", "needs": pairs(needs)}]
             for name, *needs in (("a", "b ^1.0.0"), ("b", "c ^1.0.0"), ("c",))]
    steps += [[1, "learn", {"lines": [follows] * count + [last]}]
              for count, last in ((MOST, follows), (MOST, other), (MOST - 1, other), (MOST - 1, follows))]
    gives = [[1, 1], [2, 2], [3, 3], {"refused": 20}, {"refused": 20}, {"refused": 21}, [4, 3]]
    yield f"{MOST} lines are learnt, and {MOST + 1} are not, whether they follow or not", [
        row("chronicle", "steps", gives, capacity=8, seats=[1, 2], steps=steps)]


# ---- walk

@tables
def two_packages_that_need_each_other_are_chosen_by_any_requirement() -> Iterator[tuple[str, Rows]]:
    """The sets of the first `KEPT_SETS` requirements of a package are kept, and the others test each version."""
    rows = published(("a", "1.0.0", "b ^1.0.0"), ("b", "1.0.0", "a ^1.0.0"),
                     *((f"user{n}", "1.0.0", f"a >=0.{n}.0", f"b >=0.{n}.0") for n in range(KEPT_SETS + 2)))
    for number in (0, KEPT_SETS - 2, KEPT_SETS - 1, KEPT_SETS, KEPT_SETS + 1):
        chosen = [["a", "1.0.0"], ["b", "1.0.0"], [f"user{number}", "1.0.0"]]
        rows += [row("walk", call, {"selected": chosen}, needs=[[f"user{number}", "*"]], lock=[])
                 for call in ("choose_newest", "choose_newest_by_propagation")]
    yield "Two packages that need each other are chosen, whether the set of who asks for them is kept or not", rows


# ---- solver

def selection(answer: dict[str, Any]) -> Any:
    """What is selected, or the error; not what is offered."""
    return answer.get("selected", answer)


def _beside_pigeons(count: int) -> Rows:
    """Pigeons in one hole less, and `top`, whose newest version needs all of them."""
    lines, birds = pigeons(count)
    return entered([*lines, publish("top", "1.0.0"), publish("top", "2.0.0", [f"{bird} *" for bird in birds])])


@tables
def what_one_conflict_each_rules_out() -> Iterator[tuple[str, Rows]]:
    """Each of three packages has a higher version that one conflict rules out, as pub's doc/solver.md,
    "Performing Conflict Resolution", shows."""
    rows = published(*(it for k in range(3) for it in (
        (f"foo{k}", "2.0.0", f"bar{k} ^1.0.0"), (f"bar{k}", "1.0.0", f"foo{k} ^1.0.0"), (f"foo{k}", "1.0.0"))))
    needs, chosen = [[f"foo{k}", ">=1.0.0"] for k in range(3)], [[f"foo{k}", "1.0.0"] for k in range(3)]
    rows += [row("solver", call, chosen, by=selection, needs=needs, lock=[], budget=budget)
             for call in ("solve", "solve_with") for budget in (3, 4)]
    yield "Three packages whose higher versions one conflict each rules out are selected within three conflicts", rows


@tables
def an_oracle_that_gives_up_or_errs_changes_no_answer() -> Iterator[tuple[str, Rows]]:
    """pub's doc/solver.md, "Performing Conflict Resolution"; nothing publishes `zed`."""
    rows = published(("foo", "2.0.0", "bar ^1.0.0"), ("bar", "1.0.0", "foo ^1.0.0"), ("foo", "1.0.0"))
    rows += [row("solver", "solve_by", gives, by=selection, needs=[need], lock=[], oracle=oracle, explain=False)
             for oracle in ("lost", "selection", "refusal", "newest", "ruling", "first")
             for need, gives in ((["foo", ">=1.0.0"], [["foo", "1.0.0"]]), (["zed", "*"], None))]
    yield "Oracles that give up, or say something false", rows


@tables
def a_first_look_that_leaves_a_request_open() -> Iterator[tuple[str, Rows]]:
    """Three pigeons and two holes: that the newest version of `top`, which needs all three, can't be had shows only
    after conflicts."""
    rows = _beside_pigeons(3)
    rows += [row("solver", call, gives, by=selection, needs=[["top", "*"]], lock=[], conflicts=0)
             for call, gives in (("solve_at_first", {"refused": 22}), ("solve_looked_at", [["top", "1.0.0"]]))]
    yield "A request that a first look left open is answered", rows


@tables
def a_lock_where_another_package_gives_way() -> Iterator[tuple[str, Rows]]:
    """pub's doc/solver.md, "Performing Conflict Resolution"; docs/SOLVER.md, Decision Making."""
    rows = published(("foo", "2.0.0", "bar ^1.0.0"), ("bar", "1.0.0", "foo ^1.0.0"), ("foo", "1.0.0"),
                     ("log", "1.0.0"), ("log", "1.1.0"))
    rows += [row("solver", "solve_with", [["foo", "1.0.0"], ["log", log]], by=selection,
                 needs=[["foo", ">=1.0.0"], ["log", "^1"]], lock=lock)
             for lock, log in (([], "1.1.0"), ([["log", "1.0.0"]], "1.0.0"))]
    yield "The version that the lock names is kept, where only another package has to give way", rows


def _on_first(answer: dict[str, Any]) -> dict[str, Any]:
    """The requirements on package 1 in a derivation, with the versions that have each."""
    causes = [cause for line in answer["derivation"] for cause in line["causes"] if cause.get("target") == 1]
    return {cause["need"]: cause["versions"] for cause in causes}


@tables
def what_very_different_versions_have_in_common_is_found() -> Iterator[tuple[str, Rows]]:
    """docs/SOLVER.md, "What differs from doc/solver.md": versions that depend on the same share a premise. Each of
    these has eight dependencies that no other version, or none outside of its group of three, has; and among them or
    behind them one on `q`."""
    targets = [("q", "1.0.0"), ("q", "2.0.0"), *((f"t{k}", "1.0.0") for k in range(8))]
    alone: list[Any] = [[f"t{k} >=0.{version}.{k}" for k in range(8)] for version in range(40)]
    for version, needs in enumerate(alone):
        needs.insert(version % 9, "q ^2")
    grouped = [[*(f"t{k} >=0.{version // 3}.{k}" for k in range(8)), "q ^2" if version // 3 % 2 else "q >=2.0.0"]
               for version in range(120)]
    by_group = {"^2": [k for k in range(120) if k // 3 % 2], ">=2.0.0": [k for k in range(120) if not k // 3 % 2]}
    for needs, wanted in ((alone, {"^2": [*range(40)]}), (grouped, by_group)):
        versions = [("a", f"1.{version}.0", *it) for version, it in enumerate(needs)]
        yield f"{len(needs)} versions share what they have in common", [
            *published(*targets, *versions),
            row("solver", "solve_with", wanted, by=_on_first, needs=[["a", "*"], ["q", "^1"]], lock=[])]


def _counts(answer: dict[str, Any]) -> list[int]:
    """How many lines each that is offered has."""
    return [len(lines) for lines in answer["offered"]]


def _count_as_cited(lines: Rows) -> int:
    """How many lines the last one takes where each is counted as often as it is cited."""
    counts: list[int] = []
    for line in lines:
        counts.append(1 + sum(counts[cause["line"] - 1] for cause in line["causes"] if "line" in cause))
    return counts[-1]


def _beyond_the_most(answer: dict[str, Any]) -> list[bool]:
    """Of the offer that takes most lines where one is counted as often as it is cited: whether these are too many, and
    whether its lines are, each counted once."""
    most = max(answer["offered"], key=_count_as_cited)
    return [_count_as_cited(most) > MOST, len(most) > MOST]


def _tops(count: int, length: int) -> Rows:
    """Packages "t0" and on, each of which needs "x" in one version, and a row of packages that ends in "x" in the
    other. So none of them can be chosen in its higher version, and each takes a line for each package of the row and
    one more."""
    tops = [it for number in range(count) for it in ((f"t{number}", "0.9.0"), (f"t{number}", "1.0.0", "x ^1", "p1 *"))]
    row_of_packages = [(f"p{number}", "1.0.0", f"p{number + 1} *") for number in range(1, length)]
    return published(("x", "1.0.0"), ("x", "2.0.0"), *tops, *row_of_packages, (f"p{length}", "1.0.0", "x ^2"))


@tables
def as_many_lines_as_may_be_learnt_are_offered() -> Iterator[tuple[str, Rows]]:
    for count, offered in [(3, [4]), (MOST - 1, [MOST]), (MOST, [])]:
        yield f"What is shown by {count + 1} lines is {'' if offered else 'not '}offered", [
            *_tops(1, count), row("solver", "solve", offered, by=_counts, needs=[["t0", "*"]], lock=[])]


@tables
def offers_have_so_many_lines_together() -> Iterator[tuple[str, Rows]]:
    # each takes as many lines as may be
    most = MOST_OFFERED_LINES // MOST
    for count, offered in [(most, most), (most + 1, most), (2 * most, most)]:
        needs = [[f"t{number}", "*"] for number in range(count)]
        yield f"Of {count} lines that take {MOST} lines each, {offered} are offered", [
            *_tops(count, MOST - 1), row("solver", "solve", [MOST] * offered, by=_counts, needs=needs, lock=[])]


@tables
def a_line_that_is_cited_again_counts_once() -> Iterator[tuple[str, Rows]]:
    # a refusal after so long a search teaches nothing, so there is a version that asks for no pigeon
    rows = _beside_pigeons(8)
    rows.append(row("solver", "solve", [True, False], by=_beyond_the_most, needs=[["top", "*"]], lock=[]))
    yield f"What takes more than {MOST} lines as they are cited, and no more where each counts once, is offered", rows
