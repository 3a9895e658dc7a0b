"""Tables that are too long to be kept, or have bytes that a text can't: a function makes each, and its name and its
first line say what it shows. A row is a request line in bytes, without its line feed, and its reply."""
import json
from collections.abc import Iterable, Iterator
from typing import Any

from registry_cli.limits import (
    MOST_COMMANDS, MOST_LINE_BYTES, MOST_NAME_BYTES, MOST_NEEDS, MOST_PACKAGES, MOST_REQUIREMENT_BYTES,
    MOST_VERSION_BYTES, MOST_VERSIONS)
from tests.support.program import publish, resolve, unyank, yank

LIST = b'{"op":"list"}'
EMPTY = '{"packages":[],"revision":0}'
BAD_LINE = '{"error":19,"name":"BadLine","revision":0}'


def accepted(lines: Iterable[bytes], revision: int = 0) -> list[tuple[bytes, str]]:
    """Each of these lines is accepted, from this revision on."""
    return [(line, '{"ok":true,"revision":%d}' % number) for number, line in enumerate(lines, revision + 1)]


def compact(value: Any) -> bytes:
    return json.dumps(value, separators=(",", ":")).encode()


def long_version(number: int) -> str:
    """A version whose text has some 250 bytes, of at most 256."""
    return f"{number}.0.0-{number:0240}x"


def lines_at_the_limit_of_their_length() -> Iterator[tuple[bytes, str]]:
    """A line of the most bytes is read, one byte more is too much, and the line behind it is read again."""
    for line, reply in ((LIST.rjust(MOST_LINE_BYTES), EMPTY), (LIST.ljust(MOST_LINE_BYTES), EMPTY),
                        (LIST.rjust(MOST_LINE_BYTES + 1), BAD_LINE),
                        (LIST.ljust(MOST_LINE_BYTES + 1), BAD_LINE), (b"x" * 5_000_000, BAD_LINE)):
        yield line, reply
        yield LIST, EMPTY


def values_in_one_another() -> Iterator[tuple[bytes, str]]:
    """The object and 126 arrays in one another nest 127 deep, which is read where a later member of the name counts."""
    for depth, reply in ((126, EMPTY), (127, BAD_LINE), (200, BAD_LINE)):
        yield b'{"op":' + b"[" * depth + b"]" * depth + b',"op":"list"}', reply
    yield b'{"op":' + b"[" * 200 + b"]" * 200 + b"}", BAD_LINE
    yield b"[" * 200 + b"]" * 200, BAD_LINE


def needs_past_the_most_of_a_publication() -> Iterator[tuple[bytes, str]]:
    """All needs of a publication are judged, however many there are: their names, then their requirements."""
    def line(name: str, requirement: str) -> bytes:
        needs = [[f"b{number}", "^1"] for number in range(MOST_NEEDS + 1)] + [[name, requirement]]
        return compact({"op": "publish", "name": "a", "version": "1.0.0", "needs": needs})

    yield line("b", "none"), '{"error":3,"name":"BadRequirement","revision":0}'
    yield line("B", "none"), '{"error":1,"name":"BadName","revision":0}'
    # so the line is read, and it is the registry that refuses it
    yield line("b", "^1"), '{"error":6,"name":"TooManyDependencies","revision":0}'
    yield line(f"b{MOST_NEEDS}", "^1"), '{"error":4,"name":"RepeatedDependency","revision":0}'
    yield line("a", "^1"), '{"error":5,"name":"SelfDependency","revision":0}'


def needs_past_the_most_of_a_request() -> Iterator[tuple[bytes, str]]:
    """Of a request too all needs are judged, those past the most that it may have among them."""
    def line(count: int, name: str, requirement: str) -> bytes:
        return compact({"op": "resolve", "needs": [[f"b{number}", "^1"] for number in range(count)]
                        + [[name, requirement]]})

    more = MOST_NEEDS + 1
    yield line(MOST_NEEDS - 1, "c", "^1"), '{"refused":true,"revision":0}'
    yield line(MOST_NEEDS, "c", "^1"), '{"error":6,"name":"TooManyDependencies","revision":0}'
    yield line(MOST_NEEDS, "b0", "^1"), '{"error":4,"name":"RepeatedDependency","revision":0}'
    yield line(more, f"b{MOST_NEEDS}", "^1"), '{"error":4,"name":"RepeatedDependency","revision":0}'
    yield line(more, f"b{MOST_NEEDS}", "none"), '{"error":3,"name":"BadRequirement","revision":0}'
    yield line(more, "B", "none"), '{"error":1,"name":"BadName","revision":0}'


def a_selection_longer_than_the_room_of_replies() -> Iterator[tuple[bytes, str]]:
    """A selection of 270 packages, each with a long version, is told whole."""
    names = [f"a{number}" for number in range(270)]
    # each but the last needs the next one
    needs = [[[f"a{number + 1}", f">={number + 1}.0.0-0"]] if number < 269 else [] for number in range(270)]
    yield from accepted(
        [compact({"op": "publish", "name": name, "version": long_version(number), "needs": needs[number]})
         for number, name in enumerate(names)])
    rows = sorted([name, long_version(number)] for number, name in enumerate(names))
    reply = compact({"revision": 270, "selected": rows}).decode()
    assert len(reply) > 65_536
    yield compact({"op": "resolve", "needs": [["a0", ">=0.0.0-0"]]}), reply


def the_most_versions_and_dependencies() -> Iterator[tuple[bytes, str]]:
    """A package has as many versions as it may have, and a version as many dependencies; one more is refused."""
    def line(name: str, version: str, needs: int) -> bytes:
        return publish(name, version, [f"d{number} *" for number in range(needs)]).encode()

    def refused(number: int, name: str) -> str:
        return f'{{"error":{number},"name":"{name}","revision":{MOST_VERSIONS}}}'

    yield from accepted([line("a", f"{number}.0.0", 0) for number in range(MOST_VERSIONS)])
    yield line("a", f"{MOST_VERSIONS}.0.0", 0), refused(8, "TooManyVersions")
    yield line("a", "5.0.0+again", 0), refused(7, "AlreadyPublished")
    yield line("b", "0.0.0", MOST_NEEDS + 1), refused(6, "TooManyDependencies")
    yield from accepted([line("b", "0.0.0", MOST_NEEDS)], MOST_VERSIONS)


def the_most_names_of_packages() -> Iterator[tuple[bytes, str]]:
    """As many names are numbered as may be, those that are only needed among them: one that would number more is
    refused."""
    def line(name: str, needs: int) -> bytes:
        return publish(name, "1.0.0", [f"{name}-{number} ^1" for number in range(needs)]).encode()

    # of 65,535 names 1,008 lines of 1 + 64 take 65,520, and 15 are left
    lines, left = divmod(MOST_PACKAGES, 1 + MOST_NEEDS)
    yield from accepted([line(f"p{number}", MOST_NEEDS) for number in range(lines)])
    yield line("q", left), f'{{"error":9,"name":"TooManyPackages","revision":{lines}}}'
    yield from accepted([line("q", left - 1)], lines)
    yield line("r", 0), f'{{"error":9,"name":"TooManyPackages","revision":{lines + 1}}}'
    yield from accepted([line("p5-3", 0)], lines + 1)


def the_most_commands_of_a_session() -> Iterator[tuple[bytes, str]]:
    """As many commands are accepted as may be, here a publication that is yanked and restored. Then none is, and a
    refusal of a lower number is told before that."""
    turns = [yank("a", "1.0.0").encode(), unyank("a", "1.0.0").encode()]
    yield from accepted([publish("a", "1.0.0").encode(), *(turns[number % 2] for number in range(MOST_COMMANDS - 1))])
    full = f'{{"error":10,"name":"JournalFull","revision":{MOST_COMMANDS}}}'
    for line in (yank("a", "2.0.0"), yank("a", "1.0.0"), unyank("a", "1.0.0"), publish("b", "0.0.0")):
        yield line.encode(), full
    for line, lower in ((publish("a", "1.0.0"), '7,"name":"AlreadyPublished"'),
                        (publish("q", "1.0.0", ["q ^1"]), '5,"name":"SelfDependency"')):
        yield line.encode(), full.replace('10,"name":"JournalFull"', lower)


def refused_by(conflicts: int, published: list[str], needs: list[str]) -> Iterator[tuple[bytes, str]]:
    """After these publications, a request that meets so many conflicts is refused by that budget, and not by a lower
    one. The lower ones come first, since an answer would spare the next ones a conflict."""
    yield from accepted([line.encode() for line in published])
    revision = len(published)
    spent = '{"error":22,"name":"BudgetSpent","revision":%d}' % revision
    refused = '{"refused":true,"revision":%d}' % revision
    budget: int | None
    for budget in range(conflicts):
        yield resolve(*needs, budget=budget).encode(), spent
    for budget in (conflicts, 4_294_967_295, None):
        yield resolve(*needs, budget=budget).encode(), refused


def beside(count: int, *published: str) -> tuple[list[str], list[str]]:
    """Publications of so many packages, each in two versions, and these; and needs on them, on `x` and on `t`."""
    names = [f"p{number}" for number in range(1, count + 1)]
    packages = [publish(name, version) for name in names for version in ("1.0.0", "1.1.0")]
    return [*packages, *published, publish("t", "1.0.0"),
            publish("t", "2.0.0")], [*(f"{name} *" for name in names), "x *", "t ^1.0.0"]


def a_conflict_that_goes_back_over_many_decisions() -> Iterator[tuple[bytes, str]]:
    """The first conflict is on `y` and goes back to the first level, the second is on `x` and ends the search."""
    yield from refused_by(2, *beside(40, publish("x", "1.0.0", ["y *"]), publish("x", "1.1.0", ["y *"]),
                                     publish("y", "1.0.0", ["t ^2.0.0"])))


def of_four_versions(*needs: str) -> list[str]:
    """Four versions of `x`, which have these needs, and of `y`."""
    return [*(publish("x", f"1.{minor}.0", [need]) for minor, need in enumerate(needs)),
            *(publish("y", f"1.{minor}.0", ["t ^2.0.0"]) for minor in range(4))]


def what_many_versions_have_in_common_waits_for_no_decision() -> Iterator[tuple[bytes, str]]:
    """With four versions of `x` and of `y` each, what they need follows at once, so the first conflict ends the
    search."""
    yield from refused_by(1, *beside(8, *of_four_versions("y *", "y *", "y *", "y *")))


def budgets_in_other_words() -> Iterator[tuple[bytes, str]]:
    """Where the highest version needs something else, `x` is decided, and the search goes back: a budget of two
    conflicts serves in whatever words it is told, and a budget of one is spent."""
    published, needs = beside(8, *of_four_versions("y *", "y *", "y *", "y >=1.0.0"))
    yield from accepted([line.encode() for line in published])
    rest = b'"op":"resolve","needs":' + compact(json.loads(resolve(*needs))["needs"])
    spent, refused = '{"error":22,"name":"BudgetSpent","revision":26}', '{"refused":true,"revision":26}'
    texts = (b'{%s,"budget":N}', b'{"budget":N,%s}', b'{"budget" : N ,%s}', b'{%s,"b\\u0075dget":N}',
             b'{%s,"lock":[],"budget":N}',
             b'{%s,"budget":1.0,"budget":N}', b'{%s,"budget":0,"budget":4294967295,"budget":N}')
    for budget, reply in ((b"0", spent), (b"1", spent), (b"2", refused), (b"3", refused), (b"20", refused),
                          (b"4294967295", refused), (b"4294967296", BAD_LINE.replace(":0}", ":26}"))):
        for text in texts:
            yield text.replace(b"N", budget) % rest, reply
    yield b"{%s}" % rest, refused
    yield b'{%s,"lock":[]}' % rest, refused


def texts_at_the_limits_of_their_lengths() -> Iterator[tuple[bytes, str]]:
    """A name, a version and a requirement have at most so many bytes, and a requirement at most so many comparators."""
    name, version, need = "a".ljust(MOST_NAME_BYTES,
                                    "b"), "1.0.0-".ljust(MOST_VERSION_BYTES,
                                                         "a"), "^1.0.0".ljust(MOST_REQUIREMENT_BYTES)
    most = 31 * ">=1," + "<2"
    yield publish(name, "1.5.0").encode(), '{"ok":true,"revision":1}'
    yield publish("a", version).encode(), '{"ok":true,"revision":2}'
    for text in (need, most):
        yield resolve(f"{name} {text}").encode(), '{"revision":2,"selected":[["%s","1.5.0"]]}' % name
    for line, number, told in ((publish(name + "b", "1.0.0"), 1, "BadName"),
                               (publish("b", version + "a"), 2, "BadVersion"),
                               (resolve(f"{name} {need} "), 3, "BadRequirement"),
                               (resolve(f"{name} >=1,{most}"), 3, "BadRequirement")):
        yield line.encode(), '{"error":%d,"name":"%s","revision":2}' % (number, told)


def a_chain_of_packages() -> Iterator[tuple[bytes, str]]:
    """A chain of 10,000 packages, each of which needs the next, is selected once its last package is published."""
    count = 10_000
    names = [f"p{number}" for number in range(count)]
    yield from accepted([publish(name, "1.0.0", [f"{after} ^1"]).encode() for name, after in zip(names, names[1:])])
    yield resolve("p0 *").encode(), '{"refused":true,"revision":%d}' % (count - 1)
    yield from accepted([publish(names[-1], "1.0.0").encode()], count - 1)
    yield resolve("p0 *").encode(), compact({"revision": count,
                                             "selected": sorted([name, "1.0.0"] for name in names)}).decode()


def a_chain_that_is_searched() -> Iterator[tuple[bytes, str]]:
    """The newest version of each link asks for a version that is not there, so that no preference serves."""
    count = 2_000
    links = [(f"n{k}", "1.0.0", [f"n{k + 1} ^1"] if k + 1 < count else []) for k in range(count)]
    yield from accepted([line.encode() for name, version, needs in links
                         for line in (publish(name, version, needs), publish(name, "1.1.0", ["gone ^1"]))])
    chosen = sorted([name, "1.0.0"] for name, *_ in links)
    yield resolve("n0 *").encode(), compact({"revision": 2 * count, "selected": chosen}).decode()


def a_megabyte_of_needs() -> Iterator[tuple[bytes, str]]:
    """Of as many needs as a line has room for, one that repeats a name is found, wherever it stands."""
    needs = [["%x" % (number + 0xa00000), "1"] for number in range(70_000)]
    needs = needs[:int(len(needs) * (MOST_LINE_BYTES - 100) / len(compact(needs)))]
    for _ in range(4):
        for last, number, name in (["p0", "1"], 6, "TooManyDependencies"), (needs[0], 4, "RepeatedDependency"):
            line = compact({"op": "publish", "name": "p", "version": "1.0.0", "needs": [*needs, last]})
            assert MOST_LINE_BYTES - 1000 < len(line) <= MOST_LINE_BYTES
            yield line, f'{{"error":{number},"name":"{name}","revision":0}}'


SESSIONS = [lines_at_the_limit_of_their_length, values_in_one_another, needs_past_the_most_of_a_publication,
            needs_past_the_most_of_a_request, a_selection_longer_than_the_room_of_replies,
            the_most_versions_and_dependencies, the_most_names_of_packages, the_most_commands_of_a_session,
            budgets_in_other_words, texts_at_the_limits_of_their_lengths, a_chain_of_packages, a_chain_that_is_searched,
            a_conflict_that_goes_back_over_many_decisions, a_megabyte_of_needs,
            what_many_versions_have_in_common_waits_for_no_decision]


def sessions() -> Iterator[tuple[str, str, list[tuple[bytes, str]]]]:
    """The name, the title and the rows of each table."""
    for table in SESSIONS:
        yield table.__name__, " ".join(str(table.__doc__).split()), list(table())
