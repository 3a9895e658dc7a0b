"""`registry journal renew`: worked registries, and random ones of which the program says what is selected before and
after."""
import json
import os
import random

from tests.support.made_lines import Maker
from tests.support.program import resolve, run
from tests.support.registry_folder import Folder

# of made_lines, by hand
RISING = ["0.0.7", "0.3.1", "1.0.0-alpha.1", "1.0.0", "1.1.0", "1.2.3", "2.0.0-rc.1", "2.0.0", "2.1.0+build.5"]


def lines_of(text):
    """The lines of a journal that are commands, as values."""
    return [json.loads(it) for it in text.split("\n")[1:-2]]


class Renew(Folder):
    def renew(self, *words):
        return self.registry("journal", "renew", self.journal, self.path("new.journal"), *words)

    def asked(self, journal, *lines):
        """The replies of a session that begins with a journal, without their revisions."""
        done = run(["serve", "--workers", "1", "--load", self.path(journal)],
                   "".join(line + "\n" for line in lines).encode())
        self.assertEqual((done.returncode, done.stderr), (0, b""))
        return [{name: it for name, it in json.loads(reply).items() if name != "revision"}
                for reply in done.stdout.splitlines()]

    def test_random_registries(self):
        selected = 0
        for seed in range(16):
            with self.subTest(seed=seed):
                rng = random.Random(seed)
                old, locks = self.random_registry(rng)
                most = rng.choice([0, 1, 1, 2, 3])
                words = ["--newest", str(most), *(["--lock", *locks] if locks else [])]
                self.assertEqual(self.renew(*words)[0], 0)
                self.compare(old, lines_of(self.text("new.journal")), locks, most)
                selected += len(locks)
                os.unlink(self.path("new.journal"))
        self.assertGreater(selected, 10)

    def random_registry(self, rng):
        """A random journal, of which the commands are answered, and lock files of what is selected in it for random
        requests."""
        maker = Maker(rng)
        lines = [json.dumps(it) for it in (maker.command() for _ in range(150)) if it["version"] in RISING]
        done = run(["serve", "--workers", "1", "--save", self.journal], "".join(line + "\n" for line in lines).encode())
        old = [json.loads(line) for line, reply in zip(lines, done.stdout.splitlines()) if b'"ok"' in reply]
        requests = [json.dumps({**maker.request(), "lock": []}) for _ in range(12)]
        replies = [it for it in self.asked("registry.journal", *requests) if len(it.get("selected", [])) > 1]
        return old, [self.path(f"{number}.lock", json.dumps(it["selected"])) for number, it in enumerate(replies[:3])]

    def compare(self, old, new, locks, most):
        """What the new journal has: publications of the old one in its order with their yanks, the newest, what each
        needs, each lock."""
        keys = [(it["name"], it["version"]) for it in new if it["op"] == "publish"]
        kept = [it for it in old if it["op"] == "publish" and (it["name"], it["version"]) in keys]
        self.assertEqual([it for it in new if it["op"] == "publish"], kept)
        before, after = (dict(self.asked(it, '{"op":"list"}')[0]["packages"])
                         for it in ("registry.journal", "new.journal"))
        for name, versions in before.items():
            rest = [it for it in versions if it in after.get(name, [])]
            self.assertEqual(rest, after.get(name, []))
            free = sorted((it[0] for it in versions if not it[1]), key=RISING.index)
            self.assertLessEqual({*free[len(free) - most:]} if most else set(), {it[0] for it in rest})
        alone = [resolve(f"{name} ={version.partition('+')[0]}") for name, version in keys]
        one, other = self.asked("registry.journal", *alone), self.asked("new.journal", *alone)
        self.assertEqual(["selected" in it for it in one if "selected" in it],
                         ["selected" in there for it, there in zip(one, other) if "selected" in it])
        for path in locks:
            entries = json.loads(self.text(path))
            asked = resolve(*(f"{name} ={version.partition('+')[0]}" for name, version in entries),
                            lock=[f"{name} {version}" for name, version in entries])
            self.assertEqual(self.asked("new.journal", asked), [{"selected": entries}])
