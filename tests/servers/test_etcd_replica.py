"""The replica of a front over etcd: what memory it takes, and what the front does where it has none for a search."""
import re
from pathlib import Path

from bench.lines import publish_lines
from registry_cli.limits import MOST_COMMANDS
from registry_etcd.replica import Replica
from registry_etcd.snapshot import journal_text
from tests.program.test_memory_limits import ALL, HOLES, LIMIT
from tests.support import program
from tests.support.over_small_etcd import Case, accepted, refused
from tests.support.program import PROGRAM, TOP, resolve


class Replicas(Case):
    def test_a_search_that_would_take_all_memory(self):
        # it is answered with 18, as by the program without a front, and the lines behind it as ever
        path, lines = Path(self.folder, "program"), HOLES
        path.write_text(f'#!/bin/sh\nulimit -v {LIMIT}\nexec {PROGRAM} "$@"\n', encoding="ascii")
        path.chmod(0o755)
        asked = [*lines, ALL, program.publish("more", "1.0.0"), ALL, resolve("more *")]
        told = self.done("serve", "--program", path, given="".join(line + "\n" for line in asked).encode()).splitlines()
        count = len(lines)
        selected = f'{{"place":{count + 1},"revision":{count + 1},"seat":1,"selected":[["more","1.0.0"]]}}'
        assert told[count:] == [refused(18, "NoMemory", count, count), accepted(count + 1),
                                refused(18, "NoMemory", count + 1, count + 1), selected]

    def test_the_memory_of_a_replica_is_what_the_page_says(self):
        told = int(re.search(r"memory of a replica: about (\d+) MB at 49,152 publications",
                             Path(TOP, "docs", "SCALE.md").read_text(encoding="utf-8"))[1])
        commands = [program.journal_line(line).encode() for line in publish_lines(MOST_COMMANDS)]
        replica = Replica(PROGRAM, 1, journal_text(commands))
        self.addCleanup(replica.end)
        status = Path(f"/proc/{replica.child.pid}/status").read_text(encoding="ascii")
        taken = int(re.search(r"VmHWM:\s+(\d+) kB", status)[1]) / 1000
        assert abs(taken - told) < told / 4
