"""A client begins a front in the program's place, as clients/README.md tells."""
import os
import shlex
from pathlib import Path

import pytest

from registryd import Ended, Registry
from tests.support import fronts
from tests.support.over_small_etcd import Case
from tests.support.program import PROGRAM


class Clients(Case):
    def words(self, seat):
        return [*fronts.ETCD, "--endpoints", self.gate.url, "--seat", str(seat), "--program", PROGRAM]

    def test_two_clients_share_a_journal(self):
        with Registry(self.words(1)) as first, Registry(self.words(2)) as second:
            assert first.publish("log", "1.3.0") == 1
            assert second.publish("app", "1.0.0", {"log": "^1.2"}) == 2
            for registry in (first, second):
                reply = registry.resolve({"app": "^1"})
                assert (reply.revision, reply.selected) == (2, {"app": "1.0.0", "log": "1.3.0"})
        assert len(self.cells()) == 3

    def test_a_script_is_a_program_with_words(self):
        script = Path(self.folder, "front")
        script.write_text(f'#!/bin/sh\nexec {shlex.join(self.words(3))} "$@"\n')
        script.chmod(0o755)
        with Registry(script, workers=2) as registry:
            assert registry.publish("app", "1.0.0") == 1
        assert self.journal().endswith("\nend 1\n")

    def test_it_takes_no_journal_and_no_budget(self):
        for given in ({"journal": Path(self.folder, "a.journal")}, {"budget": 5}):
            with pytest.raises(Ended) as caught:
                Registry(self.words(1), **given)
            assert caught.value.status == 2
        assert os.listdir(self.folder) == []
