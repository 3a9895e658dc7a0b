"""Fronts over etcd whose replicas learnt differently, by other requests in other orders, select the same at a place."""
import json

from bench import workloads
from tests.support import over_small_etcd

STAMPS = ("place", "revision", "seat")


def body(reply):
    """What a reply says, without what tells where and by whom."""
    return {name: it for name, it in json.loads(reply).items() if name not in STAMPS}


class Replicas(over_small_etcd.Case):
    def answers(self, seed):
        """What three fronts answer to the same requests at one place: the first was asked nothing before, the second
        each of them alone, and the third each alone in the other order, before a last command that changes none of
        them."""
        lines, requests = workloads.conflicting(12, seed)
        self.etcd = self.founded.copy()
        gate = self.opened()
        fronts = [self.front(seat, gate=gate) for seat in (1, 2, 3)]
        fronts[0].ask(*lines)
        for request in requests:
            fronts[1].ask(request)
        for request in reversed(requests):
            fronts[2].ask(request)
        fronts[0].ask('{"op":"publish","name":"aside","version":"1.0.0","needs":[]}')
        replies = [front.ask(*requests) for front in fronts]
        assert {json.loads(it)["place"] for told in replies for it in told} == {len(lines) + 1}
        for front in fronts:
            self.ended(front)
        return [[body(it) for it in told] for told in replies]

    def test_what_was_learnt_does_not_matter(self):
        for seed in (1, 2):
            first, second, third = self.answers(seed)
            assert sum("selected" in it for it in first) > 10
            assert second == first
            assert third == first
