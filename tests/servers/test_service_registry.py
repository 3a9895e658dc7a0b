"""The command `registry` asks a service that is begun again meanwhile: for all else `tests/transcripts/service.t`."""
import json
import time
from concurrent.futures import ThreadPoolExecutor
from unittest import mock

from registry_cli import connected
from tests.support.program import PATIENCE
from tests.support.services import Case


class Again(Case):
    def restarts(self, service, count):
        """Kills it so many times, and begins it anew each time."""
        for _ in range(count):
            time.sleep(0.3)
            service.running.kill()
            service.wait()
            service = self.begin()
        return service

    @staticmethod
    def written(service, commands):
        """The replies to commands of which ten are asked together."""
        session, replies = connected.Connected(service.socket), []
        for at in range(0, len(commands), 10):
            replies += session.ask(*commands[at:at + 10])
            time.sleep(0.02)
        session.leave()
        return replies

    def test_each_command_is_carried_out_once(self):
        # so long a begin may take on a busy machine
        self.enterContext(mock.patch.object(connected, "PATIENCE", PATIENCE))
        service = self.begin()
        commands = [{"op": "publish", "name": "log", "version": f"1.{minor}.0", "needs": []} for minor in range(600)]
        with ThreadPoolExecutor() as pool:
            writing = pool.submit(self.written, service, commands)
            last = self.restarts(service, 3)
            replies = writing.result()
        assert replies == [{"ok": True, "revision": number} for number in range(1, 601)]
        assert [json.loads(it)["version"] for it in last.commands()] == [it["version"] for it in commands]
