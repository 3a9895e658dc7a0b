"""The programs and sockets of a service in one process, over stand-ins of what is beside each: how programs are
begun again, which ends are faults of the disk, and where a service listens."""
import asyncio
import grp
import os
import stat
import tempfile
import unittest
from collections import deque
from pathlib import Path
from types import SimpleNamespace
from unittest import mock

import pytest

from registry_cli.failures import Failed
from registry_cli.limits import MOST_LINE_BYTES
from registry_service import disk, keeper, sockets, supervisor
from tests.support.program import files_of_at_most


class Small(supervisor.Supervisor):
    """One whose beginnings fail as the test says."""
    role = "small"

    def __init__(self, *ends):
        self.noted = []
        super().__init__("path", SimpleNamespace(restarted=lambda *told: self.noted.append(told)))
        self.ends, self.losses = list(ends), 0

    async def begin(self):
        self.child = SimpleNamespace(gone=asyncio.get_running_loop().create_future(),
                                     kill=lambda: self.noted.append("killed"))
        fault = self.ends.pop(0) if self.ends else None
        if fault:
            raise fault
        self.begun(1, 1)

    def lost(self):
        self.losses += 1


class TestSupervising:
    def test_a_program_is_begun_again(self):
        async def watched():
            made, slept = Small(None, None, Failed("no"), OSError("never"), *[Failed("no")] * 9), []

            async def sleep(seconds):
                slept.append(seconds)
                if len(slept) > 10:
                    raise asyncio.CancelledError

            assert (made.is_up, made.asked) == (False, deque())
            await made.start()
            assert made.is_up
            give_way = asyncio.sleep
            with mock.patch.object(supervisor.asyncio, "sleep", sleep):
                made.child.gone.set_result("it ended")
                while not slept:
                    await give_way(0)
                made.child.gone.set_result("and again")
                await asyncio.wait([made.keeping])
            return made, slept
        made, slept = asyncio.run(watched())
        # at first at once, and then ever later, up to five seconds
        assert [round(it, 3) for it in slept] == [0.05, 0.05, 0.1, 0.2, 0.4, 0.8, 1.6, 3.2, 5, 5, 5]
        assert [it for it in made.noted if it != "killed"][:4] == [("small", "it ended"), ("small", "and again"),
                                                                   ("small", "no"), ("small", "never")]
        assert (made.is_up, made.losses, made.noted.count("killed")) == (False, 11, 9)

    def test_a_journal_that_another_program_has_changed(self):
        made = Small()
        with pytest.raises(Failed,
                           match=r"\Apath was changed by another program: 3 commands were accepted, and it has 4\Z"):
            made.begun(4, 3)
        assert not made.is_up


class Faults(unittest.IsolatedAsyncioTestCase):
    SAID = "registryd: journal a: b: can't be written: No space left on device (os error 28)\n"
    FAULT = "the journal can't be written: No space left on device"

    async def test_which_ends_are_such_a_fault(self):
        made = keeper.Keeper("path", None)
        self.enterContext(mock.patch.object(disk, "has_room", return_value=False))
        self.addCleanup(lambda: made.disk.looking and made.disk.looking.cancel())
        for said, fault in ((self.SAID, self.FAULT),
                            ("registryd: journal j: can't be synced: Input/output error (os error 5)\n",
                             "the journal can't be synced: Input/output error"),
                            ("registryd: journal j: can't be opened: Read-only file system (os error 30)\n",
                             "the journal can't be opened: Read-only file system"),
                            ("registryd: journal j: can't be cut\n", "the journal can't be cut"),
                            ("registryd: journal j: in use by another session\n", ""),
                            ("registryd: journal j: changed by another program, and not gone on with\n", ""),
                            ("registryd: input failed\n", ""), ("", ""), ("can't be written\n", "")):
            made.child = SimpleNamespace(said=said)
            made.lost()
            assert made.disk.fault == fault, said


class Room(unittest.TestCase):
    def setUp(self):
        self.folder = self.enterContext(tempfile.TemporaryDirectory())
        self.path = os.path.join(self.folder, "journal")
        Path(self.path).write_bytes(b"x" * 100)

    def test_a_line_of_any_length_has_room_at_its_end(self):
        for most, has_room in ((100 + MOST_LINE_BYTES, True), (99 + MOST_LINE_BYTES, False), (50, False), (None, True)):
            with files_of_at_most(most):
                assert disk.has_room(self.path) is has_room, most
        assert (os.listdir(self.folder), os.path.getsize(self.path)) == (["journal"], 100)

    def test_it_is_looked_for_where_the_journal_stands(self):
        link = os.path.join(self.folder, "link")
        os.symlink(self.path, link)
        with mock.patch.object(tempfile, "TemporaryFile", side_effect=PermissionError) as made:
            assert disk.has_room(link)
        made.assert_called_once_with(dir=os.path.realpath(self.folder))
        os.unlink(self.path)
        assert not disk.has_room(self.path)


class Sockets(unittest.TestCase):
    def setUp(self):
        self.path = os.path.join(self.enterContext(tempfile.TemporaryDirectory()), "socket")

    def test_what_is_no_socket_stays(self):
        Path(self.path).write_text("x", encoding="ascii")
        with pytest.raises(Failed, match=rf"\A{self.path}: a socket can't be made there: Address already in use\Z"):
            sockets.bound_file(self.path, 0o600, None)
        assert os.path.getsize(self.path) == 1

    def test_a_socket_that_may_not_be_the_groups_does_not_stay(self):
        with pytest.raises(Failed, match=r"\Athere is no group nobody-of-this-name\Z"):
            sockets.bound_file(self.path, 0o600, "nobody-of-this-name")
        assert not os.path.lexists(self.path)
        with mock.patch.object(os, "chown", side_effect=PermissionError(1, "Operation not permitted")):
            with pytest.raises(Failed,
                               match=rf"\A{self.path}: a socket can't be made there: Operation not permitted\Z"):
                sockets.bound_file(self.path, 0o600, "daemon")
        assert not os.path.lexists(self.path)

    def test_who_reaches_a_socket(self):
        mask = os.umask(0o027)
        self.addCleanup(os.umask, mask)
        for mode in (0o600, 0o660, 0o666):
            with mock.patch.object(os, "chown", side_effect=lambda path,
                                   *to: seen.append((stat.S_IMODE(os.lstat(path).st_mode), to))):
                seen = []
                sockets.bound_file(self.path, mode, "daemon").close()
            # nobody else, until it is the group's
            assert seen == [(0o600, (-1, grp.getgrnam("daemon").gr_gid))]
            assert stat.S_IMODE(os.lstat(self.path).st_mode) == mode
        # what is made after it is made as before
        assert os.umask(0o027) == 0o027
        with mock.patch.object(os, "chown") as chown:
            sockets.bound_file(self.path, 0o600, None).close()
        chown.assert_called_once_with(self.path, -1, -1)

    def test_how_many_files_may_be_opened(self):
        infinite = sockets.resource.RLIM_INFINITY
        for limits, wanted in (((256, 4096), (500, 4096)), ((256, 300), (300, 300)), ((1024, 4096), (1024, 4096)),
                               ((256, infinite), (500, infinite))):
            with mock.patch.object(sockets.resource, "getrlimit", return_value=limits), \
                    mock.patch.object(sockets.resource, "setrlimit") as put:
                sockets.allow_files(400)
            put.assert_called_once_with(sockets.resource.RLIMIT_NOFILE, wanted)
