"""Snapshots of a journal in etcd and in files: over a small etcd without a network."""
import json
import os
import tempfile
import unittest
from pathlib import Path
from unittest import mock

import pytest

from registry_etcd import snapshot
from registry_etcd.cells import Cell, Cells
from registry_etcd.gateway import Fault, Unanswered
from registry_etcd.snapshot import Snapshots, Standing, journal_text, load, page_names, read_journal, save
from tests.support.fake_etcd import SmallEtcd

YANK = b'{"name":"a","op":"yank","version":"1.0.0"}'
PUBLISH = b'{"name":"a","needs":[],"op":"publish","version":"1.0.0"}'


class TestTexts:
    NOTE = {"journal": "j", "place": 3, "stamp": 9, "writers": {"w": 2}}

    def test_a_journals_file(self):
        assert journal_text([]) == b"registry-journal 1\nend 0\n"
        assert journal_text([PUBLISH, YANK]) == b"registry-journal 1\n" + PUBLISH + b"\n" + YANK + b"\nend 2\n"
        learnt = b"registry-journal 2\n" + PUBLISH + b'\n{"derivation":[],"op":"learn"}\nend 2\n'
        for text, wanted in ((b"registry-journal 1\nend 0\n", []), (learnt, [PUBLISH]),
                             (journal_text([PUBLISH, YANK]), [PUBLISH, YANK])):
            assert read_journal(text) == wanted
        for text in (b"", b"registry-journal 3\nend 0\n", b"registry-journal 1\nend 1\n",
                     b"registry-journal 1\nend 0", b"registry-journal 1\nend 0\n\n", b"registry-journal 1\n" + PUBLISH
                     + b"\nend 2\n", b"\n" + journal_text([PUBLISH])):
            with pytest.raises(Fault, match=r"\Athis is no journal's file\Z"):
                read_journal(text)


class Files(unittest.TestCase):
    def setUp(self):
        self.folder = self.enterContext(tempfile.TemporaryDirectory())
        self.path = os.path.join(self.folder, "journal")
        self.stands = Standing("j", Cell(3, 9, None), [PUBLISH], {"w": 2})

    def test_files_that_do_not_belong_together(self):
        save(self.path, self.stands)
        with open(self.path + ".place", "rb") as file:
            place = json.load(file)
        for told, wanted in ((json.dumps({**place, "digest": "0"}), "do not belong together: --save writes both"),
                             (json.dumps({}), "do not belong together: --save writes both"),
                             ("{", "was not written by --save: "), ("[]", "was not written by --save: "),
                             ("[" * 100_000, "was not written by --save: "),
                             (json.dumps({**place, "place": "3"}), "was not written by --save: this says no place")):
            Path(self.path + ".place").write_text(told, encoding="ascii")
            with pytest.raises(Fault, match=rf"\A{self.path}\S* (and \S+ )?{wanted}"):
                load(self.path)
        os.unlink(self.path + ".place")
        with pytest.raises(Fault, match=rf"\A{self.path}\.place can't be read: No such file or directory\Z"):
            load(self.path)


class Direct:
    """A gateway to a small etcd without a network. What is lost is lost before it is done."""

    def __init__(self, etcd):
        self.etcd, self.asked, self.lost = etcd, [], ()

    def once(self, path, asked):
        self.asked.append(path)
        if path in self.lost:
            raise Unanswered("no")
        return self.etcd.answer(path, asked)[1]

    insist = once


class TestInEtcd:
    def setup_method(self):
        self.etcd = SmallEtcd()
        self.gateway = Direct(self.etcd)
        self.cells = Cells(self.gateway, "p")
        self.snapshots = Snapshots(self.cells)

    def keys(self):
        return sorted(key.decode() for key in self.etcd.kept)

    def stands(self, place, *accepted):
        return Standing(self.snapshots.read().journal, Cell(place, 1, None), list(accepted), {"w": place})

    def test_a_founding_that_has_no_answer(self):
        self.gateway.lost = ("/v3/kv/txn",)
        with pytest.raises(Fault, match=r"\Aetcd gave no answer: try again\Z"):
            self.snapshots.found([])

    def test_pages(self):
        with mock.patch.object(snapshot, "PAGE_BYTES", 50):
            self.snapshots.found([PUBLISH] * 3)
        head, _ = self.snapshots.head()
        data = b"".join(self.snapshots.read_page(name) for name in page_names(head))
        assert head["pages"] == -(-len(data) // 50)
        assert page_names({"name": "n", "pages": 2}) == ["pages/n/000000", "pages/n/000001"]
        assert self.snapshots.read().accepted == [PUBLISH] * 3
        assert self.snapshots.read_page("pages/none") == b""

    def test_what_a_snapshot_drops(self):
        self.snapshots.found([])
        for place in range(1, 6):
            self.etcd.answer("/v3/kv/put", {"key": self.cells.key(place), "value": ""})
        self.snapshots.renew(self.stands(4, PUBLISH), 1)
        assert [key for key in self.keys() if "/cells/" in key] == [f"p/cells/0000000{place}" for place in (3, 4, 5)]
        assert len([key for key in self.keys() if "/pages/" in key]) == 1
        assert self.gateway.asked[-1] == "/v3/kv/compaction"
        stands = self.snapshots.read()
        assert (stands.last.place, stands.accepted, stands.writers) == (4, [PUBLISH], {"w": 4})
        # what stands for as much, or for more, stays; and where more is to be kept than there is, nothing goes
        kept = dict(self.etcd.kept)
        for place in (4, 3):
            self.snapshots.renew(self.stands(place), 0)
        assert self.etcd.kept == kept
        self.snapshots.renew(self.stands(5, PUBLISH, YANK), 9)
        assert len([key for key in self.keys() if "/cells/" in key]) == 3

    def test_pages_of_before_or_written_in_vain_go(self):
        # whatever their names are, and that of the new ones
        self.snapshots.found([])
        for place, name in enumerate(("0000", "5000", "ffff"), 1):
            for other in ("!", "4fff", "a000", "zzz"):
                self.etcd.answer("/v3/kv/put", {"key": self.snapshots.key(f"pages/{other}/000000"), "value": ""})
            with mock.patch.object(snapshot.secrets, "token_hex", return_value=name):
                self.snapshots.renew(self.stands(place), 0)
            assert [key for key in self.keys() if "/pages/" in key] == [f"p/pages/{name}/000000"]

    def test_cells_go_at_whatever_place(self):
        for place in (9, 10, 99, 400, 999, 1_000, 400_000, 999_999, 99_999_999):
            self.setup_method()
            self.snapshots.found([])
            self.etcd.answer("/v3/kv/put", {"key": self.cells.key(place), "value": ""})
            self.snapshots.renew(self.stands(place), 0)
            assert [key for key in self.keys() if "/cells/" in key] == [f"p/cells/{place:08}"]

    def test_a_snapshot_that_another_was_faster_with(self):
        self.snapshots.found([])
        head, _ = self.snapshots.head()
        with mock.patch.object(self.snapshots, "head", return_value=(head, 1)):
            self.snapshots.renew(self.stands(1), 0)
        assert (self.snapshots.head()[0], "/v3/kv/compaction" in self.gateway.asked) == (head, False)
        self.gateway.lost = ("/v3/kv/txn",)
        self.snapshots.renew(self.stands(1), 0)
        assert self.snapshots.head()[0] == head
