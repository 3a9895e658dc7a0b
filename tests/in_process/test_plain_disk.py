"""What a crash leaves of files, as the plain reader of their calls has it, by examples worked by hand."""
import os

from tests.support.plain_disk import CREATES, Call, Disk


class TestDisks:
    def setup_method(self):
        self.disk = Disk("/folder", {"old": b"12"})

    def do(self, name, answer=0, number=0, given=b"", other=b""):
        self.disk.follow(Call(name, answer, number, given, other))

    def left(self, name):
        return list(self.disk.may_be_left(name))

    def test_bytes_that_are_not_synced(self):
        assert self.left("old") == [b"12"]
        self.do("open", 3, os.O_RDWR, b"old")
        self.do("write", 3, 3, b"abc")
        assert self.left("old") == [b"12", b"a2", b"ab", b"abc", b"abc"]
        self.do("write", 1, 3, b"d")
        assert self.left("old") == [b"12", b"a2", b"ab", b"abc", b"abc", b"abcd", b"abcd"]
        self.do("fdatasync", 0, 3)
        assert self.left("old") == [b"abcd"]
        self.do("write", 1, 3, b"e")
        self.do("fsync", 0, 3)
        assert self.left("old") == [b"abcde"]

    def test_names_last_once_the_folder_is_synced(self):
        self.do("open", 3, os.O_RDWR | CREATES, b"new")
        self.do("write", 1, 3, b"x")
        assert self.left("new") == [None, b"", b"x", b"x"]
        self.do("fsync", 0, 3)
        assert self.left("new") == [None, b"x"]
        self.do("open", 4, os.O_RDONLY, b".")
        assert self.left("new") == [None, b"x"]
        self.do("fsync", 0, 4)
        assert self.left("new") == [b"x"]
        self.do("open", 5, os.O_RDWR | CREATES, b"old")
        assert self.left("old") == [b"12"]
        assert self.left("none") == [None]

    def test_a_file_that_takes_the_place_of_another(self):
        self.do("open", 3, os.O_RDWR | CREATES, b"old.new")
        self.do("write", 1, 3, b"x")
        self.do("rename", 0, 0, b"old.new", b"/folder/old")
        assert self.left("old") == [b"12", b"", b"x", b"x"]
        assert self.left("old.new") == [None]
        self.do("open", 4, os.O_RDONLY, b"/folder/")
        self.do("fsync", 0, 4)
        assert self.left("old") == [b"", b"x", b"x"]

    def test_links_and_what_is_removed(self):
        self.do("link", 0, 0, b"old", b"other")
        assert (self.left("old"), self.left("other")) == ([b"12"], [None, b"12"])
        self.do("unlink", 0, 0, b"old")
        assert self.left("old") == [b"12", None]
        self.do("open", 3, os.O_RDONLY, b"/folder")
        self.do("fdatasync", 0, 3)
        assert (self.left("old"), self.left("other")) == ([None], [b"12"])
