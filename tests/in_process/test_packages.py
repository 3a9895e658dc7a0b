"""What the tests need from Debian stands in one list, for `.ci/run` and the pages: `transcripts/tools/packages.t`."""
import re
from pathlib import Path

from dev.install_packages import listed
from tests.support.program import TOP


class TestPages:
    def test_the_pages_tell_to_install_them(self):
        names = [package.names[0] for package in listed()]
        assert "etcd-server" in names
        told = {page.name: line.split() for page in (Path(TOP, "README.md"), *Path(TOP, "docs").glob("*.md"))
                for line in re.findall("apt-get install (gcc [a-z0-9 -]+)", page.read_text(encoding="utf-8"))}
        assert told == {"CONTRIBUTING.md": names}

    def test_each_package_that_a_skipped_test_tells_of_is_listed(self):
        named = set()
        for path in Path(TOP, "tests").rglob("*.py"):
            text = path.read_text(encoding="utf-8")
            named |= set(re.findall(r"\(Debian(?: \d+)?: ([a-z0-9-]+)", text)
                         + re.findall(r"skip_without\(\"\w+\", \"([^\"]+)\"", text))
        assert {"etcd-server", "openssl", "python3-jsonschema", "cargo-web"} <= named
        assert named - {name for package in listed() for name in package.names} == set()
