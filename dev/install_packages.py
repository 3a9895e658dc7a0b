"""Installs from Debian what the tests need and this machine lacks. One line says what was installed, or why something
lacks still: the tests that need it are skipped then, and counted.

    python3 -m dev.install_packages          root installs what lacks
"""
import contextlib
import os
import shutil
import subprocess
import sys
from collections.abc import Sequence
from dataclasses import dataclass

LIST = os.path.join(os.path.dirname(os.path.dirname(os.path.abspath(__file__))), "tools", "debian_packages.txt")
APT = ("apt-get", "-q", "-o", "Acquire::Retries=1", "-o", "Acquire::http::Timeout=20", "-o", "DPkg::Lock::Timeout=60")
# how many seconds the index and the packages may take
UPDATE, INSTALL = 120, 600


@dataclass(frozen=True)
class Package:
    # one name or several, of which a Debian has one
    names: tuple[str, ...]
    # the command that it brings, or none
    command: str | None

    def is_there(self) -> bool:
        if self.command:
            return shutil.which(self.command) is not None
        return any(map(is_installed, self.names))

    def name(self) -> str:
        """The name of what is installed; else the first one."""
        return next(filter(is_installed, self.names), self.names[0])


def is_installed(name: str) -> bool:
    return answer("dpkg-query", "-W", "-f=${db:Status-Status}", name) == "installed"


def listed(path: str = LIST) -> list[Package]:
    """The packages that the tests need."""
    with open(path, encoding="utf-8") as lines:
        rows = [line.split() for line in lines if line.strip() and not line.startswith("#")]
    return [Package(tuple(name for name in names if name != "or"), None if command == "-" else command)
            for *names, command in rows]


def answer(*words: str) -> str:
    """What a command prints; nothing where it fails or is not there."""
    with contextlib.suppress(OSError):
        return subprocess.run(words, stdin=subprocess.DEVNULL, capture_output=True, text=True, check=False).stdout
    return ""


def fault_of(seconds: int, *words: str) -> str | None:
    """Runs apt-get, and ends it in so many seconds with what it began; answers why it failed, or nothing."""
    done = subprocess.run(["timeout", "--kill-after=5", str(seconds), *APT, *words], stdin=subprocess.DEVNULL,
                          stdout=subprocess.PIPE, stderr=subprocess.STDOUT, text=True, errors="replace", check=False,
                          env={**os.environ, "DEBIAN_FRONTEND": "noninteractive"})
    errors = [line for line in done.stdout.splitlines() if line.startswith("E: ")]
    return [*errors, f"apt-get {words[0]} ended with status {done.returncode}"][0] if done.returncode else None


def install(packages: Sequence[Package]) -> str | None:
    """Installs these packages; answers why some lack still, or nothing."""
    if not shutil.which("apt-get"):
        return "there is no apt-get"
    if os.geteuid() != 0:
        return f"only root installs them: apt-get install {' '.join(package.names[0] for package in packages)}"
    if fault := fault_of(UPDATE, "update"):
        return fault
    names = [name for package in packages
             for name in [it for it in package.names if answer("apt-cache", "show", it)][:1]]
    return fault_of(INSTALL, "install", "-y", "--no-install-recommends", *names)


def main(words: Sequence[str]) -> int:
    if words:
        print(__doc__, file=sys.stderr)
        return 2
    before = [package for package in listed() if not package.is_there()]
    fault = install(before) if before else None
    after = [package for package in before if not package.is_there()]
    new = ", ".join(package.name() for package in before if package not in after)
    lacking = ", ".join(package.names[0] for package in after)
    told = [f"installed {new}"] if new else []
    told += [f"the tests lack {lacking}: {fault or 'this Debian has none that does'}"] if lacking else []
    print("install_packages: " + ("; ".join(told) or "all that the tests need is there"))
    return 1 if lacking else 0


if __name__ == "__main__":
    sys.exit(main(sys.argv[1:]))
