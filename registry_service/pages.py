"""The page that a service shows, by a process of its own: however much that searches, it holds up no client."""
import asyncio
import os
import sys
from collections.abc import Iterable
from concurrent.futures import ThreadPoolExecutor
from subprocess import PIPE
from urllib.parse import urlsplit

from registry_cli.failures import Failed
from registry_cli.output import Output
from registry_cli.program import TOP
from registry_cli.tied import Tied

from .service import Service
from .supervisor import Supervisor


class Shower:
    """`registry page` as a child of the service. `gone` is a future with the reason why it has ended."""

    def __init__(self, threads: ThreadPoolExecutor, words: Iterable[str]) -> None:
        command = [sys.executable, "-B", os.path.join(TOP, "registry"), "page", *words]
        self.process = Tied(command, stdin=PIPE, stdout=PIPE, stderr=PIPE, process_group=0)
        self.kill = self.process.kill
        self.gone = asyncio.get_running_loop().run_in_executor(threads, self.ended)

    def ended(self) -> str:
        lines: list[str] = self.process.stderr.read().decode(errors="replace").splitlines()
        status = self.process.wait()
        self.process.let_go()
        last = lines[-1] if lines else ""
        return last.removeprefix("registry: ") if status > 0 and last else f"the page ended with status {status}"


class Page(Supervisor[Shower]):
    """The page of a service, as one of its clients shows it."""
    role = "page"

    def __init__(self, service: Service, address: str) -> None:
        super().__init__(service.path, service.watch)
        self.port, self.address, self.threads = service.options.page_port, "", ThreadPoolExecutor(2)
        self.starting: asyncio.Task[None] | None = None
        self.words = [f"--connect={address}", f"--seconds={service.options.seconds}"]

    async def begin(self) -> None:
        self.child = Shower(self.threads, [*self.words, f"--port={self.port}"])
        line = await asyncio.get_running_loop().run_in_executor(self.threads, self.child.process.stdout.readline)
        if not line:
            raise Failed(await asyncio.shield(self.child.gone))
        self.address = line.decode().strip()
        self.port = urlsplit(self.address).port  # which it keeps
        self.is_up = True

    def lost(self) -> None:
        """Nothing waits for it here."""

    def end(self) -> None:
        for task in (self.starting, self.keeping):
            if task:
                task.cancel()
        if self.child:
            self.child.kill()


async def show(service: Service, address: str, out: Output) -> None:
    """Begins the page, where one is wanted, and tells where it is. A signal is heard meanwhile."""
    if service.options.page_port is None:
        return
    page = Page(service, address)
    page.starting = asyncio.create_task(page.start())
    service.left.callback(page.end)
    signalled = asyncio.create_task(service.signalled.wait())
    await asyncio.wait((page.starting, signalled), return_when=asyncio.FIRST_COMPLETED)
    if page.starting.done():
        page.starting.result()
        out.give({"page": page.address}, [f"{service.path} is shown at {page.address}"])
        sys.stdout.flush()
