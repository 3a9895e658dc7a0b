"""The journal that a page shows: as it stood when it was read last, with the program that selects from it."""
import os
import threading

from ..catalog import Catalog, Version
from ..failures import Failed, Unanswered
from ..session import EMPTY, Reading, snapshot
from ..shapes import Reply, Request

MOST_PAGES = 1_000  # whose last search is known


class File:
    def __init__(self, path: str) -> None:
        self.path = path

    def text(self) -> bytes:
        return snapshot(self.path)

    def mark(self) -> object:
        try:
            found = os.stat(self.path)
        except OSError:
            return None
        return found.st_ino, found.st_size, found.st_mtime_ns


class Service:
    """The journal of a service that is shown. A search in it is none of the service's."""

    def __init__(self, address: str) -> None:
        self.path = address

    def text(self) -> bytes:
        from ..connected import journal_of_service
        return journal_of_service(self.path)

    def mark(self) -> object:
        from ..connected import Connected
        try:
            with Connected(self.path) as session:
                return session.revision
        except Failed:
            return None


class View(Catalog):
    def __init__(self, source: File | Service) -> None:
        self.path, self.text, self.searches = source.path, source.text(), 0
        self.ranks: dict[str, list[Version]] = {}
        session = Reading(self.path, self.text)
        self.session: Reading | None = session
        try:
            super().__init__(self.text)  # while the program loads it
            self.names = sorted(self.mentioned)
            self.warnings = session.warnings
            session.ask(EMPTY)  # it says where a line is at fault
        except BaseException:
            session.leave()
            raise
        self.counts = {"packages": len(self.listed), "versions": sum(map(len, self.listed.values())),
                       "yanked": sum(is_yanked for held in self.listed.values() for _, is_yanked in held)}

    def versions(self, name: str) -> list[Version]:
        if name not in self.ranks:
            self.ranks[name] = super().versions(name)
        return self.ranks[name]

    def program(self) -> Reading:
        """The program over this text, begun anew where a search was ended with it."""
        if self.session is None:
            self.session = Reading(self.path, self.text)
        return self.session

    def leave(self) -> None:
        session, self.session = self.session, None
        if session:
            session.leave()


class Search:
    def __init__(self, page: str, session: Reading) -> None:
        self.page, self.session, self.why = page, session, ""

    def end(self, why: str) -> None:
        """Ends it, with the program: nothing else ends a search."""
        self.why = self.why or why
        self.session.process.kill()


class Journal:
    """What stands in a journal's file, for a server whose threads ask at once."""

    def __init__(self, source: File | Service, seconds: float) -> None:
        self.source, self.path, self.seconds = source, source.path, seconds
        # of what is held; of loading; of searching, one at a time
        self.lock, self.loading, self.turn = threading.Lock(), threading.Lock(), threading.Lock()
        self.fault, self.count = "", 0
        self.running: Search | None = None
        self.last: dict[str, int] = {}  # by page its last search
        self.mark = source.mark()
        self.view = View(source)

    def refresh(self) -> View:
        """Reads the journal again where it has changed. What can't be read leaves what is shown as it was."""
        mark = self.source.mark()
        if mark != self.mark and self.loading.acquire(blocking=False):
            try:
                view = View(self.source)
                self.mark, self.fault = mark, ""
                self.show(view)
            except Failed as fault:
                self.fault = str(fault)
            finally:
                self.loading.release()
        return self.view

    def show(self, view: View) -> None:
        """Shows this from now on. A search in what was shown before ends in that."""
        with self.lock:
            old, self.view = self.view, view
            is_free = not old.searches
        if is_free:
            old.leave()

    # ---- searches

    def ask(self, request: Request, page: str = "") -> tuple[View, Reply]:
        """A page has one search at a time: its next one ends it. Others wait their turn."""
        with self.lock:
            self.count += 1
            number = self.count
            self.last[page] = number
            if len(self.last) > MOST_PAGES:
                self.last.pop(next(iter(self.last)))
            if self.running and self.running.page == page:
                self.running.end("another request came from the same page")
        with self.turn:
            if self.last.get(page, number) != number:
                raise Unanswered("another request came from the same page")
            with self.lock:
                view = self.view
                view.searches += 1
            try:
                return view, self.searched(view, request, page)
            finally:
                with self.lock:
                    view.searches -= 1
                    is_old = view is not self.view and not view.searches
                if is_old:
                    view.leave()

    def searched(self, view: View, request: Request, page: str) -> Reply:
        search = Search(page, view.program())
        limit = f"{self.seconds:g} second{'s' * (self.seconds != 1)}"
        why = f"no answer was found in {limit}, and the search was ended"
        timer = threading.Timer(self.seconds, search.end, [why])
        with self.lock:
            self.running = search
        timer.start()
        try:
            (reply,) = search.session.ask(request)
            return reply
        except Failed:
            if search.why:
                raise Unanswered(search.why) from None
            search.why = "failed"
            raise
        finally:
            timer.cancel()
            with self.lock:
                self.running = None
            if search.why:
                view.leave()

    def leave(self) -> None:
        self.view.leave()
