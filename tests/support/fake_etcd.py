"""A gate before etcd's JSON gateway, which may lose what is asked or what is answered; and a small etcd to stand behind
it where none is installed. The small one has what the fronts use, as etcd's documents tell it, and no more."""
from __future__ import annotations

import contextlib
import json
import threading
import time
from base64 import b64decode, b64encode
from collections.abc import Callable, Iterable, Iterator
from http.server import BaseHTTPRequestHandler, ThreadingHTTPServer
from typing import Any


class Drop(Exception):
    """Raised by a gate's hook: the connection is closed, and nothing is answered."""


class Gate(ThreadingHTTPServer):
    """A server on loopback over something that answers. Its hook is called before and after each call that it
    passes on."""
    daemon_threads = True

    def __init__(self, behind: Any,
                 hook: Callable[[str, str, Any], object] = lambda moment, path, asked: None) -> None:
        super().__init__(("127.0.0.1", 0), Handler)
        self.behind, self.hook = behind, hook
        threading.Thread(target=self.serve_forever, args=(0.05,), daemon=True).start()

    @property
    def url(self) -> str:
        return f"http://127.0.0.1:{self.server_address[1]}"

    def handle_error(self, request: Any, client_address: Any) -> None:
        """A connection that ended early is nothing to tell."""

    def close(self) -> None:
        self.shutdown()
        self.server_close()


class Handler(BaseHTTPRequestHandler):
    protocol_version = "HTTP/1.1"
    disable_nagle_algorithm = True
    server: Gate

    def do_POST(self) -> None:
        asked = json.loads(self.rfile.read(int(self.headers["Content-Length"])))
        try:
            self.server.hook("before", self.path, asked)
            if self.path == "/v3/watch":
                return self.pass_on(self.server.behind.watch(asked["create_request"]))
            status, told = self.server.behind.answer(self.path, asked)
            self.server.hook("after", self.path, asked)
        except Drop:
            self.close_connection = True
            return None
        data = json.dumps(told).encode()
        self.send_response(status)
        self.send_header("Content-Length", str(len(data)))
        self.end_headers()
        self.wfile.write(data)
        return None

    def pass_on(self, results: Iterable[Any]) -> None:
        self.send_response(200)
        self.send_header("Transfer-Encoding", "chunked")
        self.end_headers()
        for result in results:
            data = json.dumps({"result": result}).encode() + b"\n"
            self.wfile.write(b"%x\r\n%s\r\n" % (len(data), data))
        self.close_connection = True

    def log_message(self, *words: Any) -> None:
        """Nothing is logged."""


class SmallMember:
    """A small etcd in place of members that may be killed and cut off: nothing goes wrong with it."""

    def __init__(self) -> None:
        self.etcd = SmallEtcd()
        self.gate = Gate(self.etcd)
        self.clients = [self.gate.url]

    def behind(self) -> list[SmallEtcd]:
        return [self.etcd]

    def troubles(self) -> list[Any]:
        return []

    def close(self) -> None:
        self.gate.close()


class SmallEtcd:
    """Keys with their revisions, in memory. Where it has a quota, its file takes no more bytes than that: what was
    deleted or written over counts until it is compacted, and the file has its size until it is defragmented. Behind an
    alarm nothing is put, as etcd's page "Space quota" says."""
    quota: int | None = None
    past, size, is_full = 0, 0, False

    def __init__(self) -> None:
        self.revision = 1
        # by key: its creation's revision, its last one, how often it was written, its value
        self.kept: dict[bytes, tuple[int, int, int, bytes]] = {}
        self.events: list[tuple[bytes, Any]] = []
        self.changed = threading.Condition(threading.RLock())

    def copy(self) -> SmallEtcd:
        """Another one with the same keys and history."""
        other = SmallEtcd()
        other.revision, other.kept, other.events = self.revision, dict(self.kept), list(self.events)
        return other

    def answer(self, path: str, asked: Any) -> tuple[int, Any]:
        calls = {"/v3/kv/range": self.range, "/v3/kv/put": lambda it: self.write([("request_put", it)])[0],
                 "/v3/kv/txn": self.transact, "/v3/kv/compaction": self.compact,
                 "/v3/maintenance/defragment": self.defragment, "/v3/maintenance/alarm": self.alarm}
        with self.changed:
            if self.has_no_room(path, asked):
                return 429, {"error": "etcdserver: mvcc: database space exceeded", "code": 8}
            return 200, {"header": {"revision": str(self.revision)}, **calls[path](asked)}

    def has_no_room(self, path: str, asked: Any) -> bool:
        """Whether something is to be put for which there is no room; then there is an alarm."""
        puts = [asked] if path == "/v3/kv/put" else [it["request_put"]
                                                     for it in asked.get("success", []) if "request_put" in it]
        more = sum(len(b64decode(it["key"])) + len(b64decode(it["value"])) for it in puts)
        self.is_full = self.is_full or bool(self.quota and puts and self.size + more > self.quota)
        return self.is_full and bool(puts)

    def held(self) -> int:
        return self.past + sum(len(key) + len(value) for key, (_, _, _, value) in self.kept.items())

    def compact(self, asked: Any) -> dict[str, Any]:
        self.past = 0
        return {}

    def defragment(self, asked: Any) -> dict[str, Any]:
        self.size = self.held()
        return {}

    def alarm(self, asked: Any) -> dict[str, Any]:
        if asked["action"] == "DEACTIVATE":
            self.is_full = self.is_full and (asked["memberID"], asked["alarm"]) != ("7", "NOSPACE")
        return {"alarms": [{"memberID": "7", "alarm": "NOSPACE"}]} if self.is_full else {}

    def told(self, key: bytes) -> dict[str, str]:
        created, changed, version, value = self.kept[key]
        return {"key": b64encode(key).decode(), "create_revision": str(created), "mod_revision": str(changed),
                "version": str(version), "value": b64encode(value).decode()}

    def within(self, asked: Any) -> list[bytes]:
        """The keys of a range, in order."""
        first = b64decode(asked["key"])
        end = b64decode(asked["range_end"]) if "range_end" in asked else first + b"\0"
        return sorted(key for key in self.kept if first <= key < end)

    def range(self, asked: Any) -> dict[str, Any]:
        found = self.within(asked)
        limit = int(asked.get("limit", 0)) or len(found)
        told = {"kvs": [self.told(key) for key in found[:limit]], "count": str(len(found)), "more": len(found) > limit}
        return {name: value for name, value in told.items() if value}  # what is empty or false is left out

    def transact(self, asked: Any) -> dict[str, Any]:
        if all(map(self.holds, asked["compare"])):
            return {"succeeded": True, "responses": self.write([next(iter(it.items())) for it in asked["success"]]),
                    "header": {"revision": str(self.revision)}}
        return {"responses": [{"response_range": self.range(it["request_range"])} for it in asked.get("failure", [])]}

    def holds(self, compared: Any) -> bool:
        created, changed, _, _ = self.kept.get(b64decode(compared["key"]), (0, 0, 0, b""))
        found, wanted = {"CREATE": (created, compared.get("create_revision")),
                         "MOD": (changed, compared.get("mod_revision"))}[compared["target"]]
        return {"EQUAL": found == int(wanted), "GREATER": found > int(wanted)}[compared["result"]]

    def write(self, writes: list[tuple[str, Any]]) -> list[dict[str, Any]]:
        """Puts and deletes, all at one revision."""
        self.revision += 1
        for kind, asked in writes:
            for key in [b64decode(asked["key"])] if kind == "request_put" else self.within(asked):
                self.past += len(self.kept[key][3]) + len(key) if key in self.kept else 0
                if kind == "request_put":
                    created, _, version, _ = self.kept.get(key, (self.revision, 0, 0, b""))
                    self.kept[key] = created, self.revision, version + 1, b64decode(asked["value"])
                    self.events.append((key, {"kv": self.told(key)}))
                else:
                    del self.kept[key]
                    self.events.append((key, {"type": "DELETE", "kv": {"key": b64encode(key).decode()}}))
        self.size = max(self.size, self.held())
        self.changed.notify_all()
        return [{} for _ in writes]

    def watch(self, asked: Any) -> Iterator[dict[str, Any]]:
        first, end = b64decode(asked["key"]), b64decode(asked["range_end"])
        seen = len(self.events)
        yield {"created": True}
        while True:
            with self.changed:
                self.changed.wait_for(lambda: len(self.events) > seen)
                news, seen = self.events[seen:], len(self.events)
            yield {"events": [event for key, event in news if first <= key < end]}


def main() -> None:
    """Tells where a small etcd listens, and goes on as long as somebody reads that: a transcript's shell."""
    print(Gate(SmallEtcd()).url, flush=True)
    with contextlib.suppress(BrokenPipeError):
        while True:
            time.sleep(1)
            print(flush=True)


if __name__ == "__main__":
    main()
