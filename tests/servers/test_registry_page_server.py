"""What `registry page` answers by HTTP: which requests are refused, and of a registry worked by hand each answer."""
import json
import os
import re
import socket
from html.parser import HTMLParser
from pathlib import Path

import pytest

from bench import workloads
from registry_cli.page.server import FILES
from tests.program.test_registry_why import BRANCHING
from tests.support.called import registry
from tests.support.page_served import WORKED, Served
from tests.support.program import TOP

ROWS = json.loads(Path(TOP, "tests/support/data/service_rows.json").read_text(encoding="ascii"))
METHODS = ("POST", "PUT", "PATCH", "DELETE", "OPTIONS", "TRACE", "CONNECT")


class Worked(Served):
    def setUp(self):
        super().setUp()
        self.serve(*WORKED)


class Requests(Worked):
    def test_it_is_read_and_nothing_else(self):
        before = self.state()
        for method in METHODS:
            status, headers, _ = self.ask("/", method)
            assert (status, headers["Allow"]) == (405, "GET, HEAD"), method
        assert self.ask("/", "BREW")[0] == 501
        for path in ("/", "/page.js", "/api/status", "/api/package?name=log"):
            (_, got, text), (status, had, nothing) = self.ask(path), self.ask(path, "HEAD")
            assert (status, nothing) == (200, b"")
            assert (had["Content-Length"], had["Content-Type"]) == (str(len(text)), got["Content-Type"])
            with socket.create_connection(("127.0.0.1", self.server.port)) as connection, \
                    connection.makefile("rb") as reply:
                connection.sendall(f"HEAD {path} HTTP/1.0\r\nHost: 127.0.0.1:{self.server.port}\r\n\r\n".encode())
                assert reply.read().endswith(b"\r\n\r\n")  # and no contents behind the headers
        assert self.ask("/", Content_Length="1")[0] == 400
        assert self.ask("/", Transfer_Encoding="chunked")[0] == 400
        self.told("resolve", need="app")
        assert self.state() == before

    def state(self):
        return {name: (os.stat(self.path(name)).st_mtime_ns, self.text(name)) for name in os.listdir(self.folder)}

    def test_hosts(self):
        port = self.server.port
        for hosts, wanted in [*ROWS["page hosts"], ([f"127.0.0.1:{port + 1}"], 421)]:
            for path in ("/", "/api/status"):
                status, _, text = self.ask(path, host=[it.replace("PORT", str(port)) for it in hosts])
                assert (status, b"revision" in text) == (wanted, (wanted, path) == (200, "/api/status")), hosts
        assert self.ask("http://evil.example/api/status")[0] == 421
        for site, status in (("cross-site", 403), ("same-site", 403), ("same-origin", 200), ("none", 200)):
            assert self.ask("/api/status", Sec_Fetch_Site=site)[0] == status, site

    def test_it_is_reached_from_this_machine_alone(self):
        assert self.server.server_address[0] == "127.0.0.1"
        with socket.socket() as other, pytest.raises(ConnectionRefusedError):
            other.connect(("127.0.0.2", self.server.port))

    def test_each_answer_has_the_policy(self):
        for path, more in (("/", {}), ("/page.css", {}), ("/api/status", {}), ("/nowhere", {}),
                           ("/", {"method": "POST"}), ("/", {"host": ["evil.example"]})):
            _, headers, _ = self.ask(path, **more)
            policy = dict(part.strip().split(" ", 1) for part in headers["Content-Security-Policy"].split(";"))
            assert policy["default-src"] == "'none'", path
            for kind in ("script-src", "style-src", "img-src", "connect-src"):
                assert policy[kind] == "'self'", path
            assert (policy["frame-ancestors"], policy["base-uri"], policy["form-action"]) == ("'none'",) * 3
            assert (policy["require-trusted-types-for"], policy["trusted-types"]) == ("'script'", "'none'")
            assert not {"Access-Control-Allow-Origin", "Set-Cookie"} & set(headers)
            assert (headers["X-Content-Type-Options"], headers["Cross-Origin-Resource-Policy"],
                    headers["Cache-Control"]) == ("nosniff", "same-origin", "no-store")
            assert (headers["X-Frame-Options"], headers["Referrer-Policy"],
                    headers["Cross-Origin-Opener-Policy"]) == ("DENY", "no-referrer", "same-origin")
            assert headers["Server"].strip() == "registry"  # and no version of Python

    def test_files(self):
        kinds = {"html": "text/html; charset=utf-8", "css": "text/css; charset=utf-8",
                 "js": "text/javascript; charset=utf-8", "svg": "image/svg+xml"}
        names = os.listdir(FILES)
        assert "page.js" in names
        for name in names:
            with open(os.path.join(FILES, name), "rb") as file:
                status, headers, text = self.ask("/" + name)
                assert (status, headers["Content-Type"], text) == (200, kinds[name.partition(".")[2]], file.read())
        assert self.ask("/")[2] == self.ask("/page.html")[2]
        for path in ROWS["no page"]:
            assert self.ask(path)[0] == 404, path
        assert self.ask("/page.html?x=1#y")[0] == 200

    def test_nothing_is_loaded_from_elsewhere_and_nothing_is_inline(self):
        found = []

        class Reader(HTMLParser):
            def handle_starttag(self, tag, attrs):
                found.append((tag, dict(attrs)))

        Reader().feed(self.ask("/")[2].decode())
        for tag, attrs in found:
            assert tag != "style"
            assert not [it for it in attrs if it == "style" or it.startswith("on")], tag
            assert all(re.match(r"/[a-z]|#/", attrs[it]) for it in ("src", "href") if it in attrs), attrs
            if tag == "script":
                assert "src" in attrs
        for name in os.listdir(FILES):
            with open(os.path.join(FILES, name), encoding="utf-8") as file:
                text = file.read().replace("http://www.w3.org/2000/svg", "")
                assert not re.search(r"https?:|innerHTML|outerHTML|insertAdjacentHTML|document\.write|\beval\b|@import",
                                     text), name
                assert text.count("\n") <= 300, name


class Answers(Worked):
    def test_search(self):
        def found(text):
            told = self.told("search", text=text)
            assert told["found"] == len(told["packages"])
            return [it["name"] for it in told["packages"]], told["near"]
        assert found("") == (["app", "apps", "log", "web", "zlib"], None)
        assert found("l") == (["log", "zlib"], None)  # what begins with it comes first
        assert found("apps") == (["apps"], None)
        assert found(" LOG ") == (["log"], None)
        assert found("zlbi") == ([], "zlib")
        assert found("<b>") == ([], None)
        told = self.told("search", text="o")["packages"] + self.told("search", text="apps")["packages"]
        assert told == [{"name": "log", "versions": 4, "newest": "1.2.0"},
                        {"name": "apps", "versions": 0, "newest": None}]

    def test_what_can_t_be_asked(self):
        for needs, said, field in (([], "name what is needed", None),
                                   (["app@nonsense"], '"nonsense"', [0, "requirement"]),
                                   (["app", "A"], 'did you mean "a"?', [1, "name"]),
                                   (["app", "app@1"], "app appears twice", [1, "name"]),
                                   ([f"p{it}" for it in range(65)], "65 needs", None),
                                   ([f"p{it}" for it in range(150)], "fields", None)):
            told = self.told("resolve", 400, need=needs)
            assert said in told["error"]
            assert told.get("field") == field, needs

    def test_refusals(self):
        told = self.told("resolve", need=["app", "log@^9", "zlib"])
        assert told["revision"] == 9
        (sentence,) = told["refused"]["sentences"]
        assert (sentence["text"]
                == "Because the request depends on log ^9 and no version of log matches ^9, resolving failed.")
        assert sentence["facts"] == ["the request depends on log ^9", "no version of log matches ^9"]
        assert (sentence["names"], sentence["below"]) == (["log"], [])
        assert told["refused"]["hints"] == ["No version of log matches ^9; there are 2.0.0-rc.1, 1.2.0 and 1.0.0."]
        assert (told["refused"]["packages"], told["refused"]["edges"]) == ([{"name": "log", "versions": 4}],
                                                                           [["", "log"]])


# Dart pub's doc/solver.md, "Branching Error Reporting": of each sentence the number, the packages that it speaks of,
# those that lead to it, the steps that it rests on, and what it concludes
BRANCHES = [(None, "a b foo", [], [], "foo 1.0.0 requires b ^2.0.0"),
            (1, "b foo", [0], [0], "foo 1.0.0 is forbidden"), (None, "", [], [], ""),
            (None, "foo x y", [], [], "foo 1.1.0 requires y ^2.0.0"),
            (None, "foo y", [3], [3], "foo 1.1.0 is forbidden"),
            (None, "foo", [1, 4], [1, 4], "foo is forbidden"), (None, "foo", [5], [5], "resolving failed")]


class Refusals(Served):
    def test_branches(self):
        self.serve(*BRANCHING[0])
        told = self.told("resolve", need="foo@^1.0.0")["refused"]
        _, said, _ = registry("why", "--journal", self.journal, "foo@^1.0.0")
        numbered = [(f"({it['number']}) " if it["number"] else "    ") + it["text"] if it["text"]
                    else "" for it in told["sentences"]]
        assert ["  " + it if it else "" for it in numbered] == said.splitlines()[1:]
        found = [(it["number"], " ".join(it["names"]), it["below"], sorted(step["place"] for step in it["steps"]),
                  it["conclusion"]) for it in told["sentences"]]
        assert found == BRANCHES
        facts = [it["facts"] for it in told["sentences"]]
        self.assertCountEqual(facts[0], ["foo 1.0.0 depends on a ^1.0.0", "every version of a depends on b ^2.0.0"])
        assert facts[5:] == [[], ["the request depends on foo ^1.0.0"]]
        versions = {it["name"]: it["versions"] for it in told["packages"]}
        assert versions == {"a": 1, "b": 2, "foo": 2, "x": 1, "y": 2}
        assert {tuple(it) for it in told["edges"]} == {("", "foo"), ("foo", "a"), ("foo", "b"), ("a", "b"),
                                                       ("foo", "x"), ("foo", "y"), ("x", "y")}

    def test_all_sentences_of_a_long_one_lead_to_the_last(self):
        lines, (request,) = workloads.tower(20)
        self.serve(*lines)
        needs = ["@".join(it) for it in json.loads(request)["needs"]]
        sentences = self.told("resolve", need=needs)["refused"]["sentences"]
        found = [len(sentences) - 1]
        for at in found:  # it grows
            assert all(it < at for it in sentences[at]["below"])
            assert {it["place"] for it in sentences[at]["steps"] if it["place"] >= at} == set()
            found += sentences[at]["below"]
        assert len(found) > 80
        assert sorted(found) == [at for at, it in enumerate(sentences) if it["text"]]
