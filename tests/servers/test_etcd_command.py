"""The command `registryd-etcd` in this process, over stand-ins of its parts: what its words mean, and how it ends."""
import os
import re
import sys
from types import SimpleNamespace
from unittest import mock

import pytest

from registry_etcd import __main__ as etcd
from registry_etcd.gateway import Endpoint, Fault
from tests.support.called import captured
from tests.support.program import TOP

HERE, SECURE = [Endpoint(False, "127.0.0.1", 2379)], [Endpoint(True, "127.0.0.1", 2379)]
# The usual values, of which docs/SCALE.md tells some; the others have to be given, or are none.
USUAL = dict(endpoints=HERE, prefix="registry", cacert=None, cert=None, key=None, timeout=3.0, patience=60.0,
             program=os.path.join(TOP, "registryd"), workers=1, seat=1, writer=None, journal=None, load=None,
             save=None, stale=False, newest=False, compact_every=4096, keep=1024)


def words(*given):
    return mock.patch.object(sys, "argv", ["registryd-etcd", *given])


def read(*given):
    with words(*given):
        return vars(etcd.read_words())


@pytest.mark.parametrize("what", ["found", "serve", "journal", "compact"])
def test_usual_values(what):
    assert read(what) == {"what": what, **USUAL}


@pytest.mark.parametrize("given, wanted", [
    ("--endpoints https://one:7,two", {"endpoints": [Endpoint(True, "one", 7), Endpoint(False, "two", 2379)]}),
    ("--cacert file", {"cacert": "file", "endpoints": SECURE}),
    ("--cert file --key other", {"cert": "file", "key": "other", "endpoints": SECURE}),
    ("--timeout 0.5 --patience 1000000000", {"timeout": 0.5, "patience": 1e9}), ("--program x", {"program": "x"}),
    ("--workers 64 --seat 4294967295", {"workers": 64, "seat": 4_294_967_295}), ("--workers 1 --seat 1", {}),
    ("--writer w --load l --save s --stale", {"writer": "w", "load": "l", "save": "s", "stale": True}),
    ("--prefix p --newest", {"prefix": "p", "newest": True}),
    ("--compact-every 0 --keep 99999999", {"compact_every": 0, "keep": 99_999_999})])
def test_each_word(given, wanted):
    assert read("serve", *given.split(" ")) == {"what": "serve", **USUAL, **wanted}


def test_each_word_is_told_of():
    with words("--help"):
        status, told, _ = captured(etcd.read_words, "")
    assert status == 0
    about = dict(re.findall(r"^  (--[a-z-]+(?: [A-Z_]+)?)\s+([a-z].*)$", told, re.M))
    plain = {name.replace("_", "-") for name in USUAL} - {"journal", "load", "save", "stale", "newest",
                                                          "compact-every", "keep"}
    others = {"--journal FILE", "--load FILE", "--save FILE", "--stale", "--newest", "--compact-every N", "--keep N"}
    assert set(about) == {*(f"--{it} {it.upper()}" for it in plain), *others}


def test_what_a_front_is_told(monkeypatch):
    made, done = [], []

    def front(*given):
        made.append(given)
        return SimpleNamespace(begin=mock.Mock(side_effect=Fault("no")), snapshots=mock.Mock(),
                               replica=SimpleNamespace(end=lambda: done.append("ended")))
    monkeypatch.setattr(etcd, "Front", front)
    more = dict(program="p", seat=7, workers=2, writer="w", stale=True, compact_every=5, keep=6)
    for given in ({}, more):
        # where it fails its replica ends, too
        pytest.raises(Fault, etcd.serve, SimpleNamespace(**{**USUAL, "what": "compact", **given}), "cells")
    assert made == [("cells", USUAL["program"], 1, 1, None, False, 4096, 1024), ("cells", "p", 7, 2, "w", True, 5, 6)]
    assert done == ["ended", "ended"]


@pytest.mark.parametrize("given, context", [("--cacert ca", ("ca", None, None)),
                                            ("--cert c --key k", (None, "c", "k"))])
def test_certificates(given, context, monkeypatch):
    made = mock.Mock(side_effect=OSError("no"))
    monkeypatch.setattr(etcd, "tls_context", made)
    with words("serve", *given.split(" ")):
        assert captured(etcd.main, "")[0] == 1
    made.assert_called_once_with(*context)


@pytest.mark.parametrize("fault, told", [
    (Fault("no member\n of  etcd"), "registryd-etcd: no member of etcd\n"), (BrokenPipeError(32, "Broken pipe"), ""),
    (KeyboardInterrupt(), ""),
    (FileNotFoundError(2, "No such file", "a file"), "registryd-etcd: a file: No such file\n"),
    (OSError(28, "No space left on device"), "registryd-etcd: the system: No space left on device\n"),
    (OSError("odd"), "registryd-etcd: the system: odd\n")])
def test_how_it_ends(fault, told, monkeypatch):
    monkeypatch.setattr(etcd, "serve", mock.Mock(side_effect=fault))
    with words("serve"):
        assert captured(etcd.main, "") == (1, "", told)


@pytest.mark.parametrize("stream", [None, mock.Mock(**{"write.side_effect": OSError()})])
def test_where_there_is_nobody_to_tell_it_ends_all_the_same(stream, monkeypatch):
    monkeypatch.setattr(sys, "stderr", stream)
    assert etcd.failed("why") == 1
