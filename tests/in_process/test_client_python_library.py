"""The calls that the client in Python makes of the library are those of clients/c/registryd.h."""
import ctypes
import os
from pathlib import Path
from string import ascii_lowercase
from unittest import mock

import registryd
import registryd.embedded


class TestCalls:
    def test_the_calls_are_those_of_the_header(self):
        text = " ".join(Path(os.path.dirname(registryd.__file__), "..", "..", "c",
                             "registryd.h").read_text(encoding="utf-8").split())
        kinds = {"const char *": ctypes.c_char_p, "char *": ctypes.c_char_p, "const void *": ctypes.c_char_p,
                 "void *": ctypes.c_char_p, "size_t ": ctypes.c_size_t, "size_t *": ctypes.POINTER(ctypes.c_size_t),
                 "registryd_session ": ctypes.c_uint64, "registryd_session *": ctypes.POINTER(ctypes.c_uint64),
                 "struct registryd_stamp *": ctypes.POINTER(registryd.embedded.Stamp)}
        for name, takes in registryd.embedded.CALLS.items():
            given = text.partition(f" registryd_{name}(")[2].partition(")")[0].split(", ")
            assert [kinds[it.rstrip(ascii_lowercase)] for it in given] == list(takes), name

    def test_a_library_is_loaded_with_its_calls(self):
        made = mock.Mock()
        with mock.patch.object(ctypes, "CDLL", return_value=made) as opened:
            assert registryd.embedded.loaded.__wrapped__("a path") is made
        opened.assert_called_once_with("a path")
        for name, takes in registryd.embedded.CALLS.items():
            call = getattr(made, f"registryd_{name}")
            assert (call.argtypes, call.restype) == (takes, ctypes.c_int)
