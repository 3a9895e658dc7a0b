#!/usr/bin/env python3
"""Checks derivations by themselves: see --help."""
import os
import sys

if __name__ == "__main__":
    top = os.path.dirname(os.path.dirname(os.path.realpath(__file__)))
    os.execv(sys.executable, [sys.executable, top, "registry_cli.check_derivation", *sys.argv[1:]])
