"""Runs a module of the packages beside this file: `python3 FOLDER MODULE WORD..`, from whatever folder.

Python looks for modules beside what it runs, so nothing has to be said to it in the environment, which all that the
module begins would get too."""
import runpy
import sys

runpy.run_module(sys.argv.pop(1), run_name="__main__", alter_sys=True)
