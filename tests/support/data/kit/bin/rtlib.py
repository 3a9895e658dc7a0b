"""Knows as much of crates as a compilation asks for, and a build of the library over what was proved."""
import os

KIT = os.path.dirname(os.path.dirname(os.path.realpath(__file__)))
RATTLE = os.path.join(KIT, "bin", "rattle")


class Crate:
    def __init__(self, folder, top, known):
        self.folder, self.name, self.of_kit = folder, os.path.basename(folder), ["std"]

    def below(self):
        return []

    def sources_below(self):
        return ["--lib", "../low/src/lib.rt"]

    def words(self, flags, keeps):
        return ["--crate-name", self.name, *flags]


def kit_sources(names):
    return []
