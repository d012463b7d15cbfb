"""The programs that do the works with the Rust crate. They stand outside this repository, and know some works by other names."""

import os

from measuring import Program

# The program of the works that are said by WORK NODES COUNT and so on, and that of the loads, which are said by
# IDS WORK NODES COUNT here, and by WORK IDS NODES COUNT there.
WORKS = "upstream_bench"
LOADS = "loads"

# Where the programs stand that are built as one module, below those that are built as cargo builds them.
ONE_MODULE = "lto"

# Kinds of ids, and loads, by their names there.
IDS = {"counted": "dense", "spread": "spread"}
NAMES = {"way-up": "parents", "type-line-once": "type-once"}


class RustCrate:
    """The programs of one build."""

    def __init__(self, folder):
        self.works = Program(os.path.join(folder, WORKS))
        self.loads = Program(os.path.join(folder, LOADS))

    def translated(self, words):
        """The program that does what these words say, and the words that say it there."""
        first, *others = words.split()
        if first not in IDS:
            return self.works, words
        work, *numbers = others
        return self.loads, " ".join([NAMES.get(work, work), IDS[first], *numbers])

    def count(self, words):
        program, words = self.translated(words)
        return program.count(words)

    def spend(self, words):
        program, words = self.translated(words)
        return program.spend(words)

    def seconds(self, words):
        program, words = self.translated(words)
        return program.seconds(words)


def builds_in(folder):
    """The Rust crate's programs as cargo builds them, and as one module."""
    return [RustCrate(folder), RustCrate(os.path.join(folder, ONE_MODULE))]
