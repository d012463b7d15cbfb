"""The rows of `figures.json`: what is measured, and the targets; and of `kept.json`: what was measured last of the Rust crate."""

import json
import os
from dataclasses import dataclass, field

HERE = os.path.dirname(os.path.abspath(__file__))
FILE = os.path.join(HERE, "figures.json")
KEPT = os.path.join(HERE, "kept.json")

# The ids of loads that applications send, and those that are chosen to make look-ups expensive.
SENT_IDS = ["counted", "spread"]
HOSTILE_IDS = ["alike-above", "alike-below", "reversed", "mixed-alike"]

# The sizes of the loads, and the one of which the table of loads tells.
SIZES = [1_000, 10_000, 100_000]
TOLD_SIZE = 10_000


@dataclass
class Work:
    """A row of the table of works.

    The words of a run have `{count}` where it is said how often the work is done. Of `instructions` and `sum` the figure is
    the difference of two runs, the sum being what is printed, over the difference of their counts, less what another run
    costs. Of `peak` it is the most memory of a run, of `script` that of `atree` on a script."""

    work: str
    run: str
    measure: str = "instructions"
    counts: tuple = (1, 2)
    less: str = ""
    # What is printed, over the count.
    meets: int | None = None
    # Whether the Rust crate's programs do this work, and if not, its figure where another program has measured it, and that as one module.
    is_in_crate: bool = True
    crate: float | None = None
    one_module: float | None = None
    # Whether the program of the memory work alone does this work.
    is_in_bare: bool = False
    # To be reached: a ratio to the figure of the Rust crate as one module, or a figure.
    ratio: float | None = None
    at_most: float | None = None
    is_reached: bool = False
    # How often the work is done where seconds are compared.
    seconds: int | None = None

    def runs(self):
        """The words of the runs of which instructions are counted."""
        if self.measure not in ("instructions", "sum"):
            return []
        parts = [self.run, self.less] if self.less else [self.run]
        return [words(part, count) for part in parts for count in self.counts]

    def is_common(self):
        """Whether the Rust crate's programs do the work."""
        return self.is_in_crate and self.measure in ("instructions", "peak")

    def key(self):
        """What names the work's figure among those that are kept."""
        return " less ".join(filter(None, [f"{self.measure}: {self.run}", self.less]))


@dataclass
class Growth:
    """A row of the table of growths: a work at several sizes, for which `{size}` stands in the words of a run. What is to be
    reached, and what the Rust crate's figure is, is the last figure over the first."""

    work: str
    run: str
    sizes: list
    counts: tuple = (1, 2)
    less: str = ""
    meets: int | None = None
    crate: float | None = None
    is_in_crate: bool = True
    ratio: float | None = None
    is_reached: bool = False

    def at(self, size):
        """The work at one size."""
        run = self.run.replace("{size}", str(size))
        less = self.less.replace("{size}", str(size))
        meets = None if self.meets is None else self.meets * size
        return Work(self.work, run, counts=self.counts, less=less, meets=meets, is_in_crate=self.is_in_crate)

    def works(self):
        """The work at each size."""
        return [self.at(size) for size in self.sizes]


@dataclass
class Load:
    """A load, which is done with ids of both kinds that applications send, and at each size.

    To be reached are, for each kind, a ratio to the Rust crate as one module, and the last figure over the first."""

    load: str
    work: str
    counts: tuple = (1, 2)
    is_in_bare: bool = False
    # The Rust crate's figures as one module, for each kind of ids, where its programs don't do the load but another program has.
    one_module: dict = field(default_factory=dict)
    ratio: dict = field(default_factory=dict)
    growth: float | None = None
    # The sizes that the growth is of.
    sizes: list = field(default_factory=lambda: SIZES)
    # How often the work is done where seconds are compared.
    seconds: int | None = None
    # The ids for which the ratio, and the growth, has been reached.
    reached: list = field(default_factory=list)
    flat: list = field(default_factory=list)

    def at(self, ids, size):
        """The work with these ids at one size."""
        return Work(
            f"{self.load}, {ids} ids",
            f"{ids} {self.work} {size} {{count}}",
            counts=self.counts,
            is_in_crate=not self.one_module,
            one_module=self.one_module.get(ids),
            is_in_bare=self.is_in_bare and size == TOLD_SIZE,
            ratio=self.ratio.get(ids),
            is_reached=ids in self.reached,
            seconds=self.seconds,
        )

    def works(self):
        """The work with each kind of ids, at the sizes that are told."""
        return [self.at(ids, size) for ids in SENT_IDS for size in (self.sizes if self.growth else [TOLD_SIZE])]


@dataclass
class Hostile:
    """A row of the table of ids that are chosen to make look-ups expensive: a work, and what is to be reached for each kind of
    ids, over the figure for spread ids."""

    work: str
    run: str
    measure: str = "instructions"
    counts: tuple = (1, 2)
    # Of how many the figure is.
    parts: int = 1
    ratio: float | None = None
    is_reached: bool = False

    def at(self, ids):
        """The work with these ids."""
        return Work(f"{self.work}, {ids} ids", f"{ids} {self.run}", self.measure, self.counts, is_in_crate=False)

    def works(self):
        """The work with each kind of ids."""
        return [self.at(ids) for ids in SENT_IDS + HOSTILE_IDS]


@dataclass
class Spoken:
    """A row of the table of what `speak` does: a script at several sizes, without what another script costs. What is to be reached is
    the greatest figure over the one before it."""

    work: str
    script: str
    less: str
    sizes: list
    ratio: float | None = None
    is_reached: bool = False

    def runs(self):
        """The words of the scripts at each size, each with that of the one that it is without."""
        return [(f"{self.script} {size}", f"{self.less} {size}") for size in self.sizes]


@dataclass
class Found:
    """A row of the table of searches: `find` with these arguments, on a script at several sizes. What is to be reached is the greatest
    figure over the one before it."""

    work: str
    words: str
    script: str
    sizes: list
    ratio: float | None = None
    is_reached: bool = False

    def runs(self):
        """The words of the run at each size."""
        return [f"{self.words} < {self.script} {size}" for size in self.sizes]


@dataclass
class Rows:
    """The rows of all tables."""

    works: list
    growths: list
    loads: list
    hostile: list
    spoken: list
    found: list

    def measured(self):
        """All works that are measured."""
        parts = [*self.growths, *self.loads, *self.hostile]
        return [*self.works, *(work for part in parts for work in part.works())]


def words(run, count):
    """The words of a run."""
    return run.replace("{count}", str(count))


def load_rows():
    """The rows of all tables."""
    with open(FILE, encoding="utf-8") as file:
        rows = json.load(file)
    kinds = {"works": Work, "growths": Growth, "loads": Load, "hostile": Hostile, "spoken": Spoken, "found": Found}
    return Rows(**{name: [kind(**row) for row in rows[name]] for name, kind in kinds.items()})


@dataclass
class Kept:
    """What was measured last of the Rust crate: by work, its figure as cargo builds it and as one module, and what its runs
    printed."""

    figures: dict
    printed: dict

    def write(self):
        """Writes `kept.json` again."""
        parts = []
        for name, part in (("figures", self.figures), ("printed", self.printed)):
            lines = [f"    {json.dumps(key)}: {json.dumps(part[key])}" for key in sorted(part)]
            parts.append(f'  "{name}": {{\n' + ",\n".join(lines) + "\n  }")
        with open(KEPT, "w", encoding="utf-8") as file:
            file.write("{\n" + ",\n".join(parts) + "\n}\n")


def load_kept():
    """What was measured last of the Rust crate."""
    with open(KEPT, encoding="utf-8") as file:
        return Kept(**json.load(file))
