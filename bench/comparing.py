"""Makes the rows of the tables: what is measured here, of the Rust crate as cargo builds it and as one module, and of the memory
work alone, and whether what is to be reached is."""

from figures import HOSTILE_IDS, SENT_IDS, TOLD_SIZE, words
from measuring import count_ahead
from scripts import script_of
from tables import quotient, sized, three_digits, told, verdict

WORK_HEADS = ["work", "here", "Rust, by default", "Rust, one module", "ratio to that", "to reach", "reached", "seconds, as ratio"]
LOAD_HEADS = ["load", "ids", "here", "Rust, by default", "Rust, one module", "ratio to that", "memory work alone", "to reach", "reached"]
LOAD_HEADS += ["seconds, as ratio"]
SIZE_HEADS = ["load", "ids", "here", "growth", "Rust's", "ratios", "to reach", "reached"]
GROWTH_HEADS = ["work", "sizes", "here", "growth", "Rust's", "to reach", "reached"]
SPOKEN_HEADS = ["what `speak` reads", "sizes", "here", "greatest growth", "to reach", "reached"]
FOUND_HEADS = ["what `find` searches for", *SPOKEN_HEADS[1:]]
HOSTILE_HEADS = ["work", *SENT_IDS, *HOSTILE_IDS, "worst, to spread", "to reach", "reached"]


def cost(program, run, counts, figure=lambda counted: counted.instructions):
    """What one more of the work costs."""
    few, many = (figure(program.count(words(run, count))) for count in counts)
    return (many - few) / (counts[1] - counts[0])


class Bench:
    """The programs, and the rows that are past what they had reached.

    `crates` are the Rust crate's programs as cargo builds them and as one module, or none; `kept` has what was measured of them
    last."""

    def __init__(self, works, atree, bare, speak, find, crates, kept):
        self.works, self.atree, self.bare, self.speak, self.find = works, atree, bare, speak, find
        self.crates, self.kept = crates, kept
        self.lost = []

    def programs_of(self, work):
        """The programs that do a work."""
        others = self.crates if work.is_common() else []
        return [self.works, *others, *([self.bare] if work.is_in_bare else [])]

    def count_ahead(self, works):
        """Counts all that will be asked for, and compares what is printed."""
        runs = [(program, run) for work in works for run in work.runs() for program in self.programs_of(work)]
        count_ahead(list(dict.fromkeys(runs)))
        for work in works:
            self.compare_printed(work)

    def compare_printed(self, work):
        """Ends where a work meets something else than it has to, or than it does in another program."""
        for run, count in zip(work.runs(), work.counts):
            printed = {program.count(run).printed for program in self.programs_of(work)}
            if work.meets is not None:
                printed.add(str(work.meets * count))
            if work.is_common() and not self.crates:
                printed.add(self.kept.printed.get(run, self.works.count(run).printed))
            if len(printed) > 1:
                raise SystemExit(f"{run}: printed {printed}")
            if work.is_common():
                self.kept.printed[run] = printed.pop()

    def figure(self, program, work):
        """The figure of a work in a program."""
        if work.measure == "sum":
            return cost(program, work.run, work.counts, lambda counted: int(counted.printed))
        if work.measure == "peak":
            return program.spend(work.run).peak
        if work.measure == "script":
            return self.script_peak(work)
        less = cost(program, work.less, work.counts) if work.less else 0
        return cost(program, work.run, work.counts) - less

    def script_peak(self, work):
        """The most memory of `atree` on a script, of which it has to print what is to be printed."""
        script, printed = script_of(work.run)
        spent = self.atree.spend("", script)
        if spent.printed != printed:
            raise SystemExit(f"{work.run}: printed something else")
        return spent.peak

    def of_crates(self, work):
        """The Rust crate's figures of a work, as cargo builds it and as one module, and the mark of those that are kept."""
        if not work.is_common():
            return work.crate, work.one_module, "*"
        if self.crates:
            self.kept.figures[work.key()] = [self.figure(crate, work) for crate in self.crates]
        by_default, one_module = self.kept.figures.get(work.key(), [None, None])
        return by_default, one_module, "" if self.crates else "*"

    def compared(self, work):
        """The figure of a work and its ratio to the Rust crate's, with the cells that tell of the figures and the ratio."""
        here = self.figure(self.works, work)
        by_default, one_module, mark = self.of_crates(work)
        ratio = quotient(here, one_module)
        of_crates = [told(figure, work.measure) + (mark if figure else "") for figure in (by_default, one_module)]
        return here, ratio, [told(here, work.measure), *of_crates, "-" if ratio is None else three_digits(ratio)]

    def seconds(self, work):
        """The seconds of a work over those of the Rust crate as one module, and how many they are."""
        if not (self.crates and work.seconds and work.is_common()):
            return "-"
        run = words(work.run, work.seconds)
        here = self.works.seconds(run)
        return f"{here / max(self.crates[-1].seconds(run), 0.01):.2f} ({here:.2f} s)"

    def is_reached(self, name, value, bound, had_reached):
        """Whether what is to be reached is; a row that had reached it and is past it is noted."""
        if bound is None:
            return "-"
        reached = verdict(value, bound)
        if had_reached and reached == "no":
            self.lost.append(name)
        return reached

    def row(self, work):
        """The cells of a work."""
        here, ratio, cells = self.compared(work)
        value, bound = (ratio, work.ratio) if work.at_most is None else (here, work.at_most)
        to_reach = f"{bound:.2f}" if work.at_most is None else told(bound, work.measure)
        reached = self.is_reached(work.work, value, bound, work.is_reached)
        return [work.work, *cells, to_reach, reached, self.seconds(work)]

    def load_rows(self, load):
        """The cells of a load, for each kind of ids."""
        for ids in SENT_IDS:
            work = load.at(ids, TOLD_SIZE)
            _, ratio, cells = self.compared(work)
            bare = told(self.figure(self.bare, work), work.measure) if work.is_in_bare else "-"
            to_reach = f"{work.ratio:.2f}" if work.ratio else "-"
            reached = self.is_reached(work.work, ratio, work.ratio, work.is_reached)
            yield [load.load, ids, *cells, bare, to_reach, reached, self.seconds(work)]

    def size_rows(self, load):
        """The cells of a load's growth, for each kind of ids."""
        for ids in SENT_IDS if load.growth else []:
            works = [load.at(ids, size) for size in load.sizes]
            here = [self.figure(self.works, work) for work in works]
            of_crates = [self.of_crates(work)[1] for work in works]
            growth = here[-1] / here[0]
            yield [
                load.load,
                ids,
                ", ".join(told(figure, "instructions") for figure in here),
                three_digits(growth),
                three_digits(of_crates[-1] / of_crates[0]) if all(of_crates) else "-",
                ", ".join(three_digits(one / other) if other else "-" for one, other in zip(here, of_crates)),
                three_digits(load.growth),
                self.is_reached(f"growth: {load.load}, {ids} ids", growth, load.growth, ids in load.flat),
            ]

    def growth(self, growth):
        """The cells of a growth."""
        here = [self.figure(self.works, work) for work in growth.works()]
        value = here[-1] / here[0]
        crate, mark = growth.crate, "*"
        if growth.is_in_crate:
            of_crate = [self.of_crates(work)[1] for work in growth.works()]
            crate, mark = quotient(of_crate[-1], of_crate[0]), "" if self.crates else "*"
        return [
            growth.work,
            ", ".join(sized(size) for size in growth.sizes),
            ", ".join(told(figure, "instructions") for figure in here),
            f"{value:.2f}",
            f"{crate:.2f}{mark}" if crate else "-",
            f"{growth.ratio:.2f}",
            self.is_reached(growth.work, value, growth.ratio, growth.is_reached),
        ]

    def hostile_row(self, hostile):
        """The cells of a work with ids that are chosen to be expensive, beside those that applications send."""
        figures = [self.figure(self.works, work) / hostile.parts for work in hostile.works()]
        worst = max(figures) / figures[SENT_IDS.index("spread")]
        return [
            hostile.work,
            *(told(figure, hostile.measure) for figure in figures),
            three_digits(worst),
            f"{hostile.ratio:.2f}",
            self.is_reached(hostile.work, worst, hostile.ratio, hostile.is_reached),
        ]

    def read(self, program, run):
        """The instructions of a program on a script, of which it has to print what is to be printed."""
        counted = program.count(run)
        if counted.printed != script_of(run.rpartition(" < ")[2])[1].strip():
            raise SystemExit(f"{run}: printed something else")
        return counted.instructions

    def doubled(self, row, here):
        """The cells of these figures, each at twice the size of the one before."""
        growth = max(later / earlier for earlier, later in zip(here, here[1:]))
        return [
            row.work,
            ", ".join(sized(size) for size in row.sizes),
            ", ".join(told(figure, "instructions") for figure in here),
            f"{growth:.2f}",
            f"{row.ratio:.2f}" if row.ratio else "-",
            self.is_reached(row.work, growth, row.ratio, row.is_reached),
        ]

    def spoken_row(self, spoken):
        """The cells of a script that is spoken."""
        return self.doubled(spoken, [self.read(self.speak, run) - self.read(self.speak, less) for run, less in spoken.runs()])

    def found_row(self, found):
        """The cells of a search in a script's tree."""
        return self.doubled(found, [self.read(self.find, run) for run in found.runs()])
