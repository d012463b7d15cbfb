"""Runs every check of the repository, as many side by side as serves, and counts what passed: `./check` calls it.

Checks that only read come first. Then `rt ci` proves the crates, builds the programs and runs what tests there are; as soon as it has
built the programs that another check needs, that check runs beside it, with a lower priority. So do the wrong bodies of each crate
that is proved. Another run proves the longest chain of crates ahead of it, or with fewer than four processors the first of that chain: two
processors for each proof. A line for each crate says how far the proofs are. All that a check prints is kept in .check/, and what failed is printed
at the end.

The last line is `N passed, M failed`.
"""

import contextlib
import os
import re
import signal
import subprocess
import sys
import threading
import time
from concurrent.futures import ThreadPoolExecutor

TOP = os.path.dirname(os.path.dirname(os.path.abspath(__file__)))
LOGS = os.path.join(TOP, ".check")
PROCESSORS = len(os.sched_getaffinity(0))

READING = [
    "checks/formatted",
    "tools/check-excerpts",
    "tools/index --check",
    "tools/fields --check",
    "tools/crates --check",
    "tools/version --check",
    "tools/check-documents --docstrings",
    "checks/names",
    "checks/header",
    "checks/trust",
    "checks/turned --read",
    "checks/wrong --read",
    "checks/recorders",
]
PROVING = "rt ci"
# The crate that most of the longest chain of crates leads up to, and the first of that chain.
AHEAD, FIRST = "texts", "schema"
# What runs on programs that `rt ci` has built, or on a static library that it has proved, with those crates.
ON_PROGRAMS = {
    "checks/run-scripts": {"atree"},
    "checks/made-up 20000 1": {"atree"},
    # (one by one, so that only the last waits for the last program)
    **{f"checks/run-programs {it}": {it} for it in sorted(os.listdir(os.path.join(TOP, "checks", "programs")))},
    "checks/converse": {"atree", "find", "page", "record", "speak"},
    "checks/from-c": {"atree", "fed_tree_c"},
    # (after the check before this one, which leaves the archive)
    "checks/release": {"atree", "compare", "fed_tree_c", "find", "page", "read", "record", "speak"},
    # (where the packages that it needs are there)
    "checks/atspi": {"atree", "fed_tree_c"},
    "checks/refused-growths": {"atree", "growths"},
    "checks/recorders --programs": {"atree", "find", "speak"},
    "tools/check-documents --programs": {"atree", "compare", "find", "page", "read", "record", "speak"},
}
WRONG = "checks/wrong --jobs 1"
WRONG_BODIES = os.path.join(TOP, "checks", "wrong-bodies")
# What needs no proof of a crate.
UNPROVED = "checks/unproved"

PROVED = re.compile(r"^rt: (?:(\w+) proved|(\w+) is kept: .*)$")
FAILURES = re.compile(r"FAILED|NOT PROVED|NOT REFUSED|NOT MET|BAD EDIT|not proved|not covered")
REFUSED = re.compile(r"^rt: must-fail .*: refused, as it must be")
COUNTS = re.compile(r"^(\d+) passed, (\d+) failed", re.M)

# By this word of its environment a process is known as one of this run.
RUN = "CHECK_RUN"

# How much of a failed check's output is printed again.
MOST_LINES, MOST_COLUMNS = 60, 300


def minutes(seconds):
    return f"{seconds / 60:.1f} min"


def memory_for_each():
    """Gigabytes of free memory for each processor."""
    with open("/proc/meminfo", encoding="ascii") as file:
        free = re.search(r"MemAvailable:\s+(\d+) kB", file.read())
    return int(free[1]) / 2**20 / PROCESSORS if free else 0


def crate_names():
    """The crates of crates.txt."""
    with open(os.path.join(TOP, "crates.txt"), encoding="utf-8") as file:
        return [line.split(":")[0].split()[0] for line in file if ":" in line.split("#")[0]]


class ProcessorTimes(threading.Thread):
    """Seconds of a processor that the prover has taken for each crate: for its proof, its tests and its wrong bodies. They are
    sampled, so that a check of less than a second or two may be missed."""

    EVERY = 2

    def __init__(self):
        super().__init__(daemon=True)
        self.taken = {}

    def run(self):
        while True:
            for process in filter(str.isdigit, os.listdir("/proc")):
                try:
                    self.look(process)
                except OSError:
                    # (it has ended)
                    pass
            time.sleep(self.EVERY)

    def look(self, process):
        with open(f"/proc/{process}/cmdline", "rb") as file:
            words = file.read().decode(errors="replace").split("\0")
        if os.path.basename(words[0]) == "rattle" and "--crate-name" in words and self.is_ours(process):
            crate = words[words.index("--crate-name") + 1]
            is_wrong = os.path.basename(os.readlink(f"/proc/{process}/cwd")).startswith("wrong-")
            part = "wrong bodies" if is_wrong else "tests" if "--test" in words else "proof"
            with open(f"/proc/{process}/stat", encoding="ascii", errors="replace") as file:
                clocks = file.read().rpartition(")")[2].split()[11:13]
            self.taken[crate, part, process] = sum(map(int, clocks)) / os.sysconf("SC_CLK_TCK")

    def is_ours(self, process):
        with open(f"/proc/{process}/environ", "rb") as file:
            return f"{RUN}={os.getpid()}".encode() in file.read().split(b"\0")

    def table(self):
        """Lines of a table, in minutes."""
        parts, sums = ("proof", "tests", "wrong bodies"), {}
        for (crate, part, _), seconds in self.taken.items():
            sums[crate, part] = sums.get((crate, part), 0) + seconds
        yield "| crate | " + " | ".join(parts) + " |"
        for crate in dict.fromkeys(crate for crate, _ in sums):
            yield f"| {crate} | " + " | ".join(f"{sums.get((crate, part), 0) / 60:.1f}" for part in parts) + " |"
        yield "| all | " + " | ".join(f"{sum(it for (_, of), it in sums.items() if of == part) / 60:.1f}" for part in parts) + " |"


class Gate:
    """The checks of one run: which run, and what came of those that have ended."""

    def __init__(self):
        self.begun = time.monotonic()
        self.memory = memory_for_each()
        self.ended = []
        self.running = []
        self.lock = threading.Lock()
        self.crates = crate_names()
        self.proved = set()
        self.times = ProcessorTimes()
        os.environ[RUN] = str(os.getpid())
        self.times.start()
        os.makedirs(LOGS, exist_ok=True)

    def say(self, line):
        with self.lock:
            print(f"[{minutes(time.monotonic() - self.begun):>8}] {line}", flush=True)

    def run(self, command, niceness=0, on_line=None):
        """Runs a check to its end, and notes its counts. A check that ends badly and counts no failure counts as one."""
        begun = time.monotonic()
        log = os.path.join(LOGS, re.sub(r"\W+", "-", command).strip("-") + ".log")

        def begin():
            # (a group of its own, to be stopped as one; in a session of its own its niceness wouldn't count beside the others')
            os.setpgid(0, 0)
            os.nice(niceness)

        how = {"stdin": subprocess.DEVNULL, "stdout": subprocess.PIPE, "stderr": subprocess.STDOUT, "text": True, "errors": "replace"}
        with open(log, "w", encoding="utf-8") as kept:
            child = subprocess.Popen(command.split(), cwd=TOP, preexec_fn=begin, **how)
            with self.lock:
                self.running.append(child)
            for line in child.stdout:
                kept.write(line)
                kept.flush()
                if on_line:
                    on_line(line.rstrip("\n"))
            status = child.wait()
        with open(log, encoding="utf-8", errors="replace") as kept:
            printed = kept.read()
        counts = COUNTS.findall(printed)
        passed, failed = map(int, counts[-1]) if counts else (0, 0)
        failed = failed or int(status != 0)
        with self.lock:
            self.running.remove(child)
            self.ended.append((command, time.monotonic() - begun, passed, failed, status, printed))
        self.say(f"{command}: {passed} passed, {failed} failed, {minutes(time.monotonic() - begun)}")

    @contextlib.contextmanager
    def proving_ahead(self):
        """Has a run of its own prove the crates up to `AHEAD`, or, with fewer than four processors, `FIRST`, which nearly all others wait
        for. It has little to do at once, so that each of its proofs gets two processors, which `rt ci` gives to no proof that others
        wait beside. The run over all crates waits for what this one proves, and takes it as it is; what fails here is tried again
        there, and told."""
        if PROCESSORS < 2 or self.memory < 4 or "RT_JOBS" in os.environ:
            yield
            return
        ahead = AHEAD if PROCESSORS >= 4 else FIRST
        with open(os.path.join(LOGS, "ahead.log"), "w", encoding="utf-8") as kept:
            how = {"stdin": subprocess.DEVNULL, "stdout": kept, "stderr": subprocess.STDOUT}
            child = subprocess.Popen([*PROVING.split(), ahead], cwd=TOP, preexec_fn=lambda: os.setpgid(0, 0), **how)
            try:
                yield
            finally:
                if child.poll() is None:
                    os.killpg(child.pid, signal.SIGTERM)
                child.wait()

    def prove(self):
        """Runs `rt ci`, and beside it what needs the programs that it has built and the wrong bodies of crates that it has proved."""
        if self.memory >= 4:
            # (by its own plan for memory rt would leave processors idle, as no check here takes 4 GB; where there are four or more, one is
            # left to the checks beside the proofs: no more are needed to end with the longest chain of crates)
            os.environ.setdefault("RT_JOBS", str(PROCESSORS if PROCESSORS < 4 else PROCESSORS - 1))
        waiting = dict(ON_PROGRAMS)
        with ThreadPoolExecutor(1) as on_programs, ThreadPoolExecutor(max(1, PROCESSORS // 2)) as wrong:

            def hear(line):
                found = PROVED.match(line)
                if found:
                    crate = found[1] or found[2]
                    self.tell_proved(crate)
                    if os.path.isdir(os.path.join(WRONG_BODIES, crate)):
                        wrong.submit(self.run, f"{WRONG} {crate}", 10)
                    for command in [it for it, needs in waiting.items() if needs <= self.proved]:
                        del waiting[command]
                        on_programs.submit(self.run, command, 10)
                elif FAILURES.search(line) and not REFUSED.match(line):
                    self.say(line[:MOST_COLUMNS])

            # (so that what proves ahead has a processor for each of its checks whenever it can use one)
            self.run(PROVING, 5, on_line=hear)
        for command in waiting:
            self.ended.append((command, 0, 0, 1, 1, "the programs that it needs are not built"))

    def tell_proved(self, crate):
        self.proved.add(crate)
        left = [it for it in self.crates if it not in self.proved]
        self.say(f"{crate} proved: {len(self.proved)} of {len(self.crates)} crates" + (f", left: {' '.join(left)}" if left else ""))

    def finish(self):
        """Prints what failed and what each check took, and gives whether all passed."""
        for command, _, _, failed, status, printed in self.ended:
            if failed:
                lines = [it for it in printed.splitlines() if it.strip()]
                told = [it for it in lines if FAILURES.search(it) and not REFUSED.match(it)] or lines
                print(f"\n== {command} (status {status}; all of it is in .check/)")
                print("\n".join(it[:MOST_COLUMNS] for it in (told + lines[-5:])[-MOST_LINES:]))
        print()
        for command, seconds, passed, failed, _, _ in self.ended:
            print(f"{command}: {passed} passed, {failed} failed, {minutes(seconds)}")
        with open(os.path.join(LOGS, "minutes.md"), "w", encoding="utf-8") as file:
            file.writelines(f"{line}\n" for line in self.times.table())
        passed, failed = (sum(it[at] for it in self.ended) for at in (2, 3))
        spent = sum(os.times()[2:4])
        print(f"in {minutes(time.monotonic() - self.begun)} on {PROCESSORS} processors, {minutes(spent)} of a processor")
        print(f"{passed} passed, {failed} failed")
        return failed == 0

    def stop(self):
        """Ends the checks that still run."""
        with self.lock:
            for child in self.running:
                try:
                    os.killpg(child.pid, signal.SIGTERM)
                except ProcessLookupError:
                    pass


def main(words):
    if words not in ([], ["--fast"]):
        print("usage: ./check [--fast]", file=sys.stderr)
        return 2
    gate = Gate()
    try:
        with contextlib.nullcontext() if words else gate.proving_ahead():
            for command in READING:
                gate.run(command)
            if words:
                gate.run(UNPROVED, on_line=gate.say)
            else:
                gate.prove()
    except KeyboardInterrupt:
        gate.stop()
        return 130
    return 0 if gate.finish() else 1


if __name__ == "__main__":
    sys.exit(main(sys.argv[1:]))
