"""Measures a program: the instructions of a run by valgrind's cachegrind, its seconds and its peak memory by the system."""

import hashlib
import json
import os
import re
import subprocess
import tempfile
from collections import namedtuple
from concurrent.futures import ThreadPoolExecutor

from scripts import script_of

# How many runs are counted side by side. What is counted doesn't depend on it.
SIDE_BY_SIDE = len(os.sched_getaffinity(0))

# What was counted of programs, by the checksums of their files. A run is not counted again while its program is the same.
COUNTED = os.path.join(os.path.dirname(os.path.abspath(__file__)), "out", "counted")

# The seconds of a program are the least of so many runs.
RUNS = 5

CACHEGRIND = ["valgrind", "--tool=cachegrind", "--cache-sim=no", "--cachegrind-out-file=/dev/null"]

# What a run under cachegrind gave: its instructions, and what it printed.
Counted = namedtuple("Counted", "instructions printed")

# What a run took: its seconds of a processor, the most memory that it had at a time in bytes, and what it printed.
Spent = namedtuple("Spent", "seconds peak printed")


def checksum(path):
    """The checksum of a file."""
    with open(path, "rb") as file:
        return hashlib.sha256(file.read()).hexdigest()


def kept_counts(path):
    """What was counted of a program, by the words of its runs."""
    if not os.path.exists(path):
        return {}
    with open(path, encoding="utf-8") as file:
        return {words: Counted(*counted) for words, *counted in map(json.loads, file)}


class Program:
    """A program, with what is counted of it."""

    # With which statuses a run may end.
    statuses = (0,)

    def __init__(self, path):
        self.path = os.path.abspath(path)
        if not os.access(self.path, os.X_OK):
            raise SystemExit(f"there is no program at {self.path}")
        self.kept = os.path.join(COUNTED, checksum(self.path))
        self.counted = kept_counts(self.kept)

    def given(self, words):
        """The arguments and the input of the run that these words name."""
        return words.split(), ""

    def count(self, words):
        """What a run with these words gives, which is counted once."""
        if words not in self.counted:
            arguments, script = self.given(words)
            command = [*CACHEGRIND, self.path, *arguments]
            ran = subprocess.run(command, input=script, capture_output=True, text=True, check=False)
            if ran.returncode not in self.statuses:
                raise SystemExit(f"{self.path} {words}: status {ran.returncode}: {ran.stderr[:500]}")
            counted = re.search(r"I +refs: +([\d,]+)", ran.stderr).group(1)
            self.counted[words] = Counted(int(counted.replace(",", "")), ran.stdout.strip())
            self.keep(words)
        return self.counted[words]

    def keep(self, words):
        """Keeps what was counted of a run for later measurements."""
        os.makedirs(COUNTED, exist_ok=True)
        with open(self.kept, "a", encoding="utf-8") as file:
            file.write(json.dumps([words, *self.counted[words]]) + "\n")

    def spend(self, words, script=""):
        """What a run with these words takes, with this script as its input."""
        with tempfile.TemporaryFile("w+") as streamed, tempfile.TemporaryFile("w+") as printed:
            streamed.write(script)
            streamed.seek(0)
            child = subprocess.Popen([self.path, *words.split()], stdin=streamed, stdout=printed)
            _, status, usage = os.wait4(child.pid, 0)
            child.returncode = os.waitstatus_to_exitcode(status)
            if child.returncode != 0:
                raise SystemExit(f"{self.path} {words}: status {child.returncode}")
            printed.seek(0)
            return Spent(usage.ru_utime + usage.ru_stime, usage.ru_maxrss * 1024, printed.read())

    def seconds(self, words):
        """The least seconds of a few runs."""
        return min(self.spend(words).seconds for _ in range(RUNS))


class Reader(Program):
    """A program that reads a script, which the words of a run name behind its arguments: `speak` in `relabelled 2000`, `find` in
    `Button Deep < toolbars 2000`."""

    def given(self, words):
        arguments, _, script = words.rpartition(" < ")
        return arguments.split(), script_of(script)[0]


class Finder(Reader):
    """`find`, whose status is 1 where no node is found."""

    statuses = (0, 1)


def count_ahead(runs):
    """Counts runs, each a program and its words, a few side by side."""
    with ThreadPoolExecutor(SIDE_BY_SIDE) as pool:
        for _ in pool.map(lambda run: run[0].count(run[1]), runs):
            pass
