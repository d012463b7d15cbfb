"""Runs a program, by default `atree`, on a script, and compares its results with the expected ones."""

import itertools
import os
import resource
import subprocess
import tempfile
from collections import namedtuple

from model.scripts import is_told

HERE = os.path.dirname(os.path.dirname(os.path.abspath(__file__)))

# The program as the gate builds it.
BUILT = os.path.join(HERE, "..", "crates", "atree", "out", "atree")

# A run that takes more seconds of a processor is ended.
SECONDS = 60

# What a run gave: its exit status, where a signal ended it the signal's number below 0, and what it wrote.
Ran = namedtuple("Ran", "status output errors")


class Program:
    """The program with its arguments, and a file for each of its streams, which all its runs share."""

    def __init__(self, path=None, arguments=()):
        self.path = os.path.abspath(path or BUILT)
        self.arguments = arguments
        if not os.access(self.path, os.X_OK):
            raise SystemExit(f"there is no program at {self.path}: rt ci builds it, or name another one")
        self.streams = [tempfile.TemporaryFile() for _ in range(3)]

    def run(self, script, environment=None, instead=None):
        """Runs the program on a script, which is bytes. Other files may stand in the place of its streams, by number."""
        for stream, content in zip(self.streams, (script, b"", b"")):
            stream.seek(0)
            stream.truncate()
            stream.write(content)
            stream.flush()
            stream.seek(0)
        files = {**dict(enumerate(stream.fileno() for stream in self.streams)), **(instead or {})}
        shown = [(os.POSIX_SPAWN_DUP2, file, number) for number, file in files.items()]
        child = os.posix_spawn(self.path, [self.path, *self.arguments], environment or {}, file_actions=shown)
        resource.prlimit(child, resource.RLIMIT_CPU, (SECONDS, SECONDS))
        ended = os.waitpid(child, 0)[1]
        status = os.WEXITSTATUS(ended) if os.WIFEXITED(ended) else -os.WTERMSIG(ended)
        return Ran(status, self.written(1), self.written(2))

    def written(self, number):
        """What the run wrote to a stream."""
        self.streams[number].seek(0)
        return self.streams[number].read()


def difference(ran, told, bad=None):
    """How a run differs from these lines, and from an end at the bad line of this number, if there is one; `None` where it
    doesn't."""
    printed = ran.output.decode(errors="replace").split("\n")
    for count, (line, other) in enumerate(itertools.zip_longest(told, printed[:-1]), 1):
        if line is None or other is None or not is_told(line, other):
            return f"line {count} of the output is {other!r} and not {line!r}"
    if printed[-1]:
        return f"the output ends in {printed[-1]!r}"
    status, errors = (2, f"line {bad}: bad line\n".encode()) if bad else (0, b"")
    if (ran.status, ran.errors) != (status, errors):
        return f"it ends with status {ran.status} and {ran.errors!r}, and not with {status} and {errors!r}"
    return None


def built(source, folder):
    """A library that is made of a source in C, to be put before the C library."""
    library = os.path.join(folder, source.replace(".c", ".so"))
    subprocess.run(["cc", "-shared", "-fPIC", "-O1", "-o", library, os.path.join(HERE, "runs", source)], check=True)
    return library


def read_number(path):
    """The number in a file."""
    with open(path) as file:
        return int(file.read())


class Refusing:
    """Runs a program with one growth of its memory refused, by a malloc and a realloc that are put before the C library's."""

    def __init__(self, program, folder):
        self.program, self.count = program, os.path.join(folder, "growths")
        self.library = built("refusing.c", folder)

    def run(self, script, refused):
        """Runs the program on a script with the growth of this number refused: what it gave, and how many growths it made."""
        ran = self.program.run(script, {"LD_PRELOAD": self.library, "REFUSED": str(refused), "GROWTHS": self.count})
        return ran, read_number(self.count)


class Failing:
    """Runs a program with a stream that moves three bytes a call, and of which one call fails, by a read and a write that are
    put before the C library's."""

    def __init__(self, program, folder):
        self.program, self.count = program, os.path.join(folder, "calls")
        self.library = built("failing.c", folder)

    def run(self, script, stream, failed):
        """Runs the program on a script with the stream's call of this number failing: what it gave, and how many calls it
        made."""
        environment = {"LD_PRELOAD": self.library, "STREAM": str(stream), "FAILED": str(failed), "CALLS": self.count}
        ran = self.program.run(script, environment)
        return ran, read_number(self.count)
