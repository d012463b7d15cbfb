"""Runs the prover on a copy of a crate, over the libraries that earlier checks have left of the crates below it."""

import contextlib
import hashlib
import os
import re
import shutil
import signal
import subprocess
import tempfile
import time
from collections import namedtuple

from prover import functions

TOP = os.path.join(os.path.dirname(os.path.abspath(__file__)), "..", "..")
PARTS = ("src", "specs", "proofs")
CLAUSE = re.compile(r"\b(?:requires|ensures)\b[^{};]*\{")
ANSWERS = ("Answers.antt", "Invariants.antt", "Proof.antt")

# What a check gave: its exit status, what it wrote, and how many seconds, seconds of a processor and megabytes it took.
Ran = namedtuple("Ran", "status said seconds work memory")


def kit():
    """The folder of the toolchain."""
    tool = shutil.which("rt")
    if not tool:
        raise SystemExit("wrong: there is no rt on the path")
    return os.path.dirname(os.path.dirname(os.path.realpath(tool)))


def crates():
    """The crates of crates.txt by their names, each after those that it uses."""
    found, lines = {}, {}
    with open(os.path.join(TOP, "crates.txt"), encoding="utf-8") as file:
        for line in file:
            name, colon, uses = line.partition("#")[0].partition(":")
            if colon and name.split():
                lines[name.split()[0]] = (line.strip(), uses.split())

    def add(name):
        if name in lines and name not in found:
            for other in lines[name][1]:
                add(other)
            found[name] = Crate(name, *lines[name], [found[it] for it in lines[name][1] if it in lines])

    for name in lines:
        add(name)
    return found


class Crate:
    """A crate of the repository, with its line in crates.txt, the names of all libraries that it uses, and the crates among them."""

    def __init__(self, name, line, uses, own):
        self.name, self.line, self.uses, self.own = name, line, uses, own
        self.folder = os.path.realpath(os.path.join(TOP, "crates", name))
        self.library = os.path.join(self.folder, "out", "rlib", name + ".rlib")

    def below(self):
        """The crates below this one, each after those that it uses."""
        found = []
        for crate in self.own:
            found += [it for it in [*crate.below(), crate] if it not in found]
        return found

    def words(self):
        """The command that checks this crate in a folder that has its parts."""
        root = "src/main.rt" if os.path.isfile(os.path.join(self.folder, "src", "main.rt")) else "src/lib.rt"
        of_kit = os.path.join(kit(), "rlibs")
        places = {it.name: it.library for it in self.own}
        words = [os.path.join(kit(), "bin", "rattle"), "check", "--crate-name", self.name, root]
        for name in ("std", *self.uses):
            words += ["--extern", "%s=%s" % (name, places.get(name) or os.path.join(of_kit, name + ".rlib"))]
        for folder in [of_kit, *(os.path.dirname(it.library) for it in self.below())]:
            words += ["-L", "dependency=" + folder]
        words += ["--antt-project", os.path.join(kit(), "rattle", "logic", "antt-project.json")]
        return [*words, "--logic-built", os.path.join(kit(), "logic_built"), "--jobs", "1"]

    def files(self):
        """The files of the crate's parts, by their paths in its folder."""
        return files_of(self.folder, PARTS)

    def lines(self):
        """How many lines the crate's sources have."""
        return sum(text.count(b"\n") for path, text in self.files() if path.endswith(".rt"))

    def build(self):
        """Has the toolchain build the library of this crate where it isn't built of what stands here, and says why that fails."""
        ran = subprocess.run(["rt", "lib"], cwd=self.folder, stdin=subprocess.DEVNULL, stdout=subprocess.PIPE, stderr=subprocess.STDOUT, errors="replace")
        if ran.returncode or not os.path.isdir(self.library):
            return "the library of %s below it can't be built: %s" % (self.name, last_lines(ran.stdout, 3))
        return None

    def is_left(self):
        """Whether the library that stands here is one that `rt ci` has left: it has no stamp, so that `rt lib` would build it anew."""
        return os.path.isdir(self.library) and not os.path.isfile(os.path.join(self.folder, "out", "rlib", "stamp"))

    def is_stated(self):
        """Whether the library that stands here states what the crate states now."""
        lang = os.path.join(self.library, "lang")
        specs = [(path, text) for path, text in files_of(self.folder, ("specs",)) if path != "specs/Lib.antt"]
        return os.path.isdir(lang) and specs == list(files_of(os.path.join(lang, "antt"), ("specs",))) and clauses(self.folder) == clauses(lang)

    def statements(self):
        """A sum of what a crate above can read of this one: its functions without their bodies, its definitions and its lemmas."""
        kept = hashlib.sha256(self.name.encode())
        for path, text in files_of(os.path.join(self.library, "lang"), ("src", "antt/specs", "antt/proofs")):
            if os.path.basename(path) not in ANSWERS:
                kept.update(repr((path, text)).encode())
        return kept.hexdigest()

    def sum(self):
        """A sum of all that a check of this crate reads."""
        kept = hashlib.sha256(self.line.encode())
        for path in ("KIT-ID", "WHAT"):
            kept.update(read(os.path.join(kit(), path)))
        for path, text in self.files():
            kept.update(repr((path, text)).encode())
        kept.update(repr([it.statements() for it in self.below()]).encode())
        return kept.hexdigest()

    def copy(self, room):
        """Copies the crate's parts into this folder."""
        for part in PARTS:
            if os.path.isdir(os.path.join(self.folder, part)):
                shutil.copytree(os.path.join(self.folder, part), os.path.join(room, part))

    @contextlib.contextmanager
    def kept(self):
        """Gives a folder with what checks of the crate have kept, by other names of the same files: a check replaces such a file and
        changes none. Where nothing is kept, a check proves what it needs."""
        kept = os.path.join(self.folder, "out", "incremental")
        with tempfile.TemporaryDirectory(prefix="wrong-", dir=os.path.dirname(kept) if os.path.isdir(kept) else None) as room:
            folder = os.path.join(room, "kept")
            try:
                shutil.copytree(kept, folder, copy_function=link_or_copy)
            except (OSError, shutil.Error):
                # (another command may write what this one copies)
                shutil.rmtree(folder, ignore_errors=True)
                os.makedirs(folder)
            yield folder


def link_or_copy(one, other):
    """Gives a file another name, or where that can't be copies it."""
    try:
        if one.endswith(".oantt"):
            return os.link(one, other)
    except OSError:
        pass
    return shutil.copy2(one, other)


def files_of(folder, parts):
    """The files below these folders of a folder, in order, each with its bytes."""
    for part in parts:
        for at, folders, names in sorted(os.walk(os.path.join(folder, part))):
            for name in sorted(names):
                path = os.path.join(at, name)
                yield os.path.relpath(path, folder), read(path)


def clauses(folder):
    """The clauses of all functions of the sources in a folder, as a sorted list, without their blanks."""
    found = []
    for text in functions.sources(folder).values():
        blanked = functions.blanked(text)
        for clause in CLAUSE.finditer(blanked):
            found.append(re.sub(r"\s+", "", text[clause.start() : functions.end_of_block(blanked, clause.end() - 1)]))
    return sorted(found)


def read(path):
    with open(path, "rb") as file:
        return file.read()


def last_lines(text, count):
    """The last lines of a text, in one."""
    return " | ".join([it for it in text.splitlines() if it.strip()][-count:])[:600]


# The checks that run, so that a run that is broken off can end them, and whether it is.
RUNNING, BROKEN_OFF = set(), []


def check(crate, room, kept, names, flags=()):
    """Checks these functions of the copy of a crate in a folder, over what another folder keeps."""
    words = [*crate.words(), "--incremental", kept, *flags]
    for name in names:
        words += ["--only", name]
    if BROKEN_OFF:
        raise SystemExit(1)
    with tempfile.TemporaryFile() as written:
        begun = time.monotonic()
        # (a group of its own, to be stopped as one; in a session of its own its niceness wouldn't count beside others)
        how = {"stdin": subprocess.DEVNULL, "stdout": written, "stderr": written}
        child = subprocess.Popen(words, cwd=room, preexec_fn=lambda: os.setpgid(0, 0), **how)
        RUNNING.add(child.pid)
        try:
            _, ended, used = os.wait4(child.pid, 0)
        finally:
            RUNNING.discard(child.pid)
        child.returncode = os.WEXITSTATUS(ended) if os.WIFEXITED(ended) else -os.WTERMSIG(ended)
        written.seek(0)
        said = written.read().decode(errors="replace")
    return Ran(child.returncode, said, time.monotonic() - begun, used.ru_utime + used.ru_stime, used.ru_maxrss // 1024)


def end_all():
    """Ends the checks that run, and lets no other begin."""
    BROKEN_OFF.append(True)
    for child in list(RUNNING):
        try:
            os.killpg(child, signal.SIGKILL)
        except OSError:
            pass


def free_memory():
    """How many megabytes of memory can be taken."""
    try:
        with open("/proc/meminfo", encoding="ascii") as file:
            return int(re.search(r"^MemAvailable: *(\d+) kB$", file.read(), re.M).group(1)) // 1024
    except (OSError, AttributeError):
        return 4096
