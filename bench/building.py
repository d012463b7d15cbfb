"""Builds the programs that are measured: those of the library with proof, using what the gate or a check has kept of the crates,
and that of the memory work alone by the C compiler."""

import os
import shutil
import subprocess

HERE = os.path.dirname(os.path.abspath(__file__))
ATREE = os.path.join(HERE, "..", "crates", "atree")
SPEAK = os.path.join(HERE, "..", "crates", "speak")
FIND = os.path.join(HERE, "..", "crates", "find")

# The crate of the works is there for as long as it is built: the gate doesn't know it.
MADE = os.path.join(HERE, "made")

BUILD_FILE = """rattle_crate(
    name = "works",
    deps = [
        "//crates/accesskit_consumer",
        "//crates/schema",
        "@rattle//anyhow",
    ],
)
"""


def proved(crate, name, *words):
    """The path of a crate's program, proved, built, and run on these words and no input."""
    command = ["rt", "run", "--jobs", "2", "--", *words]
    ran = subprocess.run(command, cwd=crate, stdin=subprocess.DEVNULL, capture_output=True, text=True)
    if ran.returncode != 0:
        raise SystemExit(f"{name} isn't built:\n{ran.stdout}{ran.stderr}")
    return os.path.join(crate, "out", name)


def build_works(folder):
    """The path of the program of the works, in the folder."""
    try:
        os.makedirs(os.path.join(MADE, "src"))
    except FileExistsError:
        raise SystemExit(f"{MADE} is there already: remove it") from None
    try:
        for name in os.listdir(os.path.join(HERE, "works")):
            shutil.copy(os.path.join(HERE, "works", name), os.path.join(MADE, "src", name.replace(".rs", ".rt")))
        with open(os.path.join(MADE, "BUILD.bazel"), "w", encoding="utf-8") as file:
            file.write(BUILD_FILE)
        return shutil.copy(proved(MADE, "works", "build", "1", "1"), folder)
    finally:
        shutil.rmtree(MADE)


def build_bare(folder):
    """The path of the program of the memory work alone, in the folder, for the processors that the proved programs are for."""
    to = os.path.join(folder, "bare")
    subprocess.run(["cc", "-O3", "-march=x86-64-v2", "-o", to, os.path.join(HERE, "bare.c")], check=True)
    return to


def build_atree():
    """The path of the program that reads scripts."""
    return proved(ATREE, "atree")


def build_speak():
    """The path of the program that says what changes."""
    return proved(SPEAK, "speak")


def build_find():
    """The path of the program that searches the tree of a script."""
    return proved(FIND, "find", "--help")
