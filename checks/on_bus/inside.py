"""Checks of the adapter inside of a session that has a bus: inside.py PROGRAM ATREE PART... A part is a name of an example,
`examples` for all of them, or a module here. The last line is `N passed, M failed`."""

import os
import re
import subprocess
import sys
from concurrent.futures import ThreadPoolExecutor

from session import TOP, Checks
import misuse
import originals
import sayings
import times
from trees import Comparison

EXAMPLES = os.path.join(TOP, "examples")
OWN = os.path.join(os.path.dirname(os.path.abspath(__file__)), "scripts")
# The examples, whether they are to scale, and the title of a window for those that have none.
SCRIPTS = [
    ("first", 1, None),
    ("settings", 1, None),
    ("editor", 1, None),
    ("mail", 1, None),
    ("texts", 1, None),
    ("moves", 1, None),
    ("questions", 1, None),
    ("windows", 1, None),
]
SCRIPTS += [(f"browser-{it}", 64, "Browser") for it in ("form", "chat", "editor", "grid")]
# How many examples are read at once.
AT_ONCE = 4


def trees(checks, program, atree, name, units, title):
    """Compares an example, or a script that is here, after each of its steps."""
    own = os.path.join(OWN, f"{name}.script")
    with open(own if os.path.exists(own) else os.path.join(EXAMPLES, f"{name}.script"), encoding="utf-8") as file:
        comparison = Comparison(checks, program, atree, f"Check {name}", file.read(), title=title, units=units)
    comparison.run()
    print(f"{name}: {len(comparison.rest)} steps, {comparison.objects} objects", flush=True)


def apart(program, atree, name):
    """Compares an example in a process of its own: what it prints, and how many passed and failed."""
    ran = subprocess.run([sys.executable, __file__, program, atree, name], stdout=subprocess.PIPE, text=True, check=False)
    printed, _, last = ran.stdout.rstrip("\n").rpartition("\n")
    counts = re.fullmatch(r"(\d+) passed, (\d+) failed", last)
    return (printed, int(counts[1]), int(counts[2])) if counts else (f"{ran.stdout}\n{name}: no end", 0, 1)


def main(program, atree, *parts):
    checks = Checks()
    examples = [it for it in SCRIPTS if it[0] in parts or "examples" in parts]
    if len(examples) == 1:
        trees(checks, program, atree, *examples[0])
    else:
        # (a client mostly waits for answers, so several at once take little longer than one)
        with ThreadPoolExecutor(AT_ONCE) as pool:
            for printed, passed, failed in pool.map(lambda it: apart(program, atree, it[0]), examples):
                print(printed, flush=True)
                checks.passed, checks.failed = checks.passed + passed, checks.failed + failed
    for module in (misuse, sayings, originals, times):
        if module.__name__ in parts:
            module.check(checks, program)
    print(f"{checks.passed} passed, {checks.failed} failed", flush=True)
    return 1 if checks.failed else 0


if __name__ == "__main__":
    sys.exit(main(*sys.argv[1:]))
