"""How the work for a page grows with the depth of a tree: the instructions for chains of several lengths, and the quotient of each
two. It needs valgrind.

python3 bench/deep_pages.py PROGRAM    by this `page`, for example crates/page/out/page
"""

import re
import subprocess
import sys

from scripts import DEEP

LENGTHS = (2000, 4000, 8000)


def instructions(program, script):
    """How many instructions the program runs for a script."""
    counted = ["valgrind", "--tool=cachegrind", "--cache-sim=no", "--cachegrind-out-file=/dev/null", program]
    ran = subprocess.run(counted, input=script.encode(), capture_output=True, check=True)
    return int(re.search(rb"I +refs: +([\d,]+)", ran.stderr)[1].replace(b",", b""))


def main(program):
    for name, shape in DEEP.items():
        counts = [instructions(program, "".join(shape(length))) for length in LENGTHS]
        growths = [f"{after / before:.2f}" for before, after in zip(counts, counts[1:])]
        print(f"{name}: {counts} for {LENGTHS}, {' and '.join(growths)} times as many", flush=True)


if __name__ == "__main__":
    main(*sys.argv[1:])
