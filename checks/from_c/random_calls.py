"""Makes random calls of the module for Python with random values: `random_calls.py LIBRARY [COUNT [SEED]]`. Whatever comes, a call answers, or
raises an exception that its documentation names; nothing that was checked may be refused by the library, which would be a `RuntimeError`,
and nothing may crash. The tree is compared now and then with itself by another call. The last line is `N passed, M failed`.
"""

import inspect
import math
import random
import sys
from pathlib import Path
from uuid import UUID

from accesskit_proved import ANCHOR, CARET, END, FIELDS, Action, Error, Filter, Flag, Id, Move, Role, Spot, Test, TextStyle, Tree, Unit, Wanted

SCRIPT = Path(__file__).with_name("computed.script").read_text(encoding="utf-8")
IDS = [Id(node=node, tree=tree) for node in (1, 2, 3, 5, 30, 31, 99, 2**64 - 1) for tree in (0, 1, 2**32 - 1)]
NUMBERS = [0, 1, 2, 5, -1, 2**31, 2**32, 2**63 - 1, 2**63, 2**64 - 1, 2**64, -(2**63), 10**30]
TEXTS = ["", "Button", "hidden", "common", "word", "language", "point", "Click", "a\0b", "\ud800", "é😀" * 100, "host on\n", "what\n"]
SPOTS = [CARET, END, ANCHOR, Spot.at(3), Spot.in_run(31, 1), Spot("index", None), Spot(5), tuple.__new__(Spot, (1, 2)), tuple.__new__(Id, ())]
OTHERS = [0.5, math.nan, math.inf, -0.0, None, True, False, Ellipsis, b"", b"\0" * 16, bytearray(4), {}, {1: 2}, {1, 2}, object(), int, len]
OTHERS += [UUID(int=7), UUID(int=0), str(UUID(int=7)), range(5), Wanted.ALL, Wanted.LINE, Wanted(0), 8]
NAMED = [name for names in (Flag, Role, Move, Unit, Test, TextStyle, Filter, Action) for name in names]


class Bad:
    """What fails when it is looked at."""

    def __index__(self):
        raise LookupError

    def __iter__(self):
        raise LookupError


def value(chance, depth=0):
    kind = chance.randrange(9)
    if kind == 8 and depth < 3:
        return chance.choice((list, tuple))(value(chance, depth + 1) for _ in range(chance.randrange(7)))
    return chance.choice((IDS, IDS, IDS, NUMBERS, TEXTS, SPOTS, OTHERS, NAMED, [Bad()])[kind])


def update(chance, tree):
    built = tree.update(chance.choice((1, 2, 22)))
    for _ in range(chance.randrange(3)):
        fields = {chance.choice([*FIELDS]): value(chance) for _ in range(chance.randrange(4))}
        built.node(chance.choice((2, 3, value(chance))), chance.choice(("Button", 328, value(chance))), **fields)
    built.send()


def call(chance, tree, calls):
    name, given = chance.choice(calls)
    arguments = [value(chance) for _ in range(chance.randrange(given + 1))]
    if arguments and chance.random() < 0.8:
        arguments[0] = chance.choice(IDS)
    getattr(tree, name)(*arguments)


def main(library, count="20000", seed="1"):
    chance, wrong, met = random.Random(int(seed)), 0, set()
    calls = [(name, len(inspect.signature(it).parameters) - 1) for name, it in inspect.getmembers(Tree, inspect.isfunction)]
    calls = [(name, given) for name, given in calls if not name.startswith("_") and name != "close"]
    with Tree(library) as tree:
        tree.feed(SCRIPT)
        for turn in range(int(count)):
            try:
                update(chance, tree) if chance.random() < 0.25 else call(chance, tree, calls)
                met.add("answered")
            except (TypeError, ValueError, LookupError, Error) as error:
                met.add(type(error).__name__)
            if turn % 100 == 0 and tree.child_count(tree.root()) != len(tree.children(tree.root())):
                wrong += 1
    lacking = {"answered", "TypeError", "ValueError", "NoNode", "NotReached", "NamedTwice", "BadLine"} - met
    if lacking:
        print(f"no call ended with {lacking}")
    print(f"{count if not wrong else 0} passed, {wrong + len(lacking)} failed")
    return 1 if wrong or lacking else 0


if __name__ == "__main__":
    sys.exit(main(*sys.argv[1:]))
