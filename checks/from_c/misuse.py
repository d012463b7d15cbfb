"""Uses the module for Python as it shouldn't be used: `misuse.py LIBRARY` prints a line for each misuse that isn't met with the exception
beside it, with those words in its message, and then `N passed, M failed`. Nothing may change by a misuse, and nothing may crash.
"""

import copy
import ctypes
import gc
import inspect
import math
import pickle
import signal
import sys
import threading
import weakref
from decimal import Decimal
from fractions import Fraction
from uuid import UUID

import accesskit_proved
from accesskit_proved import FIELDS, Closed, Error, Id, Refused, Role, Spot, Tree, Update, Wanted

SCRIPT = """host on
update root focus=2 root=1
node 1 Window label="Mail" children=2,3,4
node 2 Button label="Send" actions=Click
node 3 TextInput children=5
node 5 TextRun value="ab" chars=1,1 words=0
node 4 GenericContainer tree=00000000-0000-0000-0000-000000000007
end
"""
BUTTON, FIELD, ABSENT = Id(tree=0, node=2), Id(tree=0, node=3), Id(tree=0, node=99)
LARGE = 2**64


class Loud(str):
    """A text that says other bytes than its own."""

    def encode(self, *how):
        return b"\xff" * 64

    def __len__(self):
        return 2**40


class Odd(int):
    """A number that is within every range."""

    def __le__(self, other):
        return True

    __ge__ = __lt__ = __gt__ = __le__

    def __index__(self):
        return 5


class Short(tuple):
    """A tuple that says it has four parts."""

    def __len__(self):
        return 4


class Silent:
    """What can't be shown."""

    def __repr__(self):
        raise RuntimeError("no")


class Named(str):
    """A name that is every name."""

    def __eq__(self, other):
        return True

    def __hash__(self):
        return hash("hidden")


class Bytes(UUID):
    """A UUID of one byte."""

    bytes = b"x"


def short_id():
    return tuple.__new__(Id, (1,))


# Values of fields: the field, the value, the exception, and words of its message besides the field's name.
VALUES = [
    # wrong lengths
    ("bounds", (0, 0, 64), ValueError, "4 whole numbers, x0, y0, x1 and y1"),
    ("bounds", (0, 0, 64, 64, 64), ValueError, "4 whole numbers"),
    ("bounds", (), ValueError, "4 whole numbers"),
    ("bounds", Short((0, 0)), ValueError, "4 whole numbers"),
    ("move", (1,), ValueError, "2 whole numbers, x and y"),
    ("selection", (5, 0, 5), ValueError, "run and character"),
    ("background_color", (1, 2, 3), ValueError, "red, green, blue and alpha"),
    ("overline", ("wavy", 1, 2, 3), ValueError, "a style, and red, green, blue and alpha"),
    ("overline", (), ValueError, "a style"),
    # out of range
    ("children", [2, LARGE], ValueError, "children[1]: expected a whole number from 0 to 18446744073709551615"),
    ("children", [-1], ValueError, "children[0]"),
    ("active", LARGE, ValueError, "from 0 to 18446744073709551615"),
    ("active", -1, ValueError, "from 0 to"),
    ("bounds", (0, 0, 64, 2**31), ValueError, "bounds[3]: expected a whole number from -2147483648 to 2147483647, got 2147483648"),
    ("bounds", (-(2**31) - 1, 0, 64, 0), ValueError, "bounds[0]"),
    ("move", (0, 2**40), ValueError, "move[1]"),
    ("number", 2**63, ValueError, "from -9223372036854775808 to 9223372036854775807"),
    ("level", LARGE, ValueError, "from 0 to 18446744073709551615"),
    ("level", -1, ValueError, "from 0 to"),
    ("font_size", 2**32, ValueError, "from 0 to 4294967295"),
    ("font_weight", 2**16, ValueError, "from 0 to 65535"),
    ("chars", [256, 65536], ValueError, "chars[1]: expected a whole number from 0 to 65535"),
    ("character_positions", [0, 2**31], ValueError, "character_positions[1]"),
    ("selection", (5, -1, 5, 0), ValueError, "selection[1]"),
    ("background_color", (0, 0, 0, 256), ValueError, "background_color[3]: expected a whole number from 0 to 255"),
    ("underline", ("solid", -1, 0, 0, 0), ValueError, "underline"),
    ("actions", [256], ValueError, "actions[0]: expected a whole number from 0 to 255"),
    ("level", 10**5000, ValueError, "from 0 to"),
    # wrong types
    ("expanded", "false", TypeError, "True or False, got 'false'"),
    ("expanded", 1, TypeError, "True or False"),
    ("expanded", None, TypeError, "True or False"),
    ("disabled", "false", TypeError, "True or False"),
    ("disabled", 0, TypeError, "True or False"),
    ("label", None, TypeError, "a str, got None"),
    ("label", b"Send", TypeError, "a str"),
    ("label", 5, TypeError, "a str"),
    ("label", Silent(), TypeError, "a str, got <Silent"),
    ("number", 0.5, TypeError, "a whole number"),
    ("number", math.nan, TypeError, "a whole number"),
    ("number", math.inf, TypeError, "a whole number"),
    ("number", 1.0, TypeError, "a whole number"),
    ("number", Decimal(1), TypeError, "a whole number"),
    ("number", Fraction(1), TypeError, "a whole number"),
    ("number", "1", TypeError, "a whole number"),
    ("number", True, TypeError, "a whole number"),
    ("level", False, TypeError, "a whole number"),
    ("active", None, TypeError, "a whole number"),
    ("active", BUTTON, TypeError, "a whole number"),
    ("children", 2, TypeError, "a list of whole numbers"),
    ("children", None, TypeError, "a list of whole numbers"),
    ("children", "23", TypeError, "a list of whole numbers"),
    ("children", b"\2\3", TypeError, "a list of whole numbers"),
    ("children", bytearray(b"\2"), TypeError, "a list of whole numbers"),
    ("children", {2, 3}, TypeError, "a list of whole numbers"),
    ("children", {2: 3}, TypeError, "a list of whole numbers"),
    ("children", [2, True], TypeError, "children[1]"),
    ("children", [2, 3.0], TypeError, "children[1]"),
    ("children", [2, "3"], TypeError, "children[1]"),
    ("children", [[2]], TypeError, "children[0]"),
    ("bounds", 5, TypeError, "4 whole numbers"),
    ("bounds", None, TypeError, "4 whole numbers"),
    ("bounds", (0, 0, 64, math.nan), TypeError, "bounds[3]"),
    ("bounds", (0, 0, 64.5, 64), TypeError, "bounds[2]"),
    ("bounds", (False, 0, 64, 64), TypeError, "bounds[0]"),
    ("move", "ab", TypeError, "2 whole numbers"),
    ("overline", "wavy", TypeError, "a style"),
    ("overline", (1, 2, 3, 4, 5), TypeError, "one of solid, dotted"),
    ("tree", "00000000-0000-0000-0000-000000000007", TypeError, "a uuid.UUID"),
    ("tree", b"\0" * 16, TypeError, "a uuid.UUID"),
    ("tree", Bytes(int=7), TypeError, "a uuid.UUID"),
    ("tree", None, TypeError, "a uuid.UUID"),
    ("actions", "Click", TypeError, "a list of actions"),
    ("actions", Role.BUTTON, TypeError, "a list of actions"),
    ("actions", [None], TypeError, "actions[0]"),
    ("actions", [True], TypeError, "actions[0]"),
    ("toggled", True, TypeError, "one of true, false, mixed"),
    ("toggled", None, TypeError, "one of true, false, mixed"),
    ("toggled", ["true"], TypeError, "one of true, false, mixed"),
    # unknown names
    ("toggled", "True", ValueError, "one of true, false, mixed, got 'True'"),
    ("live", "loud", ValueError, "one of off, polite, assertive"),
    ("underline", ("curly", 0, 0, 0, 0), ValueError, "underline[0]: expected one of solid, dotted, dashed, double, wavy, got 'curly'"),
    ("actions", ["click"], ValueError, "actions[0]: expected one of Click, Focus, Increment, Decrement"),
    ("lable", "Send", TypeError, "no such field; those are children, labelled"),
    # texts that aren't UTF-8
    ("label", "\ud800", ValueError, "without surrogates"),
    ("label", "a\udfffb", ValueError, "without surrogates"),
]

# Other calls: what is said of the tree, the exception, and words of its message.
CALLS = {
    "an id that is a number": (lambda tree: tree.label(2), TypeError, "id: expected an Id"),
    "an id that is a tuple": (lambda tree: tree.label((0, 2)), TypeError, "id: expected an Id"),
    "an id that is None": (lambda tree: tree.children(None), TypeError, "id: expected an Id"),
    "a field without a name": (lambda tree: tree.field(BUTTON, "lable"), ValueError, "name: expected one of children, labelled"),
    "a field by its number": (lambda tree: tree.field(BUTTON, 0), TypeError, "name: expected one of children, labelled"),
    "a field in a list": (lambda tree: tree.field(BUTTON, ["label"]), TypeError, "name: expected one of children"),
    "an id of one part": (lambda tree: tree.label(short_id()), ValueError, ""),
    "a node of 65 bits": (lambda tree: tree.label(Id(tree=0, node=LARGE)), ValueError, "id.node: expected a whole number from 0 to"),
    "a node below 0": (lambda tree: tree.label(Id(tree=0, node=-1)), ValueError, "id.node"),
    "a tree of 33 bits": (lambda tree: tree.label(Id(tree=2**32, node=2)), ValueError, "id.tree: expected a whole number from 0 to 429496"),
    "a node that is a float": (lambda tree: tree.bounds(Id(tree=0, node=2.0)), TypeError, "id.node"),
    "a node that is True": (lambda tree: tree.bounds(Id(tree=0, node=True)), TypeError, "id.node"),
    "a tree that is None": (lambda tree: tree.bounds(Id(tree=None, node=2)), TypeError, "id.tree"),
    "a flag without a name": (lambda tree: tree.flag(BUTTON, "hiden"), ValueError, "flag: expected one of hidden, disabled"),
    "a flag by its number": (lambda tree: tree.flag(BUTTON, 0), TypeError, "flag: expected one of hidden, disabled"),
    "a flag in a list": (lambda tree: tree.flag(BUTTON, ["hidden"]), TypeError, "flag: expected one of hidden"),
    "a filter without a name": (lambda tree: tree.filter(BUTTON, "some"), ValueError, "filter: expected one of all, common, common_"),
    "a filter of None": (lambda tree: tree.filtered_children(BUTTON, None), TypeError, "filter: expected one of all"),
    "a movement without a name": (lambda tree: tree.text_move(FIELD, 0, "up"), ValueError, "move: expected one of forward_to_character"),
    "a point of floats": (lambda tree: tree.hit(BUTTON, 0.5, 0), TypeError, "x: expected a whole number"),
    "a point that is no number": (lambda tree: tree.hit(BUTTON, 0, math.nan), TypeError, "y: expected a whole number"),
    "a point far away": (lambda tree: tree.hit(BUTTON, 0, 2**63), ValueError, "y: expected a whole number from -9223372036854775808"),
    "an index below 0": (lambda tree: tree.text_position(FIELD, -1), ValueError, "spot: expected a whole number from 0 to"),
    "an index that is a float": (lambda tree: tree.text_unit(FIELD, 0.5, "word"), TypeError, "spot: expected a whole number"),
    "an index of no number": (lambda tree: tree.text_boxes(FIELD, 0, None), TypeError, "end: expected a whole number"),
    "a spot below 0": (lambda tree: Spot.in_run(5, -1), ValueError, "character: expected a whole number"),
    "a spot of a float": (lambda tree: Spot.point(0.5, 0), TypeError, "x: expected a whole number"),
    "a spot of no side": (lambda tree: Spot.at(1, 1), TypeError, "is_end: expected True or False"),
    "a spot by hand": (lambda tree: tree.text_position(FIELD, Spot("point", x=2**63)), ValueError, "spot.x: expected a whole number"),
    "a spot of no kind": (lambda tree: tree.text_position(FIELD, Spot("middle")), ValueError, "spot.kind: expected one of index, utf16_index"),
    "a spot without parts": (lambda tree: tree.text_position(FIELD, tuple.__new__(Spot, ("index",))), ValueError, "spot: expected a Spot"),
    "a spot with a bad side": (lambda tree: tree.text_test(FIELD, Spot("index", None), "word_start"), TypeError, "spot.is_end"),
    "a wish for more": (lambda tree: tree.text_line(FIELD, 0, wanted=8), ValueError, "wanted: expected a whole number from 0 to 7"),
    "a wish by name": (lambda tree: tree.text_position(FIELD, 0, wanted="line"), TypeError, "wanted: expected a whole number"),
    "what wasn't wished": (lambda tree: tree.text_position(FIELD, 0, wanted=Wanted.LINE).index, AttributeError, "index: was not wanted"),
    "a line below 0": (lambda tree: tree.text_line(FIELD, -1), ValueError, "line: expected a whole number"),
    "a unit without a name": (lambda tree: tree.text_unit(FIELD, 0, "sentence"), ValueError, "unit: expected one of character, format, word"),
    "a test without a name": (lambda tree: tree.text_test(FIELD, 0, "start"), ValueError, "test: expected one of character_after"),
    "a style without a name": (lambda tree: tree.text_style(FIELD, 0, "bold"), ValueError, "style: expected one of text_direction"),
    "a style by its number": (lambda tree: tree.style(FIELD, 0), TypeError, "style: expected one of text_direction"),
    "flags without a name": (lambda tree: tree.flags(BUTTON, ["hidden", "hiden"]), ValueError, "flags: expected one of hidden"),
    "flags in one word": (lambda tree: tree.flags(BUTTON, "hidden"), TypeError, "flags: expected a list of flags"),
    "a mask of flags": (lambda tree: tree.flags(BUTTON, 3), TypeError, "flags: expected a list of flags"),
    "a child below 0": (lambda tree: tree.child_at(BUTTON, -1), ValueError, "index: expected a whole number"),
    "a child that is True": (lambda tree: tree.child_at(BUTTON, True), TypeError, "index: expected a whole number"),
    "an action of 9 bits": (lambda tree: tree.supports_action(BUTTON, 256), ValueError, "action: expected a whole number from 0 to 255"),
    "an action without a name": (lambda tree: tree.supports_action(BUTTON, "click"), ValueError, "action: expected one of Click, Focus"),
    "a role's name of 17 bits": (lambda tree: tree.role_name(2**16), ValueError, "role: expected a whole number from 0 to 65535"),
    "a tree by its words": (lambda tree: tree.subtree_root(str(INNER)), TypeError, "tree: expected a uuid.UUID"),
    "a set by another filter": (lambda tree: tree.set_size(BUTTON, "every"), ValueError, "filter: expected one of all, common"),
    "an index of 65 bits": (lambda tree: tree.text_between(FIELD, 0, LARGE), ValueError, "end: expected a whole number"),
    "an index of None": (lambda tree: tree.text_between(FIELD, None, 1), TypeError, "start: expected a whole number"),
    "a side that is a number": (lambda tree: tree.text_position(FIELD, 0, 1), TypeError, "is_end: expected True or False"),
    "lines as bytes": (lambda tree: tree.feed(b"host on\n"), TypeError, "lines: expected a str"),
    "lines of None": (lambda tree: tree.feed(None), TypeError, "lines: expected a str"),
    "lines with a surrogate": (lambda tree: tree.feed("host on\n\ud800"), ValueError, "lines: expected a str without surrogates"),
    "a line with NUL": (lambda tree: tree.feed("host on\0\n"), accesskit_proved.BadLine, "line 1"),
    "the host's focus as a word": (lambda tree: tree.set_host_focus("off"), TypeError, "is_focused: expected True or False"),
    "the host's focus as a number": (lambda tree: tree.set_host_focus(0), TypeError, "is_focused: expected True or False"),
    "a focus of 65 bits": (lambda tree: tree.update(LARGE), ValueError, "focus: expected a whole number"),
    "a focus of None": (lambda tree: tree.update(None), TypeError, "focus: expected a whole number"),
    "a root below 0": (lambda tree: tree.update(1, root=-1), ValueError, "root: expected a whole number"),
    "a tree by its name": (lambda tree: tree.update(1, tree="root"), TypeError, "tree: expected a uuid.UUID"),
    "a toolkit before a root": (lambda tree: tree.update(1, toolkit="Kit"), ValueError, "toolkit: only goes with a root"),
    "a version before a root": (lambda tree: tree.update(1, version="1"), ValueError, "version: only goes with a root"),
    "a toolkit of bytes": (lambda tree: tree.update(1, root=1, toolkit=b"Kit"), TypeError, "toolkit: expected a str"),
    "a node of 65 bits in an update": (lambda tree: tree.update(2).node(LARGE, "Button"), ValueError, "id: expected a whole number"),
    "a node by an id": (lambda tree: tree.update(2).node(BUTTON, "Button"), TypeError, "id: expected a whole number"),
    "a role without a name": (lambda tree: tree.update(2).node(2, "button"), ValueError, "role: expected one of Unknown, Window"),
    "a role of 17 bits": (lambda tree: tree.update(2).node(2, 2**16), ValueError, "role: expected a whole number from 0 to 65535"),
    "a role below 0": (lambda tree: tree.update(2).node(2, -1), ValueError, "role: expected a whole number"),
    "a role of None": (lambda tree: tree.update(2).node(2, None), TypeError, "role: expected"),
    "a role that is True": (lambda tree: tree.update(2).node(2, True), TypeError, "role: expected"),
    "an update that is built by hand": (lambda tree: Update(None, 1), AttributeError, ""),
    "a tree that is opened again": (lambda tree: tree.__init__(LIBRARY), TypeError, "open already"),
    "a copy": (copy.copy, TypeError, "can't be copied"),
    "a deep copy": (copy.deepcopy, TypeError, "can't be copied"),
    "a pickled tree": (pickle.dumps, TypeError, "can't be copied"),
    "a copied update": (lambda tree: copy.copy(tree.update(2)), TypeError, "can't be copied"),
    "a tree without its beginning": (lambda tree: Tree.__new__(Tree).root(), AttributeError, ""),
    "a library that isn't there": (lambda tree: Tree("/no/such/library.so"), OSError, ""),
    "another library": (lambda tree: Tree("libc.so.6"), OSError, "not this library"),
    "a library by a number": (lambda tree: Tree(5), TypeError, ""),
    "a library by bytes": (lambda tree: Tree(b"library.so"), TypeError, "a path as str"),
}

# Updates that break a rule, by the exception that has its name.
FIRST = "update root focus=1 root=1\nnode 1 Window children=2\nnode 2 GenericContainer tree=00000000-0000-0000-0000-000000000007\nend\n"
INNER = "00000000-0000-0000-0000-000000000007"
ROOT = UUID(int=0)
REFUSALS = {
    "MissingTreeInfo": ("", "update root focus=1\nnode 1 Window\nend\n", None),
    "NotRootTree": ("", f"update {INNER} focus=1 root=1\nnode 1 Window\nend\n", None),
    "MissingData": ("", "update root focus=1 root=1\nnode 1 Window children=2\nend\n", 2),
    "NotReached": (FIRST, "update root focus=1\nnode 9 Button\nend\n", 9),
    "NamedTwice": (FIRST, "update root focus=1\nnode 1 Window children=2\nnode 1 Window children=2\nend\n", 1),
    "ListedTwice": (FIRST, "update root focus=1\nnode 1 Window children=2,3\nnode 3 Button children=2\nend\n", 2),
    "RootTreeGrafted": (FIRST, "update root focus=1\nnode 2 GenericContainer tree=root\nend\n", 2),
    "GraftWithChildren": (FIRST, f"update root focus=1\nnode 2 GenericContainer tree={INNER} children=3\nnode 3 Button\nend\n", 2),
    "GraftedTwice": (FIRST, f"update root focus=1\nnode 1 Window children=2,3\nnode 3 Image tree={INNER}\nend\n", UUID(INNER)),
    "NoGraft": (FIRST, "update 00000000-0000-0000-0000-000000000008 focus=1 root=1\nnode 1 Window\nend\n", UUID(int=8)),
    "NoFirstTreeInfo": (FIRST, f"update {INNER} focus=1\nnode 1 Window\nend\n", UUID(INNER)),
    "FocusMissing": (FIRST, "update root focus=9\nend\n", 9),
    "FocusOnEmptyGraft": (FIRST, "update root focus=2\nend\n", UUID(INNER)),
}


class Checks:
    """Counts what passed, and says what failed."""

    def __init__(self):
        self.passed, self.failed = 0, 0

    def that(self, holds, what):
        self.passed, self.failed = self.passed + bool(holds), self.failed + (not holds)
        if not holds:
            print(what)

    def raises(self, what, call, kind, *words):
        """The call has to raise exactly this kind of exception, with these words in its message."""
        try:
            call()
        except Exception as error:
            said = f"{type(error).__name__}: {error}"
            self.that(type(error) is kind or (kind is OSError and isinstance(error, OSError)), f"{what}: raises {said}")
            self.that(all(word in str(error) for word in words), f"{what}: says {said!r}, without {words}")
        else:
            self.that(False, f"{what}: is accepted")


def fed():
    tree = Tree(LIBRARY)
    tree.feed(SCRIPT)
    return tree


def seen(tree):
    """What the tree has, to compare."""
    ids = [BUTTON, FIELD, *tree.filtered_children(tree.root(), "all")]
    texts = [(tree.label(it), tree.role_word(it), tree.text(it)) for it in ids]
    return tree.root(), tree.focus(), tree.children(tree.root()), texts, tree.events()


def values(checks):
    """Each bad value of a field: nothing is added to the update, which is as none before it is sent."""
    with fed() as tree:
        before = seen(tree)
        update = tree.update(2)
        for name, value, kind, words in VALUES:
            what = f"{name}={value if not isinstance(value, (Silent, int)) else '..'!r}"
            checks.raises(what, lambda: update.node(2, "Button", **{"label": "No", name: value}), kind, name, words)
        checks.that(seen(tree) == before, "a bad value changes the tree")
        update.node(2, "Button", label="Yes").send()
        checks.that(tree.label(BUTTON) == "Yes" and len(tree.events()) == 1, "an update with bad values isn't sent as one without them")


def calls(checks):
    with fed() as tree:
        before = seen(tree)
        for what, (call, kind, words) in CALLS.items():
            checks.raises(what, lambda: call(tree), kind, words)
        checks.that(seen(tree) == before, "a bad call changes the tree")
        for name, given in members(tree):
            if given[:1] in ((BUTTON,), (FIELD,)):
                asked = lambda: getattr(tree, name)(ABSENT, *given[1:])
                checks.raises(f"{name} of a node that isn't there", asked, accesskit_proved.NoNode, "no node 99 in tree 0")


class Index:
    """A number of another library."""

    def __index__(self):
        return 2


def odd_values(checks):
    """What is unusual, and no misuse: it means what it says."""
    with fed() as tree:
        tree.update(2).node(2, "Button", label=Loud("Send\0it"), actions=(it for it in ["Click", 255])).send()
        checks.that(tree.label(BUTTON) == "Send\0it", "a text of a subclass, with NUL")
        checks.that(tree.label(Id(tree=0, node=Index())) == "Send\0it", "an id by __index__")
        tree.update(Index()).node(Index(), Role.BUTTON, label="Send").send()
        checks.that((tree.role(BUTTON), tree.label(BUTTON)) == ("Button", "Send"), "a node by __index__")
        for name, value in (("level", Odd(LARGE)), ("children", [Odd(LARGE)])):
            checks.raises("numbers that are within every range", lambda: tree.update(2).node(2, "Button", **{name: value}), ValueError, name)
        checks.that(tree.flag(BUTTON, Named("hidden")) is False, "a name that is every name")
        text = "aé😀" * 2**18
        tree.update(2).node(2, "Button", label=text).send()
        checks.that(tree.label(BUTTON) == text, "a text of 7 bytes * 2^18")
        many = tree.update(2).node(2, "List", children=range(100, 50_100))
        for id in range(100, 50_100):
            many.node(id, "ListItem")
        many.send()
        checks.that([it.node for it in tree.children(BUTTON)] == list(range(100, 50_100)), "50,000 children")
        checks.that([it.kind for it in tree.events()].count("added") == 50_000, "50,000 added nodes")


def updates(checks):
    """Two updates of one tree that are built at a time, one that is sent twice, and those that aren't sent."""
    with fed() as tree:
        first, second = tree.update(2), tree.update(3)
        first.node(2, "Button", label="First")
        second.node(3, "TextInput", label="Second", children=[5])
        first.node(4, "GenericContainer", label="First too", tree=UUID(int=7))
        second.send()
        checks.that((tree.label(BUTTON), tree.label(FIELD), tree.focus()) == ("Send", "Second", FIELD), "the second update alone")
        tree.feed("update root focus=3\nend\n")
        first.send()
        labels = [tree.label(Id(tree=0, node=it)) for it in (2, 3, 4)]
        checks.that((labels, tree.focus()) == (["First", "Second", "First too"], BUTTON), f"the first update afterwards: {labels}")
        checks.raises("an update that is sent twice", first.send, ValueError, "sent already")
        checks.raises("a node after it is sent", lambda: first.node(2, "Button", label="Late"), ValueError, "sent already")
        bad = tree.update(9)
        checks.raises("a refused update", bad.send, accesskit_proved.FocusMissing, "node 9")
        checks.raises("a refused update again", bad.send, ValueError, "sent already")
        tree.update(2).node(2, "Button", label="Forgotten")
        with tree.update(2) as update:
            update.node(2, "Button", label="Within")
        checks.that(tree.label(BUTTON) == "Within", "an update in a with")
        try:
            with tree.update(2) as update:
                update.node(2, "Button", label="Not sent")
                raise KeyError
        except KeyError:
            pass
        checks.that(tree.label(BUTTON) == "Within", "an exception in a with")
        with tree.update(2) as update:
            update.node(2, "Button", label="Once")
            update.send()
        checks.that(tree.label(BUTTON) == "Once", "an update that is sent in its with")


def library_name(rule):
    """The name that the library has for a rule."""
    name, length = ctypes.create_string_buffer(64), ctypes.c_size_t()
    Tree(LIBRARY)._calls.ak_rule_name(rule, name, 64, length)
    return name.raw[: length.value].decode()


def refusals(checks):
    """An exception for each rule that lines can break, and one that a caller makes."""
    for name, (before, lines, about) in REFUSALS.items():
        with Tree(LIBRARY) as tree:
            tree.feed(before)
            checks.raises(name, lambda: tree.feed(lines), getattr(accesskit_proved, name), name, str(about or name))
            try:
                tree.feed(lines)
            except Refused as refused:
                found = refused.node, refused.tree, refused.done
                checks.that(found == ((None, about, 0) if isinstance(about, UUID) else (about, None, 0)), f"{name} is about {found}")
    rules = Refused.__subclasses__()
    checks.that([library_name(it.RULE) for it in rules] == [it.__name__ for it in rules], "the library's names of rules")
    checks.that(sorted(it.RULE for it in rules) == list(range(1, 15)), "each rule has one exception")
    checks.that({it.__name__ for it in rules} == REFUSALS.keys() | {"IndexesUsedUp"}, "the rules' names")
    inner, errors = UUID(INNER), accesskit_proved
    with fed() as tree:
        at = tree.text_position(FIELD, 1, wanted=Wanted.LINE)
        again = pickle.loads(pickle.dumps(at)), copy.copy(at), copy.deepcopy(at)
        checks.that(again == (at, at, at) and len({at, *again}) == 1 and at != tree.text_position(FIELD, 1), "a position that is copied")
    for error in (errors.MissingData(4, ROOT), errors.NoGraft(0, inner, 1), errors.BadLine(3), errors.NoMemory(2), errors.NoNode(BUTTON), Closed()):
        again = pickle.loads(pickle.dumps(error))
        checks.that((type(again), str(again), vars(again)) == (type(error), str(error), vars(error)), f"{error!r} pickled")
        checks.that(isinstance(error, Error), f"{error!r} is an Error")


def members(tree):
    """Each call of a tree, with values that it accepts."""
    yield from ((name, ()) for name in ("root", "focus", "events"))
    for name in ("declared_focus", "is_host_focused", "active_dialog", "subtree_root", "toolkit_name", "toolkit_version"):
        yield name, ()
    for name in "parent children role role_word label value text bounds filter filtered_parent filtered_children toggled is_selected".split():
        yield name, (BUTTON,)
    for name in "orientation live flags child_count index_in_parent filtered_child_count filtered_index set_size position_in_set".split():
        yield name, (BUTTON,)
    for name in "size_of_set_from_container active_descendant deepest_first_child deepest_last_child selection_container".split():
        yield name, (BUTTON,)
    for name in "labelled_by controls preceding_siblings following_siblings descendants items preceding_filtered_siblings".split():
        yield name, (BUTTON,)
    for name in "following_filtered_siblings filtered_descendants transform tree_id text_length text_defect".split():
        yield name, (BUTTON,)
    yield from (("child_at", (BUTTON, 0)), ("supports_action", (BUTTON, "Click")), ("own_point", (BUTTON, 0, 0)), ("style", (BUTTON, "italic")))
    yield from (("text_test", (FIELD, 0, "word_start")), ("text_unit", (FIELD, 0, "word")), ("text_line", (FIELD, 0)))
    yield from (("text_boxes", (FIELD, 0, 1)), ("text_style", (FIELD, 0, "language")), ("text_differs", (FIELD, 0, 1, "italic")))
    yield from ((name, (FIELD,)) for name in ("text_selection_anchor", "text_selection_focus"))
    yield from (("field", (BUTTON, "label")), ("flag", (BUTTON, "hidden")), ("hit", (BUTTON, 0, 0)), ("text_position", (FIELD, 0)), ("text_between", (FIELD, 0, 1)))
    yield from (("text_move", (FIELD, 0, "document_end")), ("feed", ("host on\n",)), ("set_host_focus", (True,)), ("update", (2,)))


def closed(checks):
    tree = fed()
    begun = tree.update(2)
    tree.close()
    tree.close()
    checks.that(tree.closed, "a closed tree")
    known = {name for name, it in inspect.getmembers(Tree, inspect.isfunction) if not name.startswith("_")}
    others = known ^ {name for name, _ in members(tree)}
    checks.that(others == {"close", "role_name"}, f"the calls of a closed tree that aren't tried: {others}")
    for name, given in members(tree):
        checks.raises(f"{name} of a closed tree", lambda: getattr(tree, name)(*given), Closed, "closed")
    checks.raises("an update of a closed tree", begun.send, Closed, "closed")
    checks.raises("a node of a closed tree's update", lambda: begun.node(2, "Button"), ValueError, "sent already")


class Closing:
    """A number that closes the tree when it is read."""

    def __init__(self, tree):
        self.tree = tree

    def __index__(self):
        self.tree.close()
        return 2


def reentrant(checks):
    """Calls from within a call: as a value is read, as a signal arrives, and as the garbage collector ends something."""
    tree = fed()
    checks.raises("an id that closes the tree", lambda: tree.label(Id(tree=0, node=Closing(tree))), Closed, "closed")
    tree = fed()
    update = tree.update(2)
    checks.raises("children that close the tree", lambda: update.node(2, "Button", children=[Closing(tree)]).send(), Closed, "closed")

    def feeding():
        tree.feed('update root focus=2\nnode 2 Button label="Fed"\nend\n')
        yield 6

    tree = fed()
    tree.update(2).node(3, "TextInput", label="Sent", children=feeding()).node(6, "TextRun", value="").send()
    checks.that((tree.label(BUTTON), tree.label(FIELD)) == ("Fed", "Sent"), "children that feed the tree")

    answers = set()

    def handler(number, frame):
        try:
            tree.update(2).node(2, "Button", label="By a signal").send()
            answers.add(tree.label(BUTTON) == "By a signal")
        except RuntimeError as error:
            answers.add(str(error))

    signal.signal(signal.SIGALRM, handler)
    signal.setitimer(signal.ITIMER_REAL, 0.0005, 0.0005)
    wrong = 0
    for turn in range(400):
        update = tree.update(2)
        for id in (3, 4):
            update.node(id, "Image", label=f"{turn} {id}", description="x" * 99)
        update.send()
        wrong += [tree.label(Id(tree=0, node=id)) for id in (3, 4)] != [f"{turn} 3", f"{turn} 4"]
    signal.setitimer(signal.ITIMER_REAL, 0)
    checks.that(not wrong, f"{wrong} updates are mixed with those of a signal")
    checks.that(answers and answers <= {True, "the tree is being sent an update"}, f"a signal's update: {answers}")

    class Ending:
        def __del__(self):
            ended.append(tree.label(BUTTON))

    ended = []
    for _ in range(50):
        it = Ending()
        it.itself = it
        del it
        tree.events()
    gc.collect()
    checks.that(len(ended) == 50 and set(ended) == {tree.label(BUTTON)}, "calls by what the garbage collector ends")
    tree.close()


def collected(checks):
    """Trees that go out of use, also in a circle, are closed."""
    tree = fed()
    tree.itself = tree
    update, gone = tree.update(2), weakref.ref(tree)
    del tree
    gc.collect()
    checks.that(gone() is not None, "a tree of which there is an update")
    update.node(2, "Button", label="Kept").send()
    del update
    gc.collect()
    checks.that(gone() is None, "a tree in a circle")


def threads(checks):
    """Four threads read and change one tree, and one of them closes it at the end."""
    tree, wrong, done = fed(), [], threading.Barrier(4)

    def work(own):
        id = Id(tree=0, node=100 + own)
        for turn in range(300):
            label = f"{own} {turn} " + "x" * (turn % 90 * own)
            with tree.update(2) as update:
                update.node(id.node, "Button", label=label)
            if (tree.label(id), tree.role(id), tree.parent(id)) != (label, "Button", Id(tree=0, node=2)):
                wrong.append((own, turn))
        done.wait()
        if own == 0:
            tree.close()
        while True:
            try:
                if tree.label(id) != label:
                    wrong.append((own, "last"))
            except Closed:
                return

    with tree.update(2) as update:
        update.node(2, "List", children=[100, 101, 102, 103])
        for it in range(100, 104):
            update.node(it, "Button")
    every = [threading.Thread(target=work, args=(own,)) for own in range(4)]
    for it in every:
        it.start()
    for it in every:
        it.join()
    checks.that(not wrong, f"threads: {wrong[:5]}")


def documented(checks):
    """Each public name says what it is."""
    for name in accesskit_proved.__all__:
        it = getattr(accesskit_proved, name)
        checks.that(name in ("FIELDS", "END", "ANCHOR", "CARET") or (inspect.getdoc(it) and it.__doc__), f"{name} has no docstring")
        for part, value in inspect.getmembers(it) if inspect.isclass(it) else ():
            if not part.startswith("_") and (inspect.isfunction(value) or isinstance(value, property)):
                checks.that(value.__doc__, f"{name}.{part} has no docstring")
    checks.that(len(FIELDS) > 70 and accesskit_proved.__doc__, "the package has no docstring")


def main():
    checks = Checks()
    for check in (values, calls, odd_values, updates, refusals, closed, reentrant, collected, threads, documented):
        check(checks)
    print(f"{checks.passed} passed, {checks.failed} failed")
    return 1 if checks.failed else 0


if __name__ == "__main__":
    LIBRARY = sys.argv[1]
    sys.exit(main())
