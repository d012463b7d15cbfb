"""Generates random scripts: lines of updates and queries, with the model's output for each, and counts the cases covered."""

import random
import uuid
from collections import Counter, namedtuple

from model import fields
from model.fields import ROOT
from model.worlds import children, node_named, places, root_of
from model.scripts import Play, field_word
from model.texts import (
    HOLDS_TEXT,
    LABELLED_FROM_WITHIN,
    MOVES,
    broken_rules,
    flat_text,
    is_text,
    needs_masking,
    runs_of,
    value_of,
)
from model.views import FILTERS, ITEMS, bounding_box, common_filter, is_clipped, moved, preorder, upward

# How many numbers of nodes are used, and seldom; from which on; the numbers of trees' names lie below the last.
SIZES = [4, 9, 9, 9, 9, 30]
MANY = 120
BASES = [0, 0, 0, 2**64 - 2 * MANY]
TREES = 6

# Characters of runs.
CHARACTERS = ["a", "b", "c", " ", "\u00e4", "\U0001f44d", "e\u0301", '"', "\\"]

QUESTIONS_OF_NODES = ["children", "following", "preceding", "label", "value", "set", "hit"]
QUESTIONS_OF_FILTERS = ["filtered", "following_filtered", "preceding_filtered"]
QUESTIONS_OF_TEXTS = ["text", "value", "indexes", "between", "move", "move", "move"]
QUESTIONS = sorted({*QUESTIONS_OF_NODES, *QUESTIONS_OF_FILTERS, *QUESTIONS_OF_TEXTS})

# Values of a field, by how it is read.
NUMBERS = [0, 1, -1, 2**63 - 1, -(2**63)]
COUNTS = [0, 1, 2, 2**64 - 1]
COLORS = [(0, 0, 0, 255), (255, 128, 0, 0)]
LINES = [("solid", *COLORS[0]), ("wavy", *COLORS[1]), ("dotted", *COLORS[0])]
VALUES = {
    bool: [True],
    str: ["", "a", "b", "a b", "\\", '="', '\n"\\'],
    fields.coordinate: NUMBERS,
    fields.number: COUNTS,
    fields.narrow: [0, 1, 2**32 - 1],
    fields.short: [0, 1, 2**16 - 1],
    fields.units: [(), (0,), (-(2**31), 2**31 - 1)],
    fields.actions: [frozenset(["Click"]), frozenset(["Other(255)", "Focus", "Decrement"])],
    fields.decoration: LINES,
}
OTHER_VALUES = {
    "controls": [(0,), (1, 2**64 - 1)],
    "selection": [((0, 0), (0, 1)), ((2**64 - 1, 2**64 - 1), (0, 0))],
    **dict.fromkeys(["background_color", "foreground_color"], COLORS),
}


def values_of(name):
    """What may be said of a field."""
    kind = fields.FIELDS[name]
    return OTHER_VALUES.get(name) or VALUES.get(kind) or kind.words


# What may be said of a control besides what makers of trees and texts say. Of a set's size and a position questions tell, of the others
# whether they changed.
ELSEWHERE = "children labelled tree active label value hidden clips bounds move chars words prev next".split()
CONTROLS = {name: values_of(name) for name in fields.FIELDS if name not in ELSEWHERE}

# What may be said of how a text looks. A format begins where one of these changes.
LOOKS = {
    name: CONTROLS[name]
    for name in (
        "font_family language font_size font_weight background_color foreground_color overline strikethrough underline text_align"
        " vertical_offset"
    ).split()
}

# A line that is said, how it ends, what the model says of it, and the worlds before and after it.
Step = namedtuple("Step", "line end told old new")


class Dice(random.Random):
    """Gives the same for the same seed."""

    def one_in(self, bound):
        """Whether a number below the bound is 0."""
        return self.randrange(bound) == 0


def tree_of(number):
    """The name of a tree by its number; that of the root tree is 0."""
    return str(uuid.UUID(int=number))


class Maker:
    """A script while it is made up, with what the model says of each of its lines."""

    def __init__(self, seed):
        self.dice = Dice(seed)
        self.base = self.dice.choice(BASES)
        self.size = MANY if self.dice.one_in(80) else self.dice.choice(SIZES)
        self.play = Play()
        self.steps = []
        self.met = Counter()
        # By dice of their own, so that all else is as it is without them.
        self.controls = Dice(f"controls {seed}")
        self.has_controls = self.controls.one_in(4)

    @property
    def world(self):
        """The world that the model has come to."""
        return self.play.world

    def number(self):
        """Any number of a node."""
        return self.base + self.dice.randrange(self.size)

    def say(self, line):
        """Adds a line, now and then after one that says nothing."""
        if self.dice.one_in(60):
            self.say(self.dice.choice(["", "#", "# \u00e4 print"]))
        old = self.world
        told = self.play.line(line.encode())
        end = "\r\n" if self.dice.one_in(60) else "\n"
        self.steps.append(Step(line, end, told, old, self.world))
        self.met.update(kinds_of_step(self.steps[-1]))

    def send(self, update):
        """Adds an update's lines, in some scripts with what is said of controls."""
        self.say_update(self.controlled(update))

    def controlled(self, update):
        """The update, in some scripts with what is said of controls."""
        if not self.has_controls:
            return update
        nodes = ((number, with_control(node, self.controls)) for number, node in update.nodes)
        return update._replace(nodes=tuple(nodes))

    def say_update(self, update):
        """Adds an update's lines."""
        for line in update_lines(update, self.dice):
            self.say(line)

    def ask(self, word):
        """Adds a question of this word."""
        self.say(" ".join([word, *map(str, words_of_question(self, word))]))

    def ask_any(self, count):
        """Adds some questions."""
        for _ in range(count):
            if self.dice.one_in(12):
                self.say(self.dice.choice(["print", "focus"]))
            else:
                self.ask(self.dice.choice(QUESTIONS_OF_NODES + 2 * QUESTIONS_OF_FILTERS + QUESTIONS_OF_TEXTS))

    def ask_of_texts(self, count):
        """Adds some questions, most of them of texts."""
        for _ in range(count):
            self.ask("label" if self.dice.one_in(8) else self.dice.choice(QUESTIONS_OF_TEXTS))

    def set_host(self):
        """Has the host window get the focus, or lose it."""
        self.say(self.dice.choice(["host on", "host on", "host off"]))

    def script(self, count=None):
        """The script, or its first so many lines."""
        return "".join(step.line + step.end for step in self.steps[:count]).encode()

    def told(self, count=None):
        """What the model says of it."""
        return [line for step in self.steps[:count] for line in step.told]


def with_control(node, dice):
    """The node, often with something that is said of a control."""
    if dice.one_in(3):
        return node
    name = dice.choice(list(CONTROLS))
    return node._replace(**{name: dice.choice(CONTROLS[name])})


# ---- lines


def tree_word(name, dice):
    """A tree's name in any form."""
    if name == ROOT and not dice.one_in(20):
        return "root"
    if not dice.one_in(10):
        return name
    return dice.choice([name.upper(), name.replace("-", ""), "{" + name + "}", "urn:uuid:" + name])


def field_words(given, dice):
    """The words of fields with these values, in any order."""
    words = []
    for name, value in given:
        if isinstance(value, frozenset):
            value = dice.sample(sorted(value), len(value))
        words += field_word(name, value)
    dice.shuffle(words)
    return words


def update_lines(update, dice):
    """The lines of an update."""
    head = [("focus", update.focus), ("root", update.root)]
    yield " ".join(["update", tree_word(update.tree, dice), *field_words(head, dice)])
    for number, node in update.nodes:
        given = [(name, value) for name, value in zip(node._fields, node) if value is not None and value is not False]
        given = [(name, value) for name, value in given if name not in ("role", "tree")]
        given.append(("tree", node.tree and tree_word(node.tree, dice)))
        yield " ".join(["node", str(number), node.role, *field_words(given, dice)])
    yield "end"


# ---- questions


def has_text(world, id):
    """Whether the node's runs make a text."""
    return world.nodes[id].role in HOLDS_TEXT and is_text(world, id)


# Which nodes most questions of a word are about.
SUBJECTS = {
    "label": lambda world, id: world.nodes[id].labelled or world.nodes[id].role in LABELLED_FROM_WITHIN,
    "set": lambda world, id: world.nodes[id].role in ITEMS,
    "hit": lambda world, id: world.nodes[id].bounds or children(world, id),
    "value": lambda world, id: world.nodes[id].value is not None or has_text(world, id),
    **dict.fromkeys(["text", "indexes", "between", "move"], has_text),
}


def words_of_question(maker, word):
    """What is said after a question's word."""
    id = any_subject(maker, word)
    yield id[1]
    yield tree_word(maker.world.known[id[0]] if id[0] < len(maker.world.known) else tree_of(TREES), maker.dice)
    if word == "hit":
        yield from any_point(maker, id)
    if word in ("indexes", "between", "move"):
        yield from any_place(maker, id)
    if word == "between":
        yield from any_place(maker, id)
    if word == "move":
        yield maker.dice.choice(list(MOVES))
    if word in ("hit", "set", *QUESTIONS_OF_FILTERS) and maker.dice.one_in(2) and "move" in QUESTIONS_OF_TEXTS:
        yield maker.dice.choice(list(FILTERS))


def any_subject(maker, word):
    """A node, most often one that the word is about, and seldom one that may not be there."""
    if not maker.world.nodes or maker.dice.one_in(16):
        return maker.dice.randrange(TREES), maker.number()
    ids = sorted(maker.world.nodes)
    is_subject = SUBJECTS.get(word, lambda world, id: True)
    some = [id for id in ids if is_subject(maker.world, id)]
    if word in QUESTIONS_OF_TEXTS and maker.dice.one_in(4):
        some = [id for id in ids if runs_of(maker.world, id)]
    return maker.dice.choice(some if some and not maker.dice.one_in(8) else ids)


def any_point(maker, top):
    """A point at an edge of a node below the upper one, as that one sees it."""
    if top not in maker.world.nodes or maker.dice.one_in(20):
        return maker.dice.choice([0, -(2**63), 2**63 - 1]), maker.dice.randint(-30, 30)
    found = [id for id in preorder(maker.world, top) if maker.world.nodes[id].bounds] or [top]
    x0, y0, x1, y1 = bounding_box(maker.world, maker.dice.choice(found)) or (0, 0, 0, 0)
    x, y = moved(maker.world, upward(maker.world, top))
    return at_edge(maker.dice, x0, x1) - x, at_edge(maker.dice, y0, y1) - y


def at_edge(dice, start, end):
    """A number beside the start or the end of a span, or in it."""
    return dice.choice([start - 1, start, start, (start + end) // 2, end - 1, end])


def any_place(maker, id):
    """An index in a text, and a side."""
    is_there = id in maker.world.nodes and is_text(maker.world, id)
    length = sum(map(len, flat_text(maker.world, id).characters)) if is_there else 2
    index = maker.dice.randint(0, length) if not maker.dice.one_in(20) else maker.dice.choice([length + 1, 2**64 - 1])
    return index, maker.dice.choice(["start", "end"])


# ---- what is met


def kinds_of_step(step):
    """What is met at a line."""
    words, told = step.line.split(" "), step.told
    if words[0] == "end":
        yield from kinds_of_outcome(told[-1])
        yield from kinds_of_trees(step.old, step.new)
    if words[0] in ("end", "host"):
        yield from ("event " + line.split(" ")[0] for line in told[:-1])
    if len(words) > 2 and words[0] not in ("update", "node", "#"):
        yield from kinds_of_answer(step.old, words, told[0])


def kinds_of_outcome(last):
    """What came of an update."""
    if last == "ok":
        yield "accepted"
        return
    yield "refused"
    names = sorted({fault.split(" ")[0] for fault in last[8:].split(" or ")})
    yield from ("fault " + name for name in names)
    if len(names) == 1:
        yield f"fault {names[0]} alone"


def kinds_of_trees(old, new):
    """What came of grafts and their trees."""
    for index in {*old.trees, *new.trees} - {0}:
        if index not in old.trees:
            yield "a tree comes again" if index < len(old.known) else "a tree comes"
        elif index not in new.trees:
            yield "a tree goes"
        elif places(old)[root_of(old, index)] != places(new)[root_of(new, index)]:
            graft = places(old)[root_of(old, index)][0]
            yield "a tree moves" if graft[0] in new.trees else "a tree moves out of one that goes"


def kinds_of_answer(world, words, told):
    """What is met at a question about a node."""
    kind = told if told in ("no tree", "no node", "no text") else "none" if told in ("none", "-", "- -") else "some"
    yield f"{words[0]}: {kind}"
    yield from (f"{word}: {kind}" for word in words[3:] if word in MOVES or word in FILTERS)
    id = node_named(world, int(words[1]), ROOT if words[2] == "root" else str(uuid.UUID(words[2])))
    if id is None:
        return
    if words[0] in QUESTIONS_OF_TEXTS:
        yield from kinds_of_text(world, id)
    if words[0] == "label":
        yield "label, own" if world.nodes[id].label is not None else f"label, of others: {kind}"
    if words[0] in ("hit", "set", *QUESTIONS_OF_FILTERS):
        yield f"a node is {common_filter(world, id)}"
        if is_clipped(world, id):
            yield "a node is clipped"


def kinds_of_text(world, id):
    """What is met where a text is asked for."""
    broken = broken_rules(world, id)
    node = world.nodes[id]
    yield from (f"no text for its {rule}" for rule in broken)
    if node.value is not None and node.role == "PasswordInput":
        masked = "masked" if value_of(world, id) != node.value else "shown"
        yield f"own value of a password {'without' if broken else 'with'} a text is {masked}"
    if broken:
        return
    text = flat_text(world, id)
    if node.role == "PasswordInput":
        yield "password masked" if needs_masking(world, id) else "password shown"
    yield "text of one line" if len(text.line_ends) == 1 else "text of many lines"
    yield "text of many paragraphs" if len(text.paragraph_ends) > 1 else "text of one paragraph"
    if any(run.is_linked_on for run in text.runs):
        yield "text of linked runs"
    if not text.runs[-1].characters:
        yield "text with an empty run"
