"""Random texts: fields with runs of all kinds, some of which make no text."""

from model.fields import ROOT
from model.worlds import Node, Update
from model.texts import broken_rules, runs_of
from made_up.maker import CHARACTERS, tree_of

ROLES = "TextInput TextInput MultilineTextInput MultilineTextInput PasswordInput PasswordInput Document Label Terminal".split()

VALUES = [None, None, None, "own", "\u00e4\u00e4", ""]


def characters(dice, least, is_alike=False):
    """Some characters. A newline may end them."""
    some = [dice.choice(CHARACTERS)] if is_alike else CHARACTERS
    found = [dice.choice(some) for _ in range(dice.randint(least, 4))]
    return [*found, "\n"] if dice.one_in(3) else found


def of_characters(found):
    """The value and the lengths of a run of these characters."""
    value = "".join(found)
    return {"value": value, "chars": tuple(len(one.encode()) for one in found)}


def run(maker, least=1, is_alike=False):
    """A run, with words that start anywhere."""
    found = characters(maker.dice, least, is_alike)
    words = tuple(word for word in range(len(found)) if maker.dice.one_in(3))
    node = Node("TextRun", words=words, **of_characters(found))
    return node._replace(value=None) if not found and maker.dice.one_in(2) else node


def text_runs(maker, numbers):
    """Runs with these numbers, of which neighbours may be linked, and the last may be empty."""
    is_alike = maker.dice.one_in(8)
    runs = {number: run(maker, is_alike=is_alike) for number in numbers}
    if numbers and maker.dice.one_in(4):
        runs[numbers[-1]] = run(maker, least=0)
    for one, other in zip(numbers, numbers[1:]):
        if maker.dice.one_in(2):
            runs[one] = runs[one]._replace(next=other)
            runs[other] = runs[other]._replace(prev=one)
    return runs


# ---- runs that make no text


def spoil_cuts(maker, runs, numbers):
    """The lengths are short, are long, have a zero, or cut a character."""
    number = maker.dice.choice(numbers)
    lengths = runs[number].chars
    others = [lengths[:-1], (*lengths, 1), (*lengths, 0), (1,) * sum(lengths), (sum(lengths),) if lengths else (65535,)]
    runs[number] = runs[number]._replace(chars=maker.dice.choice(others))


def spoil_words(maker, runs, numbers):
    """A word starts twice, past the end, or before the one before it."""
    number = maker.dice.choice(numbers)
    count = len(runs[number].chars)
    runs[number] = runs[number]._replace(words=maker.dice.choice([(0, 0), (count,), (1, 0), (65535,)]))


def spoil_links(maker, runs, numbers):
    """A link leads anywhere."""
    number = maker.dice.choice(numbers)
    link = maker.dice.choice([None, *numbers, numbers[0] - 1])
    runs[number] = runs[number]._replace(**{maker.dice.choice(["prev", "next"]): link})


def spoil_empty(maker, runs, numbers):
    """A run is empty, and not always the last."""
    number = maker.dice.choice(numbers)
    runs[number] = runs[number]._replace(value="", chars=(), words=())


SPOILING = [spoil_cuts, spoil_words, spoil_links, spoil_empty]


# ---- fields


def field(maker, number):
    """A field with this number and those after it, most often one with a text: its nodes."""
    dice = maker.dice
    numbers = list(range(number + 1, number + 1 + dice.choice([0, 1, 2, 2, 3, 3, 4])))
    runs = text_runs(maker, numbers)
    if numbers and dice.one_in(4):
        dice.choice(SPOILING)(maker, runs, numbers)
    role = dice.choice(ROLES) if not dice.one_in(12) else "Button"
    nodes = {number: Node(role, children=tuple(numbers), value=dice.choice(VALUES)), **runs}
    if len(numbers) > 1 and dice.one_in(4):
        wrap(dice, nodes, number, max(nodes) + 1)
    return nodes


def wrap(dice, nodes, number, container):
    """Puts some of a node's children, next to one another, into a container of any role."""
    children = nodes[number].children
    start = dice.randrange(len(children))
    end = dice.randint(start + 1, len(children))
    nodes[number] = nodes[number]._replace(children=children[:start] + (container,) + children[end:])
    role = dice.choice(["GenericContainer", "Link", "Label", "TextInput", "PasswordInput", "TextRun"])
    nodes[container] = Node(role, children=children[start:end])


def form(maker, tree=ROOT):
    """An update that brings in a window or a document with some fields, and what they label."""
    dice, base = maker.dice, maker.base
    nodes, numbers = {}, []
    for _ in range(dice.randint(1, 3)):
        numbers.append(base + 1 + len(nodes))
        nodes.update(field(maker, numbers[-1]))
    others = base + 1 + len(nodes)
    nodes[others] = Node("CheckBox", labelled=tuple(dice.choice(list(nodes)) for _ in range(2)))
    nodes[others + 1] = Node("Button", children=(others + 2,))
    nodes[others + 2] = Node("GenericContainer", tree=tree_of(1)) if tree == ROOT else Node("Label", value="l")
    role = dice.choice(["Window", "Document", "Document", "Button"])
    nodes[base] = Node(role, children=(*numbers, others, others + 1))
    named = list(nodes.items())
    dice.shuffle(named)
    return Update(tree, base, base, tuple(named))


def grafted_run(maker):
    """An update of a grafted tree that is a run alone, or has one."""
    base = maker.base
    nodes = [(base, run(maker)), (base, Node("Label", children=(base + 1,))), (base, Node("Link", children=(base + 1,)))]
    root = maker.dice.choice(nodes)
    named = (root, (base + 1, run(maker))) if root[1].children else (root,)
    return Update(tree_of(1), base, base, named)


def another_run(maker):
    """An update that sends a run again with other characters; its links stay, most often."""
    world = maker.world
    runs = sorted({id for root in sorted(world.nodes) if not broken_rules(world, root) for id in runs_of(world, root)})
    if not runs:
        return Update(ROOT, maker.base)
    index, number = maker.dice.choice(runs)
    old, new = world.nodes[index, number], run(maker, least=0)
    if not maker.dice.one_in(8):
        new = new._replace(prev=old.prev, next=old.next, children=old.children)
    return Update(world.known[index], maker.base, None, ((number, new),))


def make_texts(maker):
    """Makes up some fields, asks of their texts, sends runs again, and asks again."""
    maker.send(form(maker))
    maker.ask_of_texts(24)
    if maker.dice.one_in(2):
        maker.send(grafted_run(maker) if maker.dice.one_in(2) else form(maker, tree_of(1)))
        maker.ask_of_texts(8)
    for _ in range(2):
        maker.send(another_run(maker))
        maker.ask_of_texts(12)
