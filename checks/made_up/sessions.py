"""Random sessions: updates, the host's focus and queries of all kinds; and pairs of them that differ in a password alone.
"""

from model.fields import ROOT, tree_name
from model.worlds import Node, Update, accepted, faults, node_named
from model.scripts import id_line
from model.texts import is_text, needs_masking, runs_of
from made_up.maker import CHARACTERS, QUESTIONS_OF_FILTERS, QUESTIONS_OF_NODES, QUESTIONS_OF_TEXTS, Maker, tree_of, words_of_question
from made_up.texts import another_run, form, of_characters, run, text_runs
from made_up.trees import any_update, send_grove
from made_up.views import edge, looks, rectangle

ANY_QUESTIONS = QUESTIONS_OF_NODES + QUESTIONS_OF_FILTERS + QUESTIONS_OF_TEXTS

ROLES = ["Document", "TextInput", "MultilineTextInput", "PasswordInput", "GenericContainer"]


def dressed(maker, node):
    """The node with other fields: often a run where it has no children, and else what may have a text."""
    dice = maker.dice
    if dice.one_in(8):
        return node._replace(**looks(maker))
    places = {"bounds": rectangle(dice) if dice.one_in(2) else None, "move": (edge(dice), 0) if dice.one_in(4) else None}
    if node.children or node.tree is not None or dice.one_in(8):
        return node._replace(role=dice.choice(ROLES), value=dice.choice([None, None, "own", "oo"]), **places)
    return run(maker, least=0)._replace(label=node.label, **places)


def any_dressed(maker, node):
    """The node, most often with other fields."""
    return node if maker.dice.one_in(8) else dressed(maker, node)


def make_sessions(maker):
    """Makes up a session of all that a script can say."""
    if maker.dice.one_in(3):
        maker.ask_any(2)
    if maker.dice.one_in(3):
        send_grove(maker, lambda node: any_dressed(maker, node))
    elif not maker.dice.one_in(4):
        maker.send(form(maker))
    for _ in range(6):
        update = another_run(maker) if maker.dice.one_in(4) else any_update(maker, lambda node: any_dressed(maker, node))
        maker.send(update)
        if maker.dice.one_in(3):
            maker.set_host()
        maker.ask_any(5)
        maker.ask_of_texts(2)
    maker.say("print")


# ---- pairs


class Pair:
    """A session while it is made up, and its twin, in which a password has other characters."""

    def __init__(self, seed):
        self.one, self.twin = Maker(seed), Maker(seed)
        self.dice = self.one.dice
        # The password: its tree's name and its number. Its runs have the numbers after that.
        self.tree = tree_of(self.dice.randrange(2))
        self.number = self.one.base + 20

    def say(self, line):
        """Both say it."""
        self.one.say(line)
        self.twin.say(line)

    def send(self, update):
        """One sends the update as it is, and the twin with other characters, if the worlds are alike then."""
        other = update._replace(nodes=tuple((number, self.twin_of(update.tree, number, node)) for number, node in update.nodes))
        update, other = self.one.controlled(update), self.twin.controlled(other)
        worlds = after(self.one.world, update), after(self.twin.world, other)
        if are_alike(*worlds, self.tree, self.number):
            self.one.say_update(update)
            self.twin.say_update(other)

    def twin_of(self, tree, number, node):
        """A node as the twin sends it: the password with another own value, and its runs with other characters."""
        if tree != self.tree or node.value is None:
            return node
        if number == self.number:
            return node._replace(value=self.dice.choice(["", "x", "another secret"]))
        if node.role != "TextRun" or not node.chars or not self.number < number < self.number + 10:
            return node
        found = [self.dice.choice(CHARACTERS) for _ in node.chars]
        return node._replace(**of_characters([*found[:-1], "\n"] if node.value.endswith("\n") else found))


def after(world, update):
    """The world after an update, which may be refused."""
    return world if faults(world, update) else accepted(world, update)


def are_alike(one, other, tree, number):
    """Whether two worlds are equal but for the characters of this password, which is masked in both."""
    if (one.known, one.trees, one.is_host_focused) != (other.known, other.trees, other.is_host_focused):
        return False
    if one.nodes == other.nodes:
        return True
    id = node_named(one, number, tree)
    if id is None or id not in other.nodes:
        return False
    are_masked = all(is_text(world, id) and needs_masking(world, id) for world in (one, other))
    return are_masked and outline(one, id) == outline(other, id)


def outline(world, secret):
    """The nodes without the password's own value, and with the counts and the newlines of its runs' characters alone."""
    nodes = dict(world.nodes)
    nodes[secret] = nodes[secret]._replace(value=nodes[secret].value is not None)
    for id in runs_of(world, secret):
        node = nodes[id]
        nodes[id] = node._replace(value=(node.value or "").endswith("\n"), chars=len(node.chars))
    return nodes


def make_pair(pair):
    """Makes up a window or a document with a password and other things in it, and their changes."""
    pair.say(pair.dice.choice(["host on", "host off"]))
    if pair.tree != ROOT:
        base = pair.one.base
        window = Node("Window", children=(base + 1, base + 2)), Node("GenericContainer", tree=pair.tree), Node("Button")
        pair.send(Update(ROOT, base, base, tuple(enumerate(window, base))))
    while node_named(pair.one.world, pair.number, pair.tree) is None:
        pair.send(page(pair))
    ask_pair(pair, 6)
    for _ in range(5):
        pair.send(change(pair))
        if pair.dice.one_in(4):
            pair.say(pair.dice.choice(["host on", "host off"]))
        ask_pair(pair, 4)
    pair.say("print")


def page(pair):
    """An update that brings in the password, in a container or not, with a label and what names it."""
    maker, dice, number = pair.one, pair.dice, pair.number
    runs = list(range(number + 1, number + 1 + dice.randint(1, 4)))
    nodes = {number: Node("PasswordInput", children=tuple(runs), value=dice.choice([None, "zzz"])), **text_runs(maker, runs)}
    nodes[maker.base] = Node(dice.choice(["Window", "Document", "Link"]), children=(number, maker.base + 1, maker.base + 2))
    nodes[maker.base + 1] = Node("CheckBox", labelled=(dice.choice([number, maker.base + 2]),))
    nodes[maker.base + 2] = Node(dice.choice(["TextInput", "Label", "Button"]), children=(maker.base + 3,))
    nodes[maker.base + 3] = run(maker)
    named = list(nodes.items())
    dice.shuffle(named)
    return Update(pair.tree, maker.base, maker.base, tuple(named))


def change(pair):
    """An update that sends the password or one of its runs again, or any other."""
    world = pair.one.world
    id = node_named(world, pair.number, pair.tree)
    if id is None or not pair.dice.one_in(2):
        return any_update(pair.one) if pair.dice.one_in(2) else another_run(pair.one)
    number = pair.dice.choice([pair.number, *(run[1] for run in runs_of(world, id))])
    node = world.nodes[id[0], number]
    if number == pair.number:
        return Update(pair.tree, number, None, ((number, node._replace(value=pair.dice.choice([None, "abc", "a"]))),))
    new = run(pair.one)._replace(prev=node.prev, next=node.next)
    return Update(pair.tree, pair.one.base, None, ((number, new),))


def ask_pair(pair, count):
    """Asks both so many questions, many of them of the password."""
    for _ in range(count):
        words = QUESTIONS_OF_TEXTS if pair.dice.one_in(2) else ANY_QUESTIONS
        word = pair.dice.choice(words)
        asked = list(words_of_question(pair.one, word))
        if pair.dice.one_in(2):
            asked[:2] = [pair.number, pair.tree]
        pair.say(" ".join([word, *map(str, asked)]))


def open_lines(maker, tree, number, printed):
    """What was printed at each command, but for what may show the password: a label, a text of another node, whether the
    password and its runs have changed, and which fault is named."""
    at = 0
    for step in maker.steps:
        words, lines = step.line.split(" "), printed[at : at + len(step.told)]
        at += len(step.told)
        if words[0] == "end":
            yield open_events(step, node_named(step.old, number, tree), node_named(step.new, number, tree), lines)
        elif words[0] in QUESTIONS_OF_TEXTS and node_named(step.old, int(words[1]), tree_name(words[2])) not in (
            None,
            node_named(step.old, number, tree),
        ):
            continue
        elif words[0] not in ("label", "update", "node", "", "#"):
            yield lines


def open_events(step, before, after, lines):
    """What was printed of an update, but for changes of the password and its runs, and for the fault that is named."""
    if lines[-1].startswith("refused "):
        return ["refused"]
    secret = {before, after} | {run for world, id in ((step.old, before), (step.new, after)) if id for run in runs_of(world, id)}
    hidden = {"updated " + id_line(id) for id in secret if id}
    return [line for line in lines if line not in hidden]
