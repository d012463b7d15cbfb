"""Random updates: most of them change the current tree, and some are invalid."""

from model.fields import ROOT
from model.worlds import Node, Update, index_of, root_named
from model.views import upward
from made_up.maker import TREES, tree_of


# ---- trees from nothing

MOST_TREES = 4


def grow(maker):
    """A tree of some nodes, without grafts: each but the first is put among the children of an earlier one."""
    nodes = {maker.base: Node("Window")}
    for number in range(maker.base + 1, maker.base + maker.dice.randint(1, maker.size)):
        put(maker.dice, nodes, number, Node("Button"))
    return nodes


def put(dice, nodes, number, node):
    """Puts a node among the children of an earlier one that is no graft, at any index."""
    parent = dice.choice([other for other in nodes if nodes[other].tree is None])
    children = list(nodes[parent].children)
    children.insert(dice.randint(0, len(children)), number)
    nodes[parent] = nodes[parent]._replace(children=tuple(children))
    nodes[number] = node


def send_grove(maker, dress):
    """Sends some trees, each after the first grafted by a node of an earlier one, and puts the focus anywhere. Their nodes
    are dressed."""
    trees = [grow(maker) for _ in range(maker.dice.randint(1, MOST_TREES))]
    for name in range(1, len(trees) + maker.dice.randrange(2)):
        nodes = maker.dice.choice(trees[:name])
        put(maker.dice, nodes, max(nodes) + 1, Node("GenericContainer", tree=tree_of(name)))
    for name, nodes in enumerate(trees):
        named = [(number, dress(node)) for number, node in nodes.items()]
        maker.dice.shuffle(named)
        focus = maker.base if name == 0 else maker.dice.choice(list(nodes))
        maker.send(Update(tree_of(name), focus, maker.base, tuple(named)))
    maker.send(Update(ROOT, maker.number()))


# ---- trees as they change


class Draft:
    """The nodes of a tree as an update is to make them: at first as they are, or of an absent tree a root alone."""

    def __init__(self, maker, tree):
        self.maker, self.dice, self.tree = maker, maker.dice, tree
        self.index = index_of(maker.world, tree)
        self.is_absent = self.index not in maker.world.trees
        self.old = {id[1]: node for id, node in maker.world.nodes.items() if id[0] == self.index}
        self.root = maker.number() if self.is_absent else maker.world.trees[self.index].root
        self.nodes = {self.root: Node("Document")} if self.is_absent else dict(self.old)

    def any(self):
        """Any of the nodes."""
        return self.dice.choice(list(self.nodes))

    def change(self, number, **fields):
        """Gives a node these fields."""
        self.nodes[number] = self.nodes[number]._replace(**fields)

    def edit(self):
        """Makes one change."""
        edits = [self.add] * 3 + [self.carry] * 3 + [self.graft] * 3 + [self.regraft]
        self.dice.choice([*edits, self.turn, self.strip, self.label, self.point])(self.any())

    def add(self, parent):
        """The node gets a new child."""
        child = self.maker.number()
        if child not in self.nodes:
            self.nodes[child] = Node(self.dice.choice(["Button", "GenericContainer", "ListItem"]))
            self.put(child, parent)

    def carry(self, child):
        """The node, which seldom is the root, is listed by another one, and no more where it was."""
        if child == self.root and not self.dice.one_in(8):
            return
        for number, node in list(self.nodes.items()):
            self.change(number, children=tuple(one for one in node.children if one != child))
        self.put(child, self.any())

    def put(self, child, parent):
        """Lists a child at any place, at a node that is no graft any more."""
        children = list(self.nodes[parent].children)
        children.insert(self.dice.randint(0, len(children)), child)
        self.change(parent, children=tuple(children), tree=None)

    def graft(self, number):
        """The node grafts a tree, most often one that is known, and without children beside it; or none any more."""
        if number == self.root and not self.dice.one_in(6):
            return
        tree = self.dice.choice([tree_of(self.dice.randrange(TREES)), *self.maker.world.known[1:]])
        if self.dice.one_in(8):
            self.change(number, tree=None)
        elif self.dice.one_in(8):
            self.change(number, tree=tree)
        else:
            self.change(number, tree=tree if tree != ROOT else None, children=())

    def regraft(self, number):
        """The node grafts a tree that there is. Where its graft is in this tree, or in one that hangs there, the way to it
        is cut."""
        world = self.maker.world
        grafts = [id for id in world.nodes if world.nodes[id].tree is not None]
        if not grafts or number == self.root:
            return
        graft = self.dice.choice(grafts)
        for index, other in upward(world, graft):
            if index == self.index and other in self.nodes and self.nodes[other].tree is not None:
                self.change(other, tree=None)
        self.change(number, tree=world.nodes[graft].tree, children=())

    def turn(self, number):
        """The node's children change their order."""
        self.change(number, children=self.nodes[number].children[::-1])

    def strip(self, number):
        """The node lists nothing any more."""
        self.change(number, children=())

    def label(self, number):
        """The node gets another label, or none."""
        self.change(number, label=self.dice.choice(["a", "b", 'c "\\\n', "", None]))

    def point(self, number):
        """The node gets another active descendant, or none."""
        self.change(number, active=self.dice.choice([self.maker.number(), self.any(), None]))

    def reached(self):
        """What the lists lead to from the root."""
        found, waiting = set(), [self.root]
        while waiting:
            number = waiting.pop()
            if number not in found:
                found.add(number)
                waiting += self.nodes[number].children if number in self.nodes else ()
        return found

    def named(self, reached):
        """The nodes that are new or differ and are reached, and seldom others."""
        named = []
        for number, node in self.nodes.items():
            is_new = node != self.old.get(number) or self.dice.one_in(8)
            if is_new and number in reached or self.dice.one_in(40):
                named.append((number, node))
        return named

    def spoil(self, named):
        """Makes a fault likely."""
        child = self.maker.number()
        kind = self.dice.randrange(4) if named else 3
        if kind == 0:
            named.pop()
        elif kind == 1:
            named.append(self.dice.choice([named[0], (named[0][0], Node("Label"))]))
        elif kind == 2:
            number, node = named.pop()
            named.append((number, node._replace(children=(*node.children, child))))
        else:
            named.append((self.maker.number(), Node("Label", children=(child,))))

    def update(self, is_spoiled):
        """The update that makes the nodes so."""
        dice = self.dice
        has_info = not dice.one_in(16) if self.is_absent else dice.one_in(5)
        if has_info and dice.one_in(4):
            self.root = self.any()
        reached = self.reached()
        named = self.named(reached) if has_info or not self.is_absent or dice.one_in(2) else []
        if is_spoiled:
            self.spoil(named)
        dice.shuffle(named)
        return Update(self.tree, self.focus(reached), self.root if has_info else None, tuple(named))

    def focus(self, reached):
        """A reached node, most often one that is no graft, and seldom any."""
        if self.dice.one_in(24):
            return self.maker.number()
        plain = [number for number in sorted(reached) if number in self.nodes and self.nodes[number].tree is None]
        return self.dice.choice(plain if plain and not self.dice.one_in(8) else sorted(reached))


def any_tree(maker):
    """The root tree or one that a node grafts, often one that is absent, and seldom any."""
    grafted = [node.tree for node in maker.world.nodes.values() if node.tree is not None]
    absent = [tree for tree in grafted if root_named(maker.world, tree) is None]
    if maker.dice.one_in(16):
        return tree_of(maker.dice.randrange(TREES))
    return maker.dice.choice(absent if absent and maker.dice.one_in(2) else [ROOT, *grafted])


def any_update(maker, dress=None):
    """An update of the world, whose nodes may be dressed."""
    draft = Draft(maker, any_tree(maker))
    for _ in range(maker.dice.choice([0, 1, 2, 3, 4, maker.size])):
        draft.edit()
    update = draft.update(is_spoiled=maker.dice.one_in(5))
    if dress:
        update = update._replace(nodes=tuple((number, dress(node)) for number, node in update.nodes))
    return update


def make_updates(maker):
    """Makes up many updates of one interface, which are often hostile."""
    if maker.dice.one_in(2):
        maker.set_host()
    if maker.dice.one_in(2):
        send_grove(maker, lambda node: node)
    for _ in range(14):
        maker.send(any_update(maker))
        if maker.dice.one_in(6):
            maker.set_host()
        if maker.dice.one_in(3):
            maker.say(maker.dice.choice(["print", "focus"]))
        if maker.dice.one_in(4):
            maker.ask("children")
    maker.say("print")
