"""Worlds, updates, the focus and events: docs/MODEL.md and docs/MODEL-EVENTS.md as a program that computes everything from scratch.

Nothing here is fast. Each answer is computed from whole lists, as the definitions have it, and nothing is shared with the
library but those definitions. An id is a pair: the index of a tree, and the number of a node in it. Trees are named by their
UUIDs. The toolkit's texts are left out: no output of a script shows them.
"""

from collections import Counter, defaultdict, namedtuple
from functools import wraps
from typing import NamedTuple, Optional

from model.fields import FIELDS, ROOT, absent

# What is said of a node: its role, and its fields.
Node = namedtuple("Node", ["role", *FIELDS], defaults=map(absent, FIELDS))


class Tree(NamedTuple):
    """The root of a present tree, and the node that it declares focused."""

    root: int
    focus: int


class Update(NamedTuple):
    """An update. It has tree info where it has a root. Its nodes are pairs of a number and a node, in order."""

    tree: str
    focus: int
    root: Optional[int] = None
    nodes: tuple = ()


class Fault(NamedTuple):
    """A reason to refuse an update, and the node or tree that it is about, if it is about one."""

    name: str
    subject: object = None


class World:
    """What is known of an interface. Nothing of it changes."""

    def __init__(self, known=(), trees=None, nodes=None, is_host_focused=False):
        self.known = tuple(known)
        self.trees = trees or {}
        self.nodes = nodes or {}
        self.is_host_focused = is_host_focused
        self.answers = defaultdict(dict)

    def with_host(self, is_host_focused):
        """The world, told whether the host is focused."""
        return World(self.known, self.trees, self.nodes, is_host_focused)


def once(answer):
    """Has each answer about a world worked out once, as a world doesn't change."""

    @wraps(answer)
    def kept(world, *asked):
        answers = world.answers[answer]
        if asked not in answers:
            answers[asked] = answer(world, *asked)
        return answers[asked]

    return kept


# ---- worlds


def index_of(world, name):
    """The index of the tree of this name, where the name is known."""
    return world.known.index(name) if name in world.known else None


def root_of(world, index):
    """The root of the tree with this index, where that is present."""
    return (index, world.trees[index].root) if index in world.trees else None


def root_named(world, name):
    """The root of the tree of this name, where that is present."""
    return root_of(world, index_of(world, name))


def listed(world, id):
    """What the child list of a node names: nodes of its own tree."""
    return [(id[0], child) for child in world.nodes[id].children] if id in world.nodes else []


def graft_name(world, id):
    """The name of the tree that the node grafts, if it is a graft."""
    return world.nodes[id].tree if id in world.nodes else None


@once
def children(world, id):
    """Of a graft the root of the tree that it names, where that is present; of another node what it lists."""
    name = graft_name(world, id)
    if name is None:
        return listed(world, id)
    root = root_named(world, name)
    return [root] if root else []


def node_named(world, number, name):
    """The node with this number in the tree of this name, where it is there."""
    id = (index_of(world, name), number)
    return id if id in world.nodes else None


@once
def reached(world):
    """Each present tree's root, and each node that a reached node lists."""
    found = {root_of(world, index) for index in world.trees}
    waiting = list(found)
    while waiting:
        new = set(listed(world, waiting.pop())) - found
        found |= new
        waiting += new
    return found


@once
def kept(world):
    """The index of the root tree, and of each present tree that a reached node of a kept tree grafts."""
    grafts = [(id, index_of(world, graft_name(world, id))) for id in reached(world) if graft_name(world, id)]
    found, size = {0}, 0
    while size < len(found):
        size = len(found)
        found |= {inner for id, inner in grafts if id[0] in found and inner in world.trees}
    return found


@once
def places(world):
    """The place of each node that has one: its parent, and its index among the parent's children."""
    return {child: (parent, index) for parent in world.nodes for index, child in enumerate(children(world, parent))}


# ---- the focus


@once
def chain(world):
    """The root tree's declared focus, and that of each tree to which the focus goes on from there, through grafts."""
    found = []
    index = 0
    while index in world.trees:
        id = (index, world.trees[index].focus)
        if id in found:
            break
        found.append(id)
        index = index_of(world, graft_name(world, id)) if is_live(world, id) else None
    return found


def is_live(world, id):
    """Whether it is a reached node of a kept tree."""
    return id[0] in kept(world) and id in reached(world)


def effective_focus(world):
    """The node at which the chain of the focus ends."""
    return chain(world)[-1]


def active_descendant(world, id):
    """The node of its tree that the node names so, where that is there."""
    active = (id[0], world.nodes[id].active)
    return active if active in world.nodes else None


@once
def focus(world):
    """What has the focus, if the host has it: the effective focus, or its active descendant."""
    if not world.is_host_focused:
        return None
    end = effective_focus(world)
    return active_descendant(world, end) or end


def is_focused(world, id):
    """Whether a node says that it is focused: it has the focus, and not as its own active descendant."""
    end = effective_focus(world)
    return id == focus(world) and not id == end == active_descendant(world, end)


# ---- updates


def index_for(world, name):
    """The index of the tree of this name: its own, or the next one."""
    return world.known.index(name) if name in world.known else len(world.known)


def merged(old, update):
    """The world with the update's nodes, root and focus in the place of the tree's, before anything is dropped."""
    index = index_for(old, update.tree)
    trees, nodes = dict(old.trees), dict(old.nodes)
    if update.root is not None:
        trees[index] = Tree(update.root, update.focus)
    elif index in trees:
        trees[index] = Tree(trees[index].root, update.focus)
    nodes.update({(index, number): node for number, node in update.nodes})
    known = old.known if update.tree in old.known else (*old.known, update.tree)
    return World(known, trees, nodes, old.is_host_focused)


def rebuilt(world):
    """What is left of a merged world: its kept trees with their reached nodes."""
    trees = {index: tree for index, tree in world.trees.items() if index in kept(world)}
    nodes = {id: node for id, node in world.nodes.items() if is_live(world, id)}
    return World(world.known, trees, nodes, world.is_host_focused)


def accepted(old, update):
    """The world that an update leaves of which no fault stands."""
    return rebuilt(merged(old, update))


# ---- faults


def faults(old, update):
    """The faults that stand. Those of the focus stand only where no other does. (That 2^32 names are known, no script can
    say.)"""
    new = merged(old, update)
    apart = faults_of_head(old, update) | faults_of_names(old, update, new)
    apart |= faults_of_lists(old, update, new) | faults_of_grafts(old, update, new)
    return apart or faults_of_focus(new)


def named(old, update):
    """The ids of the nodes that the update names, as often as it names them."""
    return [(index_for(old, update.tree), number) for number, _ in update.nodes]


def counting(old, update, new):
    """The nodes that the rules look at: the named ones, and the reached ones of kept trees."""
    return set(named(old, update)) | {id for id in reached(new) if id[0] in kept(new)}


def faults_of_head(old, update):
    """Those of the tree that the update is for."""
    is_first = not old.known
    is_absent = index_for(old, update.tree) not in old.trees
    is_grafted = any(node.tree == update.tree for node in old.nodes.values())
    standing = {
        Fault("MissingTreeInfo"): is_first and update.root is None,
        Fault("NotRootTree"): is_first and update.tree != ROOT,
        Fault("NoGraft", update.tree): not is_first and update.tree != ROOT and not is_grafted,
        Fault("NoFirstTreeInfo", update.tree): not is_first and is_absent and update.root is None,
    }
    return {fault for fault, stands in standing.items() if stands}


def faults_of_names(old, update, new):
    """A node is named twice, or is named and not reached."""
    times = Counter(named(old, update))
    twice = {Fault("NamedTwice", id[1]) for id in times if times[id] > 1}
    return twice | {Fault("NotReached", id[1]) for id in times if id not in reached(new)}


def faults_of_lists(old, update, new):
    """The root, or a listed node, has no data; a node is listed at two places, or a root at one."""
    times = Counter(child for id in counting(old, update, new) for child in listed(new, id))
    root = root_of(new, index_for(old, update.tree))
    needed = {*times, root} - {None}
    missing = {Fault("MissingData", id[1]) for id in needed if id not in new.nodes}
    return missing | {Fault("ListedTwice", id[1]) for id in times if times[id] > 1 or id == root_of(new, id[0])}


def faults_of_grafts(old, update, new):
    """A node grafts the root tree, or lists something beside its graft; two nodes graft one tree."""
    grafts = [(id, graft_name(new, id)) for id in counting(old, update, new) if graft_name(new, id) is not None]
    times = Counter(name for _, name in grafts)
    of_root = {Fault("RootTreeGrafted", id[1]) for id, name in grafts if name == ROOT}
    crowded = {Fault("GraftWithChildren", id[1]) for id, _ in grafts if listed(new, id)}
    return of_root | crowded | {Fault("GraftedTwice", name) for name in times if times[name] > 1}


def faults_of_focus(new):
    """The chain of the focus comes to a graft whose tree isn't present, or else to a node that isn't reached."""
    end = effective_focus(new)
    if end not in reached(new):
        return {Fault("FocusMissing", end[1])}
    if graft_name(new, end) is not None:
        return {Fault("FocusOnEmptyGraft", graft_name(new, end))}
    return set()


# ---- what is told


def told_of_update(old, update, new):
    """The differences that an accepted update tells. Of the first nothing is told."""
    if not old.known:
        return []
    index = index_for(old, update.tree)
    told_root = (index, update.root) if update.root is not None and index != 0 else None
    return differences(old, new, told_root)


def differences(old, new, told_root=None):
    """How two worlds differ, in the order in which it is told. The root is told as updated even where it is unchanged."""
    both = sorted(set(old.nodes) & set(new.nodes))
    updated = [id for id in both if has_changed(old, new, id) or id == told_root]
    added = [("added", id) for id in sorted(set(new.nodes) - set(old.nodes))]
    removed = [("removed", id) for id in sorted(set(old.nodes) - set(new.nodes))]
    return added + [("updated", id) for id in updated] + told_of_focus(old, new, updated) + removed


def has_changed(old, new, id):
    """Whether the node's data or place is another one."""
    return old.nodes[id] != new.nodes[id] or places(old).get(id) != places(new).get(id)


def told_of_focus(old, new, told):
    """What is told of the focus where it moves, after these nodes were told as updated: its old and its new node, where
    they are in both worlds, and the move."""
    before, after = focus(old), focus(new)
    if before == after:
        return []
    moved = [id for id in (before, after) if id in old.nodes and id in new.nodes and id not in told]
    return [("updated", id) for id in moved] + [("focus", before, after)]
