"""Lists, filters, boxes, hits and sets: docs/MODEL-LISTS.md and docs/MODEL-VIEWS.md, computed from pre-orders.

A filter is a function of a world and a node. It includes the node, excludes it alone, or cuts it off with its subtree.
"""

from model.fields import ROOT
from model.worlds import children, is_focused, once, places, root_named

INCLUDED = "included"
LEFT_OUT = "left out alone"
CUT_OFF = "cut off with all below it"

# The roles of nodes that the common filter leaves out alone, and of those that can be one of a set.
SEE_THROUGH = {"GenericContainer", "TextRun"}
ITEMS = set(
    "Article Comment ListItem MenuItem MenuItemRadio Tab MenuItemCheckBox TreeItem ListBoxOption MenuListOption RadioButton"
    " Term".split()
)


# ---- lists


@once
def ancestors(world, id):
    """The parent, its parent, and so on up to the root."""
    found = []
    while id in places(world):
        id = places(world)[id][0]
        found.append(id)
    return found


def upward(world, id):
    """The node, its parent, and so on up to the root."""
    return [id, *ancestors(world, id)]


def is_within(world, top, id):
    """Whether the node is the upper one or below it."""
    return top in upward(world, id)


def between(world, top, id):
    """The ancestors of a node that are below an upper one."""
    above = ancestors(world, id)
    return above[: above.index(top)]


@once
def preorder(world, top):
    """A node, and then all that is below it."""
    found, waiting = [], [top]
    while waiting:
        id = waiting.pop()
        found.append(id)
        waiting += reversed(children(world, id))
    return found


@once
def numbers(world):
    """The number of each node in the pre-order of all."""
    return {id: number for number, id in enumerate(preorder(world, root_named(world, ROOT)))}


def is_before(world, one, other):
    """Whether a node comes before another one in pre-order."""
    return numbers(world)[one] < numbers(world)[other]


def siblings(world, id):
    """The earlier children of the node's parent, and the later ones, in order."""
    if id not in places(world):
        return [], []
    parent, index = places(world)[id]
    return children(world, parent)[:index], children(world, parent)[index + 1 :]


def following(world, id):
    """The parent's later children."""
    return siblings(world, id)[1]


def preceding(world, id):
    """The parent's earlier children, nearest first."""
    return siblings(world, id)[0][::-1]


# ---- what filters show


@once
def shown(world, filter, top):
    """What a filter shows below a node: what it includes, where all between is left out alone."""
    return [
        id
        for id in preorder(world, top)[1:]
        if filter(world, id) == INCLUDED and all(filter(world, up) == LEFT_OUT for up in between(world, top, id))
    ]


def filtered_parent(world, filter, id):
    """The nearest ancestor that is included."""
    return next((up for up in ancestors(world, id) if filter(world, up) == INCLUDED), None)


def cover(world, filter, id):
    """The nearest ancestor that isn't left out alone, if it is included."""
    up = next((up for up in ancestors(world, id) if filter(world, up) != LEFT_OUT), None)
    return up if up is not None and filter(world, up) == INCLUDED else None


def kindred(world, filter, id):
    """What the filter shows below the node's cover."""
    top = cover(world, filter, id)
    return shown(world, filter, top) if top is not None else []


def following_filtered(world, filter, id):
    """Of that, what comes after the node and isn't in it."""
    later = [other for other in kindred(world, filter, id) if is_before(world, id, other)]
    return [other for other in later if not is_within(world, id, other)]


def preceding_filtered(world, filter, id):
    """Of that, what comes before the node, nearest first."""
    return [other for other in kindred(world, filter, id) if is_before(world, other, id)][::-1]


# ---- boxes


def moved(world, ids):
    """By how much these nodes move what is in them, all together."""
    moves = [world.nodes[id].move or (0, 0) for id in ids]
    return sum(x for x, _ in moves), sum(y for _, y in moves)


def bounding_box(world, id):
    """The node's rectangle, moved by the node and all above it: on each axis the lesser and then the greater."""
    if world.nodes[id].bounds is None:
        return None
    x0, y0, x1, y1 = world.nodes[id].bounds
    x, y = moved(world, upward(world, id))
    return min(x0, x1) + x, min(y0, y1) + y, max(x0, x1) + x, max(y0, y1) + y


def meets(one, other):
    """Whether two boxes share a part. Boxes that only touch don't."""
    starts = [max(one[axis], other[axis]) for axis in (0, 1)]
    ends = [min(one[axis], other[axis]) for axis in (2, 3)]
    return all(start < end for start, end in zip(starts, ends))


# ---- the common filter


def first_answer(world, id):
    """What is settled of a node at once: the focused one is included, a hidden one is cut off, and a graft, a container and
    a run are left out alone."""
    if is_focused(world, id):
        return INCLUDED
    if any(world.nodes[up].hidden for up in upward(world, id)):
        return CUT_OFF
    if world.nodes[id].tree is not None or world.nodes[id].role in SEE_THROUGH:
        return LEFT_OUT
    return None


@once
def base_filter(world, id):
    """That, and all else is included."""
    return first_answer(world, id) or INCLUDED


def is_clipped(world, id):
    """Whether the nearest ancestor that the base filter includes clips its children, has a box, and the node lies outside of
    it, and so do its nearest siblings on both sides, as far as they are there and have boxes."""
    parent = filtered_parent(world, base_filter, id)
    if parent is None or not world.nodes[parent].clips:
        return False
    frame, own = bounding_box(world, parent), bounding_box(world, id)
    if frame is None or own is None or meets(own, frame):
        return False
    nearest = following_filtered(world, base_filter, id)[:1] + preceding_filtered(world, base_filter, id)[:1]
    boxes = [bounding_box(world, sibling) for sibling in nearest]
    return not any(box is not None and meets(box, frame) for box in boxes)


@once
def common_filter(world, id):
    """What is settled; else cut off where the parent is or where the node is clipped; else included."""
    settled = first_answer(world, id)
    if settled is not None:
        return settled
    parent = places(world)[id][0] if id in places(world) else None
    is_cut_off = parent is not None and common_filter(world, parent) == CUT_OFF
    return CUT_OFF if is_cut_off or is_clipped(world, id) else INCLUDED


def is_shown(world, root, id):
    """Whether the common filter shows the node below the root, or the root itself."""
    way = [] if id == root else between(world, root, id)
    return common_filter(world, id) == INCLUDED and all(common_filter(world, up) != CUT_OFF for up in way)


def common_filter_with_root(world, id):
    """The same, but the root tree's root is included."""
    return INCLUDED if id == root_named(world, ROOT) else common_filter(world, id)


def all_filter(world, id):
    """All is included."""
    return INCLUDED


# The filters by name.
FILTERS = {"all": all_filter, "common": common_filter, "common_with_root": common_filter_with_root}


# ---- hits and sets


def is_at(world, top, id, point):
    """Whether the node's own rectangle contains the point, which is given as the upper node sees it."""
    if world.nodes[id].bounds is None:
        return False
    x0, y0, x1, y1 = world.nodes[id].bounds
    x, y = moved(world, [id, *between(world, top, id)] if id != top else [])
    return x0 <= point[0] - x < x1 and y0 <= point[1] - y < y1


def hit(world, filter, top, point):
    """The last node of the pre-order that is included, isn't cut off on the way, and lies at the point."""
    found = None
    for id in preorder(world, top):
        way = [id, *between(world, top, id), top] if id != top else [top]
        is_cut_off = any(filter(world, up) == CUT_OFF for up in way)
        if not is_cut_off and filter(world, id) == INCLUDED and is_at(world, top, id, point):
            found = id
    return found


def set_of(world, filter, id):
    """The items of the node's role below its cover, where it is an item that is included and has a cover."""
    role = world.nodes[id].role
    if role not in ITEMS or filter(world, id) != INCLUDED or cover(world, filter, id) is None:
        return None
    return [other for other in kindred(world, filter, id) if world.nodes[other].role == role]


def size_and_position(world, filter, id):
    """The size of the node's set, and how many of the set come before it, where they aren't given."""
    items = set_of(world, filter, id)
    size, position = (None, None) if items is None else (len(items), sum(is_before(world, item, id) for item in items))
    given = world.nodes[id]
    return size if given.set_size is None else given.set_size, position if given.position is None else given.position
