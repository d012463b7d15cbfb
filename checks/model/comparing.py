"""The model's output of the program `compare`: how what is shown of two trees differs."""

from typing import NamedTuple, Optional

from model.fields import FIELDS, ROOT, BadLine
from model.hidden import hides_label, hides_value, is_in_password, shown_label, shown_value
from model.scripts import field_word, role_shown, text_line, world_of
from model.views import INCLUDED, ancestors, common_filter, is_shown, preorder
from model.worlds import root_named

# The fields that aren't compared: ids, boxes and what is measured of texts; and the label and the value, which are those that are shown.
NOT_COMPARED = set(
    "children labelled controls tree active prev next bounds move selection chars words character_positions character_widths label"
    " value".split()
)


class Row(NamedTuple):
    """What is shown of a node, without the spaces before it; how many rows are above it, and which of the rows is that of its parent."""

    id: tuple
    text: str
    depth: int
    parent: Optional[int]
    author: Optional[str]
    role: str
    label: Optional[str]

    def line(self):
        return "  " * self.depth + self.text


def texts_of(world, id):
    """The role, the label, the value and the other fields that are compared."""
    node = world.nodes[id]
    yield role_shown(node.role)
    label, value = shown_label(world, id), shown_value(world, id)
    if hides_label(world, id) or label is not None:
        yield "label hidden" if hides_label(world, id) else text_line(label)
    if hides_value(world, id) or value is not None:
        yield "value hidden" if hides_value(world, id) else f"value={text_line(value)}"
    for name in FIELDS:
        if name not in NOT_COMPARED and not (FIELDS[name] is str and is_in_password(world, id)):
            yield from field_word(name, in_order(getattr(node, name)))


def in_order(value):
    """A value, with actions in their order."""
    order = ["Click", "Focus", "Increment", "Decrement"]
    if isinstance(value, frozenset):
        return sorted(value, key=lambda one: order.index(one) if one in order else len(order) + int(one[6:-1]))
    return value


def rows_of(world):
    """A row for each node that is shown, in order."""
    root = root_named(world, ROOT) if world.known else None
    places, rows = {}, []
    for id in preorder(world, root) if root else []:
        if is_shown(world, root, id):
            above = [up for up in ancestors(world, id) if common_filter(world, up) == INCLUDED]
            parent = places[above[0]] if above else None
            places[id] = len(rows)
            node = world.nodes[id]
            text = " ".join(texts_of(world, id))
            rows.append(Row(id, text, len(above), parent, node.author_id, node.role, shown_label(world, id)))
    return rows


def matched(old, new):
    """For each new row the old one that is taken for the same, by their numbers."""
    taken = {}

    def take(old_ones, new_ones, fits):
        last = -1
        for place in new_ones:
            if place in taken:
                continue
            free = [at for at, one in enumerate(old_ones) if one not in taken.values() and fits(old[one], new[place])]
            free = [at for at in free if at > last] + [at for at in free if at <= last]
            if free:
                taken[place] = old_ones[free[0]]
                last = free[0]

    def take_group(old_ones, new_ones):
        nameless = lambda one, other: one.author is None and other.author is None and one.role == other.role
        take(old_ones, new_ones, lambda one, other: nameless(one, other) and one.label == other.label)
        take(old_ones, new_ones, nameless)

    def below(rows, parent):
        return [place for place, row in enumerate(rows) if row.parent == parent]

    take(range(len(old)), range(len(new)), lambda one, other: one.author is not None and one.author == other.author)
    take_group(below(old, None), below(new, None))
    for place in range(len(new)):
        if place in taken:
            take_group(below(old, taken[place]), below(new, place))
    return taken


def has_moved(old, new, taken, place):
    """Whether the parent isn't the same, or one that came after it there now comes before."""

    def is_there(place):
        parent, was = new[place].parent, old[taken[place]].parent
        return was is None if parent is None else was is not None and taken.get(parent) == was

    before = [one for one in range(place) if one in taken and new[one].parent == new[place].parent and is_there(one)]
    return not is_there(place) or any(taken[one] > taken[place] for one in before)


def lines_of(old, new):
    """The lines for the nodes that went, and then for those that came, moved and changed."""
    if [row.line() for row in old] == [row.line() for row in new]:
        return []
    taken = matched(old, new)
    lines = [f"- {row.line()}" for place, row in enumerate(old) if place not in taken.values()]
    for place, row in enumerate(new):
        if place not in taken:
            lines.append(f"+ {row.line()}")
            continue
        was = old[taken[place]]
        lines += [f"> {row.line()}"] if has_moved(old, new, taken, place) else []
        lines += [f"~ {was.line()} => {row.text}"] if was.text != row.text else []
    return lines or ["the same nodes in another order"]


def parts_of(script):
    """The two scripts of the input, with the line `# ---` between them, or `None` where there is none."""
    lines = script.split(b"\n")
    at = next((at for at, line in enumerate(lines) if line in (b"# ---", b"# ---\r")), None)
    return None if at is None else (b"".join(line + b"\n" for line in lines[:at]), b"\n".join(lines[at + 1 :]))


def compare(script, arguments):
    """The lines of `compare`, and its status."""
    parts = parts_of(script)
    if arguments or not parts:
        raise BadLine
    before, after = (world_of(part) for part in parts)
    lines = lines_of(rows_of(before), rows_of(after))
    return lines, 1 if lines else 0
