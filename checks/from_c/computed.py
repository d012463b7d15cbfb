"""Reads what the library computes by the calls of the module for Python: `computed.py LIBRARY SCRIPT` prints computed.told."""

import sys
from enum import Enum
from uuid import UUID
from accesskit_proved import ANCHOR, CARET, END, Color, Decoration, Flag, Id, Move, NoNode, Role, Spot, Style, Test, TextStyle
from accesskit_proved import Tree, Unit, Wanted


def node(number, tree=0):
    return Id(node=number, tree=tree)


NODES = [node(it) for it in (1, 2, 3, 4, 5, 6, 10, 20, 21, 22, 23, 24, 30, 32, 50)] + [node(1, 1), node(3, 1)]
TEXT = node(30)


def name(id):
    return "none" if id is None else str(id.node) if id.tree == 0 else f"{id.tree}:{id.node}"


def said(value):
    """A value, a list or a record, in words."""
    if value is None or isinstance(value, bool):
        return {None: "none", True: "yes", False: "no"}[value]
    return " ".join(map(str, value)) if isinstance(value, tuple) else str(value)


def names(ids):
    return " ".join(map(name, ids)) or "-"


def place(at):
    """A position, with 0 for what wasn't wanted."""
    if at is None:
        return "none"
    counted = " ".join(str(getattr(at, it, 0)) for it in ("index", "utf16_index", "line"))
    return f"{at.run}:{at.character}{' end' if at.is_end else ''} ({counted})"


def defect(found):
    return "none" if found is None else f"{found.rule} {name(found.run)} {found.link}"


def looks(value):
    """A property of how text looks, by the numbers that C has: of a choice or of a line's style its place, and a colour."""
    if isinstance(value, Color):
        return said((0, *value))
    if isinstance(value, Decoration):
        return said((list(Style).index(value.style), *value[1:]))
    if isinstance(value, Enum):
        return said((list(type(value)).index(value), 0, 0, 0, 0))
    return said((int(value), 0, 0, 0, 0) if isinstance(value, int) else value)


def values(what, call):
    found = [(name(it), call(it)) for it in NODES]
    print(f"{what}:", *(f"{it}={name(value) if isinstance(value, Id) else said(value)}" for it, value in found if value is not None))


def of_nodes(tree):
    values("toggled", tree.toggled)
    values("selected", tree.is_selected)
    values("orientation", tree.orientation)
    values("live", tree.live)
    values("children", tree.child_count)
    values("index", tree.index_in_parent)
    values("filtered_children", tree.filtered_child_count)
    values("filtered_index", tree.filtered_index)
    values("set_size", tree.set_size)
    values("set_position", tree.position_in_set)
    values("container_set_size", tree.size_of_set_from_container)
    print("filtered children of 2, all:", tree.filtered_child_count(node(2), "all"), " index of 6, all:", tree.filtered_index(node(6), "all"))
    print("children of 2:", *(name(tree.child_at(node(2), at)) for at in range(4)), "all:", name(tree.child_at(node(2), 3, "all")))
    values("active_descendant", tree.active_descendant)
    values("deepest_first_child", tree.deepest_first_child)
    values("deepest_last_child", tree.deepest_last_child)
    values("selection_container", tree.selection_container)
    for it, list in ((10, "labelled_by"), (22, "labelled_by"), (21, "labelled_by"), (10, "controls"), (2, "items"), (5, "preceding_siblings"),
                     (3, "following_siblings"), (5, "preceding_filtered_siblings"), (3, "following_filtered_siblings"), (20, "descendants"),
                     (20, "filtered_descendants")):
        print(f"{list} {it}:", names(getattr(tree, list)(node(it))))
    try:
        absent = names(tree.descendants(node(99)))
    except NoNode:
        absent = "none"
    print("items 2, all:", names(tree.items(node(2), "all")), " descendants of 99:", absent)
    actions = ((10, "Click"), (22, "Focus"), (22, 7), (22, 8), (22, "Click"))
    print("actions:", *(f"{it} {action} {said(tree.supports_action(node(it), action))}" for it, action in actions))
    print("transform:", *(f"{it}={said(tree.transform(node(it)))}" for it in (1, 20, 24)), " point:", said(tree.own_point(node(24), 110, -40)))


def of_flags(tree):
    flags, new = [*Flag], [*Flag][-6:]
    shown = [flag for flag in flags if tree.flag(node(10), flag)]
    print("flags of 10:", *shown, " the same at once:", said(tree.flags(node(10)) == set(shown)))
    print("of these two:", *sorted(tree.flags(node(10), ("read_only", "hidden"))), " none of none:", said(tree.flags(node(10), ()) == set()))
    print("flags of 11:", *(flag for flag in new if tree.flag(node(11), flag)), " of 2:", *(flag for flag in new if tree.flag(node(2), flag)))


def focus(tree):
    words = "focus:", name(tree.focus()), " declared:", name(tree.declared_focus()), " host:", said(tree.is_host_focused())
    print(*words, " dialog:", name(tree.active_dialog()))


def of_the_tree(tree):
    focus(tree)
    roots = [name(tree.subtree_root(it)) for it in (UUID(int=7), None, UUID(int=8))]
    trees = tree.tree_id(node(3, 1)).hex[-4:], said(tree.tree_id(node(1)) == UUID(int=0))
    print("toolkit:", tree.toolkit_name(), tree.toolkit_version(), " trees:", *trees, *roots)
    print("roles:", tree.role_name(tree.role(node(2))), tree.role_name(Role.UNKNOWN), tree.role_name(tree.role(node(50))))
    tree.set_host_focus(False)
    focus(tree)
    tree.set_host_focus(True)


def of_positions(tree):
    defects = [defect(tree.text_defect(node(it))) for it in (30, 40, 50)]
    print("length:", tree.text_length(TEXT), said(tree.text_length(node(40))), " defects:", *defects)
    for at in (0, 1, 4, 7, 8):
        sides = [place(tree.text_position(TEXT, at, is_end=is_end)) for is_end in (False, True)]
        assert sides == [place(tree.text_position(TEXT, Spot.at(at, is_end))) for is_end in (False, True)]
        print(f"at {at}:", sides[0], " end side:", sides[1])
    print("at 9:", place(tree.text_position(TEXT, 9)), " only its line:", place(tree.text_position(TEXT, 7, wanted=Wanted.LINE)))
    spots = {f"utf16 {it}": Spot.utf16(it) for it in (8, 9, 10)} | {f"run {run}:{at}": Spot.in_run(run, at) for run, at in ((32, 1), (32, 3), (34, 0))}
    spots |= {f"point {x} {y}": Spot.point(x, y) for x, y in ((250, 50), (10, 150), (900, 50))} | {"end": END, "anchor": ANCHOR, "focus": CARET}
    for what, spot in spots.items():
        print(f"{what}:", place(tree.text_position(TEXT, spot)))


def of_units(tree):
    for unit in Unit:
        spans = [tree.text_unit(TEXT, at, unit, wanted=Wanted.INDEX) for at in range(9)]
        print(f"{unit}:", *(f"{it.start.index}-{it.end.index}" for it in spans))
    caret = tree.text_unit(TEXT, 4, "format", is_end=True, wanted=Wanted.INDEX)
    print("format before 4:", place(caret.start), "to", place(caret.end))
    for line in range(4):
        span = tree.text_line(TEXT, line)
        print(f"line {line}:", "none" if span is None else f"{place(span.start)} to {place(span.end)}")
    caret = tree.text_position(TEXT, CARET)
    assert tree.text_position(TEXT, caret) == caret
    print("next word from the caret:", place(tree.text_move(TEXT, caret, Move.FORWARD_TO_WORD_START)))
    for test in Test:
        print(f"{test}:", *(at for at in range(9) if tree.text_test(TEXT, at, test)))
    for start, end in ((1, 5), (2, 2), (6, 8), (5, 1)):
        print(f"boxes {start} {end}:", ", ".join(" ".join(map(str, it)) for it in tree.text_boxes(TEXT, start, end)))


def of_styles(tree):
    for style in TextStyle:
        values = [looks(tree.text_style(TEXT, at, style)) for at in (0, 4, 7)]
        mixed = [said(tree.text_differs(TEXT, start, end, style)) for start, end in ((0, 3), (0, 8))]
        print(f"{style}:", " | ".join(values), " of the node:", looks(tree.style(TEXT, style)), " differs:", *mixed)


def main(library, script):
    with Tree(library) as tree, open(script, encoding="utf-8") as lines:
        tree.feed(lines.read())
        for part in (of_nodes, of_flags, of_the_tree, of_positions, of_units, of_styles):
            part(tree)


if __name__ == "__main__":
    main(*sys.argv[1:])
