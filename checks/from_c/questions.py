"""Answers the questions of a script by the calls of the module for Python, as `atree` does: `questions.py LIBRARY SCRIPT`."""

import sys
from accesskit_proved import Id, NoNode, Tree, Wanted


def named(id):
    return f"{id.tree}:{id.node}" if id else "none"


def names(ids):
    return " ".join(map(named, ids)) or "-"


def quoted(text):
    if text is None:
        return "none"
    return '"' + text.replace("\\", r"\\").replace('"', r"\"").replace("\n", r"\n") + '"'


def size_and_position(tree, id, name="common"):
    return " ".join("-" if it is None else str(it) for it in (tree.set_size(id, name), tree.position_in_set(id, name)))


def place(tree, id, index, side):
    return tree.text_position(id, int(index), is_end=side == "end")


def moved(tree, id, index, side, move):
    if place(tree, id, index, side) is None:
        return "no text"
    to = tree.text_move(id, int(index), move, is_end=side == "end")
    return f"{to.run} {to.character}" if to else "none"


def indexes(tree, id, index, side):
    at = place(tree, id, index, side)
    return f"{at.index} {at.utf16_index} {at.line}" if at else "no text"


def between(tree, id, index, side, to, to_side):
    ends = place(tree, id, index, side), place(tree, id, to, to_side)
    return "no text" if None in ends else quoted(tree.text_between(id, int(index), max(int(index), int(to))))


QUESTIONS = {
    "children": lambda tree, id: names(tree.children(id)),
    "following": lambda tree, id: names(tree.following_siblings(id)),
    "preceding": lambda tree, id: names(tree.preceding_siblings(id)),
    "filtered": lambda tree, id, name="common": names(tree.filtered_children(id, name)),
    "following_filtered": lambda tree, id, name="common": names(tree.following_filtered_siblings(id, name)),
    "preceding_filtered": lambda tree, id, name="common": names(tree.preceding_filtered_siblings(id, name)),
    "set": size_and_position,
    "hit": lambda tree, id, x, y, name="common": named(tree.hit(id, int(x), int(y), name)),
    "label": lambda tree, id: quoted(tree.label(id)),
    "value": lambda tree, id: quoted(tree.value(id)),
    "text": lambda tree, id: quoted(tree.text(id)),
    "move": moved,
    "indexes": indexes,
    "between": between,
}


def main(library, script):
    with Tree(library) as tree, open(script, encoding="utf-8") as file:
        lines = file.read()
        tree.feed(lines)
        for line in lines.splitlines():
            word, *words = line.split(" ")
            if word not in QUESTIONS:
                continue
            # (questions are asked of the root tree, or of the one with the index 1)
            id = Id(int(words[0]), int(words[1] != "root"))
            try:
                print(QUESTIONS[word](tree, id, *words[2:]))
            except NoNode:
                print("no node")


if __name__ == "__main__":
    main(*sys.argv[1:])
