"""Writes the trees of a recording as a script (docs/SCRIPT.md): the first update whole, a later one with the nodes that differ.

A source's tree may be inconsistent, and a script's may not: what is listed twice, gone or too deep is left out here, and values that a
script can't have too, so that no line is bad and no update is refused. Each such mend is noted.
"""

import re
import sys
from collections import Counter
from typing import NamedTuple

from recording.names import role_word

# A tree is cut off below so many levels, and after so many nodes.
DEEPEST, MOST_NODES = 500, 200_000
# Scalar values of a text in a field; the rest is cut off.
LONGEST_TEXT = 60_000
ACTIONS = ("Click", "Focus", "Increment", "Decrement")


class Node(NamedTuple):
    """A node: its role by name, its fields by their names in a script, and the ids of its children."""

    role: str
    fields: dict
    children: list


class Tree(NamedTuple):
    """A whole tree: its root and its focus, all nodes by id, and whether the host's window has the focus."""

    root: int
    focus: int
    nodes: dict
    is_active: bool = True


class Notes:
    """What was mended or left out: each on standard error when it occurs first, and counted once for each place."""

    MOST = 8

    def __init__(self, program, out=None):
        self.program, self.out, self.counts, self.said = program, out, Counter(), set()

    def note(self, what, where=""):
        """Notes a mend of this kind at this place. Of a kind the first few places are printed."""
        if (what, where) in self.said:
            return
        self.said.add((what, where))
        self.counts[what] += 1
        if self.counts[what] <= self.MOST:
            more = " (more of these are only counted)" if self.counts[what] == self.MOST else ""
            self.say(f"{what}{': ' if where else ''}{where}{more}")

    def say(self, line):
        print(f"{self.program}: {line}", file=self.out or sys.stderr, flush=True)

    def summary(self):
        return ", ".join(f"{what} ({count})" for what, count in self.counts.items()) or "nothing"


# ---- values of fields: each gives the word of a value, or `None` where a script can't have it


def clean(text):
    """A text whose surrogates are pairs, as scalar values; what is half a pair is U+FFFD."""
    return text.encode("utf-16-le", "surrogatepass").decode("utf-16-le", "replace")


def text_word(value):
    if not isinstance(value, str):
        return None
    escaped = clean(value[:LONGEST_TEXT]).replace("\\", "\\\\").replace('"', '\\"').replace("\n", "\\n")
    return f'"{escaped}"'


def flag_word(value):
    return "" if value is True else None


def is_number(value, least, end):
    return isinstance(value, int) and not isinstance(value, bool) and least <= value < end


def number_word(value):
    return str(value) if is_number(value, -(2**63), 2**63) else None


def count_word(value):
    return str(value) if is_number(value, 0, 2**64) else None


def list_word(is_item, count=None):
    """The word of a list of so many items, or of one at least."""

    def word(value):
        is_right = isinstance(value, (list, tuple)) and value and count in (None, len(value)) and all(map(is_item, value))
        return ",".join(map(str, value)) if is_right else None

    return word


def choice_word(*words):
    return lambda value: value if value in words else None


def selection_word(value):
    """Two pairs of a run and a character."""
    (run, start), (other, end) = value
    return f"{run}:{start},{other}:{end}"


ids_word = list_word(lambda value: is_number(value, 0, 2**64))
shorts_word = list_word(lambda value: is_number(value, 0, 2**16))
bool_word = choice_word("true", "false")


def units_word(count=None):
    return list_word(lambda value: is_number(value, -(2**31), 2**31), count)


# The fields that recorders send, in the order of `bin/record`.
FIELDS = {
    "children": ids_word,
    "labelled": ids_word,
    "controls": ids_word,
    "active": count_word,
    "label": text_word,
    "value": text_word,
    "description": text_word,
    "placeholder": text_word,
    "role_description": text_word,
    "url": text_word,
    "author_id": text_word,
    "html_id": text_word,
    "class_name": text_word,
    "braille_label": text_word,
    "braille_role_description": text_word,
    "column_index_text": text_word,
    "row_index_text": text_word,
    "hidden": flag_word,
    "disabled": flag_word,
    "read_only": flag_word,
    "required": flag_word,
    "modal": flag_word,
    "busy": flag_word,
    "multiselectable": flag_word,
    "live_atomic": flag_word,
    "toggled": choice_word("true", "false", "mixed"),
    "expanded": bool_word,
    "selected": bool_word,
    "live": choice_word("off", "polite", "assertive"),
    "orientation": choice_word("horizontal", "vertical"),
    "sort_direction": choice_word("ascending", "descending", "other"),
    "aria_current": choice_word("true", "page", "step", "location", "date", "time"),
    "has_popup": choice_word("menu", "listbox", "tree", "grid", "dialog"),
    "actions": list_word(ACTIONS.__contains__),
    "number": number_word,
    "min": number_word,
    "max": number_word,
    "step": number_word,
    "level": count_word,
    "set_size": count_word,
    "position": count_word,
    "clips": flag_word,
    "bounds": units_word(4),
    "move": units_word(2),
    "scroll_x": number_word,
    "scroll_x_max": number_word,
    "scroll_y": number_word,
    "scroll_y_max": number_word,
    "selection": selection_word,
    "chars": shorts_word,
    "words": shorts_word,
    "character_positions": units_word(),
    "character_widths": units_word(),
    "prev": count_word,
    "next": count_word,
    "language": text_word,
    "text_direction": choice_word("left_to_right", "right_to_left"),
}
ORDER = {name: place for place, name in enumerate(FIELDS)}
# Those that name other nodes, which have to be in the tree.
LISTS_OF_NODES, NAMES_OF_NODES = ("labelled", "controls"), ("active", "prev", "next")


def pixels(*numbers):
    """Lengths in pixels, in units of 1/64 pixel."""
    return [max(-(2**31), min(2**31 - 1, round(64 * number))) for number in numbers]


def thousandths(number):
    """A value in thousandths, or `None` for one that is beyond a script's range."""
    is_right = isinstance(number, (int, float)) and not isinstance(number, bool) and abs(number) < 9e15
    return round(1000 * number) if is_right else None


# ---- trees


def name_of(nodes, id):
    """A node as a note shows it."""
    node = nodes.get(id)
    label = node and (node.fields.get("label") or node.fields.get("value"))
    shown = "".join(c if c.isprintable() else "?" for c in label[:40]) if isinstance(label, str) else ""
    return f"{id}" + (f" {node.role}" if node else "") + (f' "{shown}"' if shown else "")


def mended(root, nodes, notes):
    """The children of each node that the root leads to, parents first. Each node is kept at one place, where all its ancestors are above
    it; the others are left out."""
    lists, todo, seen = {}, [(root, 0)], {root}
    while todo:
        id, depth = todo.pop()
        kept = []
        for child in nodes[id].children:
            if child in seen:
                notes.note("listed at a second place, which is left out", f"{name_of(nodes, child)} in {name_of(nodes, id)}")
            elif child not in nodes:
                notes.note("listed, but gone: left out", f"{child} in {name_of(nodes, id)}")
            elif depth >= DEEPEST or len(seen) >= MOST_NODES:
                notes.note(f"deeper than {DEEPEST} levels, or beyond {MOST_NODES} nodes: left out", f"{name_of(nodes, child)}")
            else:
                seen.add(child)
                kept.append(child)
        lists[id] = kept
        todo += [(child, depth + 1) for child in reversed(kept)]
    return lists


def is_left_out(node, name, value):
    """Whether a field isn't sent: one that is empty, but for the value of a run."""
    return value is None or value is False or value == [] or value == "" and (node.role, name) != ("TextRun", "value")


def line_of(id, node, children, is_there, notes):
    """The line of a node, with fields in their order."""
    fields = {**node.fields, "children": children or None}
    words = [f"node {id} {role_word(node.role)}"]
    for name in sorted((name for name in fields if not is_left_out(node, name, fields[name])), key=ORDER.__getitem__):
        value = fields[name]
        if name in LISTS_OF_NODES:
            value = [other for other in value if other in is_there]
        if value == [] or name in NAMES_OF_NODES and value not in is_there:
            continue
        word = FIELDS[name](value)
        if word is None:
            notes.note("a value that a script can't have: left out", f"{name} of {id}")
        else:
            words.append(f"{name}={word}" if word else name)
        if isinstance(value, str) and len(value) > LONGEST_TEXT:
            notes.note(f"longer than {LONGEST_TEXT} characters: cut off", f"{name} of {id}")
    return " ".join(words)


class Script:
    """A script that is being written."""

    def __init__(self, out, notes, has_titles=False):
        self.out, self.notes, self.has_titles = out, notes, has_titles
        self.lines, self.root, self.focus, self.is_active = {}, None, None, None
        self.updates, self.written = 0, 0

    def lines_of(self, tree):
        """A line for each node that the root leads to, in order."""
        lists = mended(tree.root, tree.nodes, self.notes)
        return {id: line_of(id, tree.nodes[id], children, lists, self.notes) for id, children in lists.items()}

    def update(self, tree, title=None, toolkit=None):
        """Writes what has changed, if anything has: whether an update was written."""
        lines = self.lines_of(tree)
        focus = tree.focus if tree.focus in lines else tree.root
        changed = [line for id, line in lines.items() if self.lines.get(id) != line]
        is_first = tree.root != self.root
        is_update = bool(changed) or focus != self.focus or is_first or len(lines) != len(self.lines)
        text = []
        if is_update:
            text += ["", "# " + "".join(c if c.isprintable() else " " for c in title)] if title and self.has_titles else []
            head = f"update root focus={focus}" + (f" root={tree.root}" if is_first else "")
            text.append(head + (f" toolkit={text_word(toolkit)}" if is_first and toolkit else ""))
            text += [*changed, "end"]
            self.updates, self.written = self.updates + 1, self.written + len(changed)
            self.lines, self.root, self.focus = lines, tree.root, focus
        if tree.is_active != self.is_active:
            text.append("host on" if tree.is_active else "host off")
            self.is_active = tree.is_active
        if text:
            self.out.write("".join(f"{line}\n" for line in text).encode())
            self.out.flush()
        return is_update

    def differences(self, tree):
        """How another reading of the same tree differs from what was written: how many nodes differ, are new and are gone, and which
        fields differ how often."""
        lines, fields = Script(None, self.notes).lines_of(tree), Counter()
        for id in lines.keys() & self.lines.keys():
            fields.update({name for name, _ in fields_of(lines[id]) ^ fields_of(self.lines[id])})
        differ = sum(lines[id] != self.lines[id] for id in lines.keys() & self.lines.keys())
        return differ, len(lines.keys() - self.lines.keys()), len(self.lines.keys() - lines.keys()), dict(fields)


def fields_of(line):
    """The fields of a line of a node, each with its word."""
    return set(re.findall(r' ([a-z_]+)(?:=("(?:[^"\\]|\\.)*"|[^ ]*))?', line.split(" ", 2)[2].join("  ")))
