"""The fields of a node: how each is read of a word, in the order in which a node's line is written.

All that the model says of a field by its name or kind is made of this list.
"""

import re

ROOT = "00000000-0000-0000-0000-000000000000"


class BadLine(Exception):
    """A line that no script has, or that is out of place."""


# ---- words


def need(is_well):
    """Stops at a bad line."""
    if not is_well:
        raise BadLine


def number(word, least=0, end=2**64):
    """A decimal number from the least one on, below the end."""
    need(re.fullmatch("-?[0-9]+" if least < 0 else "[0-9]+", word))
    need(least <= int(word) < end)
    return int(word)


def coordinate(word):
    """A coordinate of a point, or a number of a value."""
    return number(word, -(2**63), 2**63)


def all_of(read, count=None):
    """Reads words with one comma between them: so many of them."""

    def read_all(word):
        parts = word.split(",")
        need(count is None or len(parts) == count)
        return tuple(read(part) for part in parts)

    return read_all


def unit(word):
    """A number of units."""
    return number(word, -(2**31), 2**31)


def short(word):
    """A number of two bytes."""
    return number(word, 0, 2**16)


def units(word):
    """Numbers of units, or `-` for none."""
    return () if word == "-" else all_of(unit)(word)


def byte(word):
    """A number of one byte."""
    return number(word, 0, 2**8)


def narrow(word):
    """A number of four bytes."""
    return number(word, 0, 2**32)


def decoration(word):
    """A line at a text: its style, and a colour."""
    style, _, color = word.partition(",")
    need(style in ("solid", "dotted", "dashed", "double", "wavy"))
    return (style, *all_of(byte, 4)(color))


def action(word):
    """An action by its name, or by its number."""
    if word in ("Click", "Focus", "Increment", "Decrement"):
        return word
    other = re.fullmatch(r"Other\((.*)\)", word, re.S)
    need(other)
    return f"Other({byte(other.group(1))})"


def actions(word):
    """A set of actions."""
    return frozenset(all_of(action)(word))


def place(word):
    """A place in a text run: its node and an index."""
    parts = word.split(":")
    need(len(parts) == 2)
    return tuple(number(part) for part in parts)


DIGITS = ["([0-9a-f]{%d})" % count for count in (8, 4, 4, 4, 12)]
HYPHENATED = "-".join(DIGITS)
UUID = re.compile(f"{''.join(DIGITS)}|{HYPHENATED}|{{{HYPHENATED}}}|urn:uuid:{HYPHENATED}", re.I | re.A)


def tree_name(word):
    """The name of the tree: `root`, or a UUID in any form."""
    if word == "root":
        return ROOT
    found = UUID.fullmatch(word)
    need(found)
    return "-".join(part for part in found.groups() if part).lower()


def one_of(words):
    """Reads one of these words."""

    def read(word):
        need(word in words)
        return word

    read.words = words
    return read


# A flag is read as `bool`, and a text in quotes as `str`.
FIELDS = {
    "children": all_of(number),
    "labelled": all_of(number),
    "controls": all_of(number),
    "tree": tree_name,
    "active": number,
    "label": str,
    "value": str,
    "description": str,
    "placeholder": str,
    "role_description": str,
    "url": str,
    "author_id": str,
    "html_id": str,
    "class_name": str,
    "braille_label": str,
    "braille_role_description": str,
    "column_index_text": str,
    "row_index_text": str,
    "font_family": str,
    "language": str,
    "hidden": bool,
    "clips": bool,
    "disabled": bool,
    "read_only": bool,
    "required": bool,
    "modal": bool,
    "busy": bool,
    "multiselectable": bool,
    "italic": bool,
    "live_atomic": bool,
    "touch_transparent": bool,
    "bounds": all_of(unit, 4),
    "move": all_of(unit, 2),
    "selection": all_of(place, 2),
    "chars": all_of(short),
    "words": all_of(short),
    "character_positions": units,
    "character_widths": units,
    "prev": number,
    "next": number,
    "toggled": one_of(["true", "false", "mixed"]),
    "expanded": one_of(["true", "false"]),
    "selected": one_of(["true", "false"]),
    "live": one_of(["off", "polite", "assertive"]),
    "orientation": one_of(["horizontal", "vertical"]),
    "sort_direction": one_of(["ascending", "descending", "other"]),
    "aria_current": one_of(["false", "true", "page", "step", "location", "date", "time"]),
    "has_popup": one_of(["menu", "listbox", "tree", "grid", "dialog"]),
    "font_size": narrow,
    "font_weight": short,
    "background_color": all_of(byte, 4),
    "foreground_color": all_of(byte, 4),
    "overline": decoration,
    "strikethrough": decoration,
    "underline": decoration,
    "text_direction": one_of(["left_to_right", "right_to_left", "top_to_bottom", "bottom_to_top"]),
    "text_align": one_of(["left", "right", "center", "justify"]),
    "vertical_offset": one_of(["subscript", "superscript"]),
    "number": coordinate,
    "min": coordinate,
    "max": coordinate,
    "step": coordinate,
    "jump": coordinate,
    "level": number,
    "set_size": number,
    "position": number,
    "scroll_x": coordinate,
    "scroll_x_min": coordinate,
    "scroll_x_max": coordinate,
    "scroll_y": coordinate,
    "scroll_y_min": coordinate,
    "scroll_y_max": coordinate,
    "actions": actions,
    "child_actions": actions,
}


def absent(name):
    """What a node has that lacks this field."""
    if FIELDS[name] is bool:
        return False
    return NOTHING.get(name)


# The lists and sets that are the same absent and empty.
NOTHING = {name: () for name in ("children", "labelled", "controls", "chars", "words", "selection")}
NOTHING |= {name: frozenset() for name in ("actions", "child_actions")}
