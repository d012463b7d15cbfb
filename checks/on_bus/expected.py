"""What AT-SPI should say of a node, by the model in Python and the tables of docs/ADAPTER.md. Only these are shared with the adapter."""

import itertools
import math
import os
import re

from model.fields import ROOT
from model.hidden import hides_text, is_password, shown_label, shown_value
from model.scripts import role_shown
from model.texts import BULLET, MAY_BE_READ_ONLY, TEXT_INPUTS, flat_text, indexes, is_text, labelled_by
from model.views import FILTERS, INCLUDED, ITEMS, LEFT_OUT, ancestors, bounding_box, filtered_parent, hit, shown, size_and_position, upward
from model.worlds import children as all_children
from model.worlds import effective_focus, focus, root_named

PAGE = os.path.join(os.path.dirname(os.path.abspath(__file__)), "..", "..", "docs", "ADAPTER.md")
FILTER = FILTERS["common_with_root"]
CONTAINERS = set(
    "ComboBox EditableComboBox Grid ListBox ListGrid Menu MenuBar MenuListPopup RadioGroup TabList Toolbar Tree TreeGrid".split()
)
READ_ONLY_BY_ROLE = set(
    "Article Definition DescriptionList Document GraphicsDocument Image List ListItem PdfRoot ProgressIndicator RootWebArea Term"
    " Timer Toolbar Tooltip".split()
)
LINKS = {"Link", "DocBackLink", "DocBiblioRef", "DocGlossRef", "DocNoteRef"}
# The interfaces that each node has.
ALWAYS = {"Accessible", "Collection"}


def tables():
    """The tables of the page: which role of AT-SPI each role is, and what ARIA calls some."""
    with open(PAGE, encoding="utf-8") as file:
        page = file.read()
    rows = re.search(r"^### Roles$.*?^\|---\|---\|$(.*?)^$", page, re.S | re.M).group(1)
    roles = {role: word for word, listed in re.findall(r"^\| `([a-z -]+)` \| (.*) \|$", rows, re.M) for role in listed.split()}
    rows = re.search(r"^### Names of ARIA$.*?^\|---\|---\|$(.*?)^$", page, re.S | re.M).group(1)
    named = {role: word for word, listed in re.findall(r"^\| `([a-z]+)` \| (.*) \|$", rows, re.M) for role in listed.split()}
    return roles, named


ROLES, ARIA = tables()


def role(world, id):
    """The name of the node's role on the bus."""
    node = world.nodes[id]
    if node.role in ("Button", "DefaultButton") and node.toggled is not None:
        return "toggle button"
    if node.role == "MultilineTextInput" and is_of_page(world, id):
        return "entry"
    if node.role == "MenuItem" and [world.nodes[it].role for it in children(world, id)[:1]] == ["Menu"]:
        return "menu"
    if node.role == "Menu" and parent(world, id) and world.nodes[parent(world, id)].role == "MenuItem":
        return "filler"
    return ROLES.get(role_shown(node.role), "unknown")


def is_of_page(world, id):
    """Whether it is in a page, or is one."""
    return any(world.nodes[up].role == "RootWebArea" for up in upward(world, id))


def is_application(world, id):
    """Whether it is a root that is an application of several windows."""
    return id == root_named(world, ROOT) and role_shown(world.nodes[id].role) == "Application"


def windows(world):
    """What is shown below the application's object."""
    root = root_named(world, ROOT)
    return children(world, root) if is_application(world, root) else [root]


def active_window(world):
    """The window that has the focus, while the host has it."""
    if not world.is_host_focused:
        return None
    at = focus(world)
    if not is_application(world, root_named(world, ROOT)):
        return root_named(world, ROOT)
    while at is not None and at not in windows(world):
        at = parent(world, at)
    return at


def name(world, id):
    """A label's value, or else the label, or a combo box's value; nothing where a password may show in it."""
    role, value = world.nodes[id].role, shown_value(world, id)
    label = shown_label(world, id)
    if role == "Label" and value is not None:
        return value
    return (value or "") if role == "ComboBox" and label is None else label or ""


def supports(world, id, action):
    """Whether the node has the action, or the node above it gives it to its children."""
    above = filtered_parent(world, FILTERS["common"], id)
    return action in world.nodes[id].actions or (above is not None and action in world.nodes[above].child_actions)


def actions(world, id):
    """The names of what can be done with it."""
    return [
        word for word, action in (("click", "Click"), ("increment", "Increment"), ("decrement", "Decrement")) if supports(world, id, action)
    ]


def holds_text(world, id):
    """Whether it has a text on the bus."""
    return is_text(world, id) and not hides_text(world, id)


def text(world, id):
    """Its text, of a password a bullet for each scalar."""
    whole = "".join(flat_text(world, id).characters)
    return BULLET * len(whole) if is_password(world, id) else whole


def marks(world, id):
    """How many marks are its text: one for each child, of what is in a page and has neither a text of its own nor a number."""
    return len(children(world, id)) if is_of_page(world, id) and not is_text(world, id) and world.nodes[id].number is None else 0


def link(world, id):
    """Where its mark is in the text of the node above it, and where that ends, or -1."""
    above = parent(world, id)
    if above is None or not marks(world, above):
        return -1, -1
    listed = children(world, above)
    return (listed.index(id), listed.index(id) + 1) if id in listed else (0, 1)


def caret(world, id):
    """The offset of the caret, or -1."""
    found = selection(world, id) if is_text(world, id) else None
    return found[1] if found else -1


def selection(world, id):
    """The offsets at which the selection begins and at which the caret is."""
    whole, own = flat_text(world, id), world.nodes[id].selection
    runs = [run.node for run in whole.runs]
    if not own or any(run not in runs for run, _ in own):
        return None
    places = []
    for run, index in own:
        number = runs.index(run)
        if index > len(whole.runs[number].characters):
            return None
        places.append(indexes(whole, (number, index))[0])
    return tuple(places)


def toggle_state(node, word):
    """The state that a toggle is in."""
    if node.toggled == "mixed":
        return {"indeterminate"}
    return set() if node.toggled != "true" else {"pressed"} if word == "toggle button" else {"checked"}


def is_fixed(node):
    """Whether the value can't be changed."""
    return node.read_only or node.role in READ_ONLY_BY_ROLE or node.role not in MAY_BE_READ_ONLY


def orientation(node):
    """The axis along which it lies, by its role if nothing is sent."""
    return node.orientation or {"ListBox": "vertical", "TabList": "horizontal"}.get(node.role)


def states(world, id):
    """The names of its states."""
    node, word = world.nodes[id], role(world, id)
    is_input = node.role in TEXT_INPUTS
    found = {
        "editable": is_input and not is_fixed(node),
        "selectable-text": is_text(world, id),
        "multi-line": node.role == "MultilineTextInput",
        "single-line": (is_input or is_text(world, id)) and node.role != "MultilineTextInput",
        "read-only": node.role in MAY_BE_READ_ONLY and is_fixed(node),
        "required": node.required,
        "multiselectable": node.multiselectable,
        "modal": node.modal,
        "busy": node.busy,
        "selectable": node.selected is not None and not node.disabled,
        "selected": node.selected == "true",
        "focusable": supports(world, id, "Focus") or effective_focus(world) == id or focus(world) == id,
        "focused": focus(world) == id,
        "visible": FILTER(world, id) == INCLUDED,
        "showing": FILTER(world, id) == INCLUDED,
        "enabled": not node.disabled,
        "sensitive": not node.disabled,
        "active": id == active_window(world),
        "checkable": node.toggled is not None and word != "toggle button",
        "expandable": node.expanded is not None,
        "expanded": node.expanded == "true",
        "has-popup": node.has_popup is not None,
        "horizontal": orientation(node) == "horizontal",
        "vertical": orientation(node) == "vertical",
        "is-default": node.role == "DefaultButton",
        "indeterminate": node.role == "ProgressIndicator" and node.number is None,
    }
    return {state for state, is_so in found.items() if is_so} | toggle_state(node, word)


def interfaces(world, id):
    """The interfaces that it has."""
    node = world.nodes[id]
    found = {
        "Component": node.bounds is not None or id == root_named(world, ROOT),
        "Action": bool(actions(world, id)),
        "Text": holds_text(world, id) or marks(world, id) > 0,
        "Hypertext": marks(world, id) > 0,
        "Value": node.number is not None,
        "Selection": node.role in CONTAINERS,
        "Table": part(world, id) == "table",
        "TableCell": place(world, id) is not None,
        "Hyperlink": (node.url is not None and node.role in LINKS) or link(world, id) != (-1, -1),
    }
    return ALWAYS | {word for word, is_so in found.items() if is_so}


def has_value_text(node):
    """Whether its value is said beside its name: it isn't a text of its own, nor the name."""
    return node.role not in TEXT_INPUTS | {"Label", "TextRun", "Document", "Terminal"}


def live(world, id):
    """How changes are announced, by the nearest node that says it."""
    return next((world.nodes[up].live for up in upward(world, id) if world.nodes[up].live), "off")


def attributes(world, id):
    """Its attributes."""
    node = world.nodes[id]
    size, position = size_and_position(world, FILTER, id)
    found = {
        "placeholder-text": node.placeholder,
        "roledescription": node.role_description,
        "id": node.html_id,
        "class": node.class_name,
        "colindextext": node.column_index_text,
        "rowindextext": node.row_index_text,
        "braillelabel": node.braille_label,
        "brailleroledescription": node.braille_role_description,
        "valuetext": shown_value(world, id) if has_value_text(node) else None,
        "level": node.level,
        "setsize": size,
        "posinset": None if position is None else position + 1,
        "current": node.aria_current,
        "haspopup": node.has_popup,
        "explicit-name": "true" if role(world, id) == "panel" and node.label is not None else None,
        "sort": node.sort_direction,
        "xml-roles": ARIA.get(role_shown(node.role)),
        "table-cell-index": cell_index(place(world, id)),
    }
    if live(world, id) != "off":
        found |= {"container-live": live(world, id), "atomic": "true" if node.live_atomic else "false"}
    return {word: str(value) for word, value in found.items() if value is not None}


def box(world, id, units):
    """The pixels that its box touches: left, top, width, height."""
    found = bounding_box(world, id)
    if found is None:
        return 0, 0, 0, 0
    x0, y0, x1, y1 = (math.floor(found[0] / units), math.floor(found[1] / units), math.ceil(found[2] / units), math.ceil(found[3] / units))
    return x0, y0, x1 - x0, y1 - y0


def hit_at(world, x, y, units):
    """What is at a pixel of the window."""
    root = root_named(world, ROOT)
    move = world.nodes[root].move or (0, 0)
    return hit(world, FILTER, root, (x * units - move[0], y * units - move[1]))


def children(world, id):
    """What is shown below it."""
    return shown(world, FILTER, id)


def parent(world, id):
    """What is shown above it."""
    return filtered_parent(world, FILTER, id)


def labels(world, id):
    """The nodes that are named as its labels."""
    return labelled_by(world, id) if world.nodes[id].labelled else []


def page(world, id):
    """The page that the focus is in, of the window that shows it."""
    at, found = focus(world), []
    while at is not None and at != id:
        found = [at] if world.nodes[at].role == "RootWebArea" else found
        at = parent(world, at)
    return found if at == id and role(world, id) == "frame" else []


def controls(world, id):
    """The nodes that it controls, where they are there."""
    return [(id[0], other) for other in world.nodes[id].controls if (id[0], other) in world.nodes]


def values(world, id):
    """The number, its range and its step, in whole and parts."""
    node = world.nodes[id]
    return [(it or 0) / 1000 for it in (node.number, node.min, node.max, node.step)]


def item_filter(world, id):
    """What is no item is looked into, and what is in an item isn't."""
    answer = FILTER(world, id)
    return LEFT_OUT if answer == INCLUDED and world.nodes[id].role not in ITEMS else answer


def selected_items(world, id):
    """The selected items of a container, in order."""
    return [it for it in shown(world, item_filter, id) if world.nodes[it].selected == "true"]


def part(world, id):
    """What it is of a table."""
    word = role(world, id)
    if word in ("table", "tree table"):
        return "table"
    return "cell" if word in ("table cell", "column header", "row header") else "row" if word == "table row" else None


def parts(world, id, kind):
    """The rows of a table, or the cells of a row."""
    below = [it for it in all_children(world, id) if not world.nodes[it].hidden]
    return [found for it in below for found in ([it] if part(world, it) == kind else [] if part(world, it) else parts(world, it, kind))]


def part_above(world, id, kind):
    """The nearest part of a table above it, if it is of this kind."""
    at = next((up for up in ancestors(world, id) if part(world, up)), None)
    return at if at is not None and part(world, at) == kind else None


def place(world, id):
    """The table, the row and the column of a cell."""
    row = part_above(world, id, "row") if part(world, id) == "cell" else None
    table = part_above(world, row, "table") if row else None
    rows = parts(world, table, "row") if table else []
    if row not in rows or id not in parts(world, row, "cell"):
        return None
    return table, rows.index(row), parts(world, row, "cell").index(id)


def cell_index(found):
    """The index of a cell at a place of its table."""
    return None if found is None else found[1] * 2**16 + found[2]


def headers(world, id, kind):
    """The headers with which the column of a cell begins, or its row."""
    table, row, column = place(world, id)
    cells = [parts(world, it, "cell") for it in parts(world, table, "row")]
    before = cells[row][:column] if kind == "row header" else [it[column] if column < len(it) else None for it in cells[:row]]
    return list(itertools.takewhile(lambda it: it is not None and role(world, it) == kind, before))
