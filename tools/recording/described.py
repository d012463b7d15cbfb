"""The accessibles of an application as the nodes of a script: roles, labels, states, values, places and texts."""

import hashlib
import re

from recording.accessibles import Wrong, box, number
from recording.names import CHOICE_OF_ATSPI, CHOICES, FLAG_OF_ATSPI, LANDMARKS, ROLE_OF_ATSPI, TEXT_OF_ATSPI
from recording.script import Node, Tree, pixels, thousandths
from recording.sources import ROOT
from recording.texts import from_utf16, pieces, run_ids, selection_in, text_nodes

# Those that clip what is in them, and those whose parts outside of them aren't hidden, but scrolled out.
CLIPS = {"scroll-pane", "viewport", "text", "terminal"}
SCROLLS = CLIPS | {"frame", "window", "dialog", "list", "list-box", "table", "tree", "tree-table"}
TOGGLES = {"check-box", "check-menu-item", "radio-button", "radio-menu-item", "toggle-button", "switch"}
# Of these "disabled" says nothing.
QUIET = {"application", "label", "static", "image", "icon", "unknown", "separator", "redundant-object"}
ORIENTED = {"slider", "scroll-bar", "separator", "split-pane", "progress-bar", "level-bar", "tool-bar", "page-tab-list", "list-box"}
MENU_ITEMS = {"menu-item", "menu", "check-menu-item", "radio-menu-item"}
CLICKS = {"click", "press", "activate", "toggle", "jump", "check", "uncheck", "select", "open", "showmenu", "switch"}
INPUTS = {"TextInput", "MultilineTextInput"}
NUMBERS = {"CurrentValue": "number", "MinimumValue": "min", "MaximumValue": "max", "MinimumIncrement": "step"}
# The item that opens a menu has its items as children in AT-SPI. A Menu is put between them, with this and the item's id.
MENU = 5 * 10**12


class Ids:
    """The ids of paths, which stay the same: the number at a path's end, or else one that is made of the whole path."""

    def __init__(self, notes):
        self.notes, self.ids, self.paths = notes, {}, {}

    def of(self, path):
        if path not in self.ids:
            id = self.wished(path)
            while id in self.paths:
                self.notes.note("two paths with one id: another one is taken", path)
                id = id + 1 if id >= 10**12 else id + 10**12
            self.ids[path], self.paths[id] = id, path
        return self.ids[path]

    def wished(self, path):
        end = path.rpartition("/")[2]
        if end.isascii() and end.isdigit() and len(end) <= 12:
            return int(end)
        return 0 if path == ROOT else 10**12 + int.from_bytes(hashlib.blake2b(path.encode(), digest_size=5).digest(), "big")


class Places:
    """What is known from above of where an accessible is: the corner of its window, and the box that clips it."""

    def __init__(self, corner=None, clip=None):
        self.corner, self.clip = corner, clip

    def relative(self, found_box):
        x, y = self.corner or (0, 0)
        left, top, width, height = found_box
        return pixels(left - x, top - y, left - x + width, top - y + height)

    def is_scrolled_out(self, found_box):
        """Whether something that isn't showing is only outside of what clips it."""
        if not found_box or not self.clip:
            return False
        left, top, width, height = self.clip
        x, y, w, h = found_box
        return x >= left + width or y >= top + height or x + w <= left or y + h <= top


class Description:
    """The nodes of the accessibles that are known."""

    def __init__(self, all_of, ids, active, notes):
        self.all_of, self.ids, self.active, self.notes = all_of, ids, active, notes
        self.known, self.toolkit = all_of.known, all_of.toolkit
        self.nodes = {}

    def tree(self, focus):
        """The whole tree, with the focus at a path, or at the root."""
        todo, seen = [(ROOT, Places())], {ROOT}
        while todo:
            path, places = todo.pop()
            found = self.known[path]
            inner = self.add(found, places)
            new = [child for child in dict.fromkeys(found.children) if child in self.known and child not in seen]
            seen.update(new)
            todo += [(child, inner) for child in reversed(new)]
        is_active = any("active" in found.states and self.all_of.is_window(found) for found in self.known.values())
        return Tree(0, self.ids.of(focus) if focus else 0, self.nodes, is_active)

    def add(self, found, places):
        """Adds the nodes of an accessible: what is known of where its children are."""
        id, name = self.ids.of(found.path), self.name_of(found)
        children = [self.ids.of(child) for child in found.children]
        fields, kind = {}, self.role_of(found)
        inner = self.put_place(found, fields, places)
        self.put_texts(found, fields, kind, name)
        self.put_relations(found, fields, name)
        self.put_states(found, fields, kind, places)
        self.put_numbers(found, fields)
        self.put_attributes(found, fields, kind)
        self.put_set(found, fields)
        if found.role == "menu" and children and kind == "MenuItem":
            self.nodes[MENU + id], children = Node("Menu", {}, children), [MENU + id]
        if found.text is not None and found.edits():
            children = self.put_text(id, found, fields, inner) + children
        elif found.text and kind != "Label":
            children = self.labels_between(id, found.text, children)
        self.nodes[id] = Node(kind, fields, children)
        return inner

    # ---- roles and texts

    def above(self, found):
        return next(self.all_of.ancestors(found.path), None)

    def role_above(self, found):
        above = found and self.above(found)
        return above.role if above else None

    def role_of(self, found):
        """The role, which may depend on states, attributes and what is around it."""
        kind, word = found.role, found.attributes.get("xml-roles", "").split(" ")[0]
        if kind == "landmark":
            return LANDMARKS.get(word, "Region")
        if kind == "alert" and self.role_above(found) == "application":
            return "AlertDialog"
        if word == "switch" or kind == "switch":
            return "Switch"
        if kind in ("entry", "text") and "multi-line" in found.states:
            return "MultilineTextInput"
        if kind == "combo-box" and ("editable" in found.states or any(self.is_entry(child) for child in found.children)):
            return "EditableComboBox"
        if kind == "menu" and self.role_above(found) == "combo-box":
            return "MenuListPopup"
        if kind == "menu-item" and self.role_above(self.above(found)) == "combo-box":
            return "MenuListOption"
        if kind == "list-item" and "selectable" in found.states:
            return "ListBoxOption"
        if kind in ("filler", "panel") and self.all_of.is_window(found):
            return "Window"
        if kind == "panel" and self.name_of(found):
            return "Group"
        return ROLE_OF_ATSPI.get(kind, "GenericContainer")

    def is_entry(self, path):
        return path in self.known and self.known[path].role in ("entry", "text")

    def name_of(self, found):
        """The name. GTK 4 names a widget that has no name by its class, and one that has a label by that twice."""
        name = found.property("Name").strip()
        if self.toolkit == "GTK":
            labels = [self.known[path].property("Name") for path in self.related(found, "labelled-by")]
            if labels and name == f"{labels[0]} {labels[0]}":
                return labels[0]
            if re.fullmatch("(Gtk|Adw)[A-Z][A-Za-z]+", name):
                return ""
        return name

    def put_texts(self, found, fields, kind, name):
        """Label, value and description."""
        whole = (found.text or "").replace("\ufffc", "")
        fields["value"] = found.amounts.get("Text") if isinstance(found.amounts.get("Text"), str) else None
        if kind == "Label":
            fields["value"] = whole or name or fields["value"]
        else:
            fields["label"] = name
        if found.role == "combo-box":
            fields["value"] = self.chosen(found, whole)
            if name == fields["value"]:
                # (GTK 3 names it by what is chosen)
                fields["label"] = None
        described = [self.known[path].property("Name") for path in self.related(found, "described-by")]
        fields["description"] = found.property("Description") or " ".join(described)
        fields["author_id"] = found.property("AccessibleId")
        if found.role == "link":
            fields["url"] = found.url

    def chosen(self, found, whole):
        """What is chosen in a combo box: as it says, as its text, or as what is selected in the list below it."""
        if found.chosen and found.chosen[0] == self.all_of.owner and found.chosen[1] in self.known:
            return self.known[found.chosen[1]].property("Name")
        lists = [self.known[child] for child in found.children if child in self.known]
        inside = [self.known[child] for one in lists for child in one.children if child in self.known]
        selected = [one.property("Name") for one in lists + inside if "selected" in one.states]
        return whole or (selected[0] if selected else None)

    def related(self, found, name):
        return [path for path in found.relations.get(name, []) if path in self.known]

    def put_relations(self, found, fields, name):
        if not name or fields.get("label") is None:
            fields["labelled"] = [self.ids.of(path) for path in self.related(found, "labelled-by")]
        fields["controls"] = [self.ids.of(path) for path in self.related(found, "controller-for")]
        if self.active.get(found.path) in self.known:
            fields["active"] = self.ids.of(self.active[found.path])

    # ---- states, numbers and attributes

    def put_states(self, found, fields, kind, places):
        states = found.states
        for state, field in FLAG_OF_ATSPI.items():
            fields[field] = state in states
        fields["hidden"] = self.is_hidden(found, places)
        fields["disabled"] = not states & {"enabled", "sensitive"} and found.role not in QUIET and kind != "GenericContainer"
        fields["read_only"] = "read-only" in states or kind in INPUTS and "editable" not in states
        if found.role in TOGGLES or "checkable" in states:
            is_on = states & {"checked", "pressed"}
            fields["toggled"] = "mixed" if "indeterminate" in states else "true" if is_on else "false"
        if "expandable" in states:
            fields["expanded"] = "true" if "expanded" in states else "false"
        if "selectable" in states and kind not in INPUTS and found.role not in MENU_ITEMS:
            fields["selected"] = "true" if "selected" in states else "false"
        if states & {"horizontal", "vertical"} and found.role in ORIENTED:
            fields["orientation"] = "vertical" if "vertical" in states else "horizontal"
        actions = ["Click"] if any(action.lower() in CLICKS for action in found.actions) else []
        actions += ["Focus"] if "focusable" in states else []
        is_stepped = found.role in ("slider", "spin-button", "dial") and not fields["read_only"]
        fields["actions"] = actions + (["Increment", "Decrement"] if is_stepped else [])

    def is_hidden(self, found, places):
        """Not visible, or not showing and not only scrolled out. GTK 4 says of windows alone that they show."""
        if found.role == "application" or self.toolkit == "GTK" and "visible" in found.states:
            return False
        return "visible" not in found.states or "showing" not in found.states and not places.is_scrolled_out(found.extents)

    def put_numbers(self, found, fields):
        for name, field in NUMBERS.items():
            amount = found.amount(name)
            if amount is not None and (amount or name != "MinimumIncrement"):
                fields[field] = thousandths(amount)

    def put_attributes(self, found, fields, kind):
        attributes = found.attributes
        for name, field in TEXT_OF_ATSPI.items():
            fields[field] = fields.get(field) or attributes.get(name)
        for name, field in CHOICE_OF_ATSPI.items():
            if attributes.get(name) in CHOICES[field]:
                fields[field] = attributes[name]
        if kind == "Alert" and found.role != "alert":
            fields["live"] = fields.get("live") or "assertive"
        if "has-popup" in found.states or found.role in ("menu", "push-button-menu"):
            fields["has_popup"] = fields.get("has_popup") or "menu"
        fields["live_atomic"] = attributes.get("atomic") == "true"
        fields["level"], fields["set_size"] = counted(attributes.get("level")), counted(attributes.get("setsize"))
        position = counted(attributes.get("posinset"))
        fields["position"] = position - 1 if position else None

    def put_set(self, found, fields):
        """The set of a radio button, which toolkits have as a relation: in the order of the screen."""
        group = self.related(found, "member-of") if found.role in ("radio-button", "radio-menu-item") else []
        if found.path in group and fields.get("set_size") is None:
            group.sort(key=lambda path: (self.known[path].extents or (0, 0))[1::-1])
            fields["set_size"], fields["position"] = len(group), group.index(found.path)

    # ---- places

    def put_place(self, found, fields, places):
        """Box and move: a window's place on the screen is its move. Gives what is known of where the children are."""
        corner, clip, extents = places.corner, places.clip, found.extents
        if extents and corner is None and self.all_of.is_window(found):
            corner = extents[:2]
            fields["move"], fields["bounds"] = pixels(*corner), pixels(0, 0, *extents[2:])
        elif extents:
            fields["bounds"] = places.relative(extents)
        if extents and found.role in SCROLLS:
            fields["clips"] = found.role in CLIPS
            clip = extents
        return Places(corner, clip)

    def put_text(self, id, found, fields, places):
        """The runs of an edited text, and its selection: the ids of the runs."""
        runs = text_nodes(id, found.text)
        self.nodes.update(runs)
        for at, (run, piece) in enumerate(zip(runs, pieces(found.text))):
            self.put_run_place(runs[run].fields, found, at, piece, places)
        ends = self.selection_of(found)
        fields["selection"] = ends and selection_in(id, found.text, *ends)
        return run_ids(id, len(runs))

    def put_run_place(self, fields, found, at, piece, places):
        """The box of a run, and where its characters are, if all of them were measured."""
        try:
            extents = box(found.lines.get((at, None)) or (0, 0, 0, 0))
            boxes = [[number(one) for one in found.lines.get((at, place), ())] for place in range(len(piece.parts))]
        except Wrong:
            return
        if not extents:
            return
        fields["bounds"] = places.relative(extents)
        if boxes and all(len(one) == 4 for one in boxes):
            fields["character_positions"] = pixels(*(one[0] - extents[0] for one in boxes))
            fields["character_widths"] = pixels(*(max(0, one[2]) for one in boxes))
            fields["text_direction"] = "left_to_right"

    def selection_of(self, found):
        """Where the selection begins, and the end that moves, which is the caret; or the caret alone."""
        caret, chosen = found.caret, found.selection
        if caret is None or not 0 <= caret <= 2 * len(found.text):
            return None
        ends = [caret, caret]
        is_pair = isinstance(chosen, (list, tuple)) and len(chosen) == 2 and all(isinstance(one, int) for one in chosen)
        if is_pair and chosen[0] != chosen[1] and min(chosen) >= 0:
            ends = [chosen[1], chosen[0]] if caret == chosen[0] else list(chosen)
        if self.toolkit == "Qt":
            ends = [from_utf16(found.text, end) for end in ends]
        return ends if max(ends) <= len(found.text) else None

    def labels_between(self, id, whole, children):
        """Firefox has no accessible for the text between children, each of which is U+FFFC in the text: a Label for each such text."""
        parts = whole.split("\ufffc")
        if len(parts) - 1 != len(children) or not any(part.strip() for part in parts):
            return children
        found = []
        for label, part, child in zip(run_ids(id, len(parts)), parts, [*children, None]):
            if part.strip():
                self.nodes[label] = Node("Label", {"value": part}, [])
                found.append(label)
            found += [] if child is None else [child]
        return found


def counted(word):
    """An attribute that is a number, from 0 on."""
    return int(word) if word and word.isascii() and word.isdigit() and len(word) < 19 else None
