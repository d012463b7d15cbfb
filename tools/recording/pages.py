"""A page in a browser as the nodes of a script."""

from recording.names import CHOICE_OF_DEVTOOLS, CHOICES, FLAG_OF_DEVTOOLS, ROLE_OF_DEVTOOLS, TEXT_OF_DEVTOOLS
from recording.script import Node, Tree, pixels, thousandths
from recording.texts import LONGEST_TEXT, from_utf16, run_ids, run_node, pieces, selection_in, text_nodes

# What a field of HTML of the type is.
INPUTS = dict(password="PasswordInput", email="EmailInput", search="SearchInput", url="UrlInput", tel="PhoneNumberInput")
INPUTS["number"] = "SpinButton"
EDITS = {"TextInput", "MultilineTextInput", "PasswordInput", "EmailInput", "SearchInput", "UrlInput", "PhoneNumberInput"}
EDITS.add("EditableComboBox")
CLICKED = {"Button", "CheckBox", "Link", "MenuItem", "MenuItemCheckBox", "MenuItemRadio", "RadioButton", "Switch", "Tab", "ListBoxOption"}
CLICKED |= {"TreeItem", "ComboBox", "DisclosureTriangle", "MenuListOption", "ColorWell"}
STEPPED = {"Slider", "SpinButton"}
LEVELS = {"Heading", "TreeItem", "ListItem", "Row"}
# Runs of one line may overlap by so much, and a part of a date's field is at most so many levels below it.
LEEWAY, MOST_PARTS = 64, 8
# Ids of nodes that Chromium has without an element are below 0: they follow from here.
WITHOUT_ELEMENT = 5 * 10**9


def is_amount(value):
    return isinstance(value, (int, float)) and not isinstance(value, bool)


def id_of(key):
    """The id of a node of the accessibility tree, or `None` if that has none."""
    try:
        number = int(key)
    except (TypeError, ValueError):
        return None
    number = number if number >= 0 else WITHOUT_ELEMENT - number
    return number if 0 <= number < 10**13 else None


class Page:
    """The nodes of a look."""

    def __init__(self, seen, notes):
        self.seen, self.notes, self.nodes, self.focus = seen, notes, {}, None
        self.raw = {key: node for key, node in seen.nodes.items() if isinstance(node, dict) and id_of(key) is not None}
        shown = ((key, node) for key, node in self.raw.items() if not node.get("ignored"))
        self.by_element = {node["of"]: id_of(key) for key, node in shown if isinstance(node.get("of"), int)}
        self.above, self.runs, self.focused = {}, {}, None

    def tree(self):
        """The whole tree, or `None` if there is none to be seen."""
        root = next(iter(self.raw), None)
        if root is None:
            return None
        todo, seen = [root], {root}
        while todo:
            key = todo.pop()
            below = self.add(key, key == root)
            new = [one for one in dict.fromkeys(below) if one not in seen]
            seen.update(new)
            todo += reversed(new)
        for key in seen:
            if self.role(key) in EDITS and self.element(key).get("tag") not in ("INPUT", "TEXTAREA"):
                self.put_lines(key)
        root = id_of(root)
        return Tree(root, root if self.focus is None else self.focus, self.nodes)

    # ---- what was seen, if it is of the right type

    def of(self, key, name, kind, otherwise):
        value = self.raw[key].get(name, otherwise)
        if isinstance(value, kind):
            return value
        if value is not None:
            self.notes.note("an answer of a wrong type: left out", f"{name} of {key}")
        return otherwise

    def properties(self, key):
        return self.of(key, "properties", dict, {})

    def element(self, key):
        found = self.seen.elements.get(str(self.raw[key].get("of")))
        return found if isinstance(found, dict) else {}

    def attributes(self, key):
        found = self.element(key).get("attributes")
        return {name: value for name, value in found.items() if isinstance(value, str)} if isinstance(found, dict) else {}

    def shown(self, keys):
        """The nodes that are shown of these: in the place of an ignored one what is below it."""
        found, todo, seen = [], list(reversed(keys)), set()
        while todo:
            key = str(todo.pop())
            if key not in self.raw:
                self.notes.note("listed, but gone: left out", key)
            elif not self.raw[key].get("ignored"):
                found.append(key)
            elif key not in seen:
                seen.add(key)
                todo += reversed(self.of(key, "children", list, []))
        return found

    # ---- one node

    def add(self, key, is_root):
        """Adds a node with its texts: the children that are to be added."""
        id, kind, properties = id_of(key), self.role(key), self.properties(key)
        below, fields = self.shown(self.of(key, "children", list, [])), {}
        self.put_texts(key, kind, fields)
        self.put_states(key, kind, fields)
        self.put_place(key, kind, fields, is_root)
        self.put_relations(key, fields)
        self.above.update((one, key) for one in below if one not in self.above)
        if properties.get("focused") is True and not is_root:
            self.focus, self.focused = id, key
        children = [id_of(one) for one in below]
        if kind in EDITS and self.element(key).get("tag") in ("INPUT", "TEXTAREA"):
            children, below = self.field_text(key, kind, fields), []
        elif below and all(self.raw[one].get("role") == "InlineTextBox" for one in below):
            children, below = self.text(key, below), []
        self.nodes[id] = Node(kind, fields, children)
        return below

    def role(self, key):
        """The role, which for a field may depend on its element."""
        said, tag = self.of(key, "role", str, ""), self.element(key).get("tag")
        if said == "textbox" and tag == "INPUT":
            return INPUTS.get(self.attributes(key).get("type", "").lower(), "TextInput")
        if said == "textbox" and self.properties(key).get("multiline") is True:
            return "MultilineTextInput"
        if said == "combobox" and tag == "INPUT":
            return "EditableComboBox"
        # (as Chromium has it on the bus)
        if said == "option" and "MenuListPopup" in [self.raw[one].get("role") for one in self.above_of(key, 2)]:
            return "MenuListOption"
        return ROLE_OF_DEVTOOLS.get(said, "GenericContainer")

    def above_of(self, key, most):
        """The nodes above one, at most so many of them."""
        found = []
        while len(found) < most and key in self.above:
            key = self.above[key]
            found.append(key)
        return found

    def put_texts(self, key, kind, fields):
        """Label, value, description, and what attributes have."""
        name, own = self.part_name(key, self.of(key, "name", str, "")), self.attributes(key)
        if kind == "Label":
            fields["value"] = self.flat(key).strip() if self.raw[key].get("role") in ("LabelText", "Legend") else name
        else:
            # (also a name from contents, which the library takes from fewer nodes than a browser does)
            fields["label"] = name or self.legend(key)
        fields["description"] = self.of(key, "description", str, "")
        self.put_value(key, kind, fields)
        fields["value"] = own.get("aria-valuetext") or fields.get("value")
        for attribute, field in TEXT_OF_DEVTOOLS.items():
            fields[field] = fields.get(field) or own.get(attribute)
        if kind == "Link":
            url = self.properties(key).get("url")
            fields["url"] = url if isinstance(url, str) else None
        for attribute, field in (("aria-setsize", "set_size"), ("aria-posinset", "position")):
            word = own.get(attribute, "")
            number = int(word) if word.isascii() and word.isdigit() and len(word) < 19 else 0
            fields[field] = (number if field == "set_size" else number - 1) if number else None

    def part_name(self, key, name):
        """The name of a part of a date's field: Chromium answers its own one twice, and on the bus has its own and the field's."""
        half = name[: len(name) // 2]
        for above in self.above_of(key, MOST_PARTS) if name and name == f"{half} {half}" else ():
            if self.raw[above].get("role") in ("Date", "DateTime", "InputTime"):
                return f"{half} {self.of(above, 'name', str, '')}".strip()
        return name

    def legend(self, key):
        """The legend of a group, which Chromium names by it on the bus, and not in its answers."""
        below = self.shown(self.of(key, "children", list, [])) if self.element(key).get("tag") == "FIELDSET" else []
        return next((self.flat(one).strip() for one in below if self.raw[one].get("role") == "Legend"), "")

    def put_value(self, key, kind, fields):
        value, properties = self.raw[key].get("value"), self.properties(key)
        if is_amount(value):
            fields["number"] = thousandths(value)
            for name, field in (("valuemin", "min"), ("valuemax", "max")):
                fields[field] = thousandths(properties.get(name))
            if kind == "SpinButton" and self.element(key).get("tag") != "INPUT":
                # (else its value would be the hint that is drawn in it)
                fields["value"] = f"{value:g}"
        elif isinstance(value, str) and value and kind not in EDITS | {"Label"}:
            fields["value"] = value

    def flat(self, key):
        """The text of a label, without what is typed into a field in it."""
        found, todo, seen = [], [key], set()
        while todo:
            one = todo.pop()
            if one in seen:
                continue
            seen.add(one)
            if self.raw[one].get("role") == "StaticText":
                found.append(self.of(one, "name", str, ""))
            elif self.properties(one).get("settable") is not True:
                todo += reversed(self.shown(self.of(one, "children", list, [])))
        return "".join(found)

    def put_states(self, key, kind, fields):
        properties, own = self.properties(key), self.attributes(key)
        for name, field in FLAG_OF_DEVTOOLS.items():
            fields[field] = properties.get(name) is True
        # (of a check box it isn't a property)
        fields["required"] = fields["required"] or "required" in own or own.get("aria-required") == "true"
        fields["read_only"] = properties.get("readonly") is True and kind in EDITS | STEPPED
        for name in ("checked", "pressed"):
            value = properties.get(name)
            fields["toggled"] = fields.get("toggled") or (str(value).lower() if value in (True, False, "true", "false", "mixed") else None)
        for name in ("expanded", "selected"):
            fields[name] = str(properties[name]).lower() if properties.get(name) in (True, False) else None
        for name, field in CHOICE_OF_DEVTOOLS.items():
            value = properties.get(name, own.get(name))
            fields[field] = value if value in CHOICES[field] and value != "off" else None
        fields["live_atomic"] = bool(fields.get("live")) and properties.get("atomic") is True
        orientation, level = properties.get("orientation"), properties.get("level")
        fields["orientation"] = orientation if orientation in ("horizontal", "vertical") else None
        fields["level"] = level if kind in LEVELS and isinstance(level, int) and level > 0 else None
        focusable = ["Focus"] if properties.get("focusable") is True else []
        is_stepped = kind in STEPPED and not fields["read_only"]
        fields["actions"] = ["Click"] * (kind in CLICKED) + focusable + ["Increment", "Decrement"] * is_stepped

    def put_place(self, key, kind, fields, is_root):
        shape = self.seen.shape
        if is_root and isinstance(shape, list) and len(shape) == 6 and all(map(is_amount, shape)):
            x, y, width, height, whole_width, whole_height = shape
            fields["bounds"], fields["clips"] = pixels(x, y, x + width, y + height), True
            fields["move"] = pixels(-x, -y) if x or y else None
            for name, at, rest in (("scroll_x", x, whole_width - width), ("scroll_y", y, whole_height - height)):
                if rest > 0:
                    fields[name], fields[f"{name}_max"] = pixels(at, rest)
        elif not is_root:
            fields["bounds"] = edges(self.element(key).get("box"))
            fields["clips"] = self.element(key).get("clips") is True and kind not in EDITS

    def put_relations(self, key, fields):
        for name, field in (("controls", "controls"), ("labelledby", "labelled"), ("activedescendant", "active")):
            others = self.properties(key).get(name)
            others = [self.by_element.get(other) for other in others if isinstance(other, int)] if isinstance(others, list) else []
            others = [other for other in others if other is not None]
            fields[field] = (others[0] if others else None) if field == "active" else others

    # ---- texts

    def field_text(self, key, kind, fields):
        """The runs of a field's text as it was typed: Chromium's own lines of it aren't in its answers. Gives their ids."""
        id, value = id_of(key), self.raw[key].get("value")
        live = self.seen.field if self.properties(key).get("focused") is True else None
        live = live if isinstance(live, list) and len(live) == 4 and isinstance(live[0], str) else None
        text = value if isinstance(value, str) else "" if value is None else str(value)
        if live and kind != "PasswordInput":
            text = live[0].encode("utf-16-le", "surrogatepass").decode("utf-16-le", "replace")
        if len(text) > LONGEST_TEXT:
            self.notes.note(f"a text beyond {LONGEST_TEXT} characters: left out", key)
        breaks = self.breaks_of(key, text)
        if live and all(isinstance(at, int) and at >= 0 for at in live[1:3]):
            start, end = (from_utf16(text, at) for at in (live[2:0:-1] if live[3] == "backward" else live[1:3]))
            fields["selection"] = selection_in(id, text, start, end, breaks)
        runs = text_nodes(id, text, breaks)
        self.nodes.update(runs)
        return list(runs)

    def text(self, key, below):
        """The lines of a text, each a run where it is shown."""
        boxes, at, found = self.element(key).get("texts"), 0, []
        boxes = sorted(boxes) if isinstance(boxes, list) and all(isinstance(one, list) and len(one) == 3 for one in boxes) else []
        for count, (run, inner) in enumerate(zip(run_ids(id_of(key), len(below)), below)):
            value = self.of(inner, "name", str, "")
            if not value:
                continue
            node = run_node(pieces(value)[0])
            places = [one for one in boxes if one[0] <= at < one[0] + max(1, one[1])] or boxes[count : count + 1] or boxes[-1:]
            node.fields["bounds"] = edges(places[0][2]) if places else None
            self.nodes[run] = node
            found.append(run)
            self.runs.setdefault(key, []).append((run, places[0][0] if places else at, value))
            at += len(value.encode("utf-16-le", "replace")) // 2
        return found


    def texts_below(self, key, kinds=("StaticText",)):
        """The texts that are drawn at a node or below it, but for the marks of lists."""
        found, todo, seen = [], [key], set()
        while todo:
            one = todo.pop()
            if one in seen:
                continue
            seen.add(one)
            if self.raw[one].get("role") in kinds:
                found.append(one)
            elif self.raw[one].get("role") != "ListMarker":
                todo += reversed(self.shown(self.of(one, "children", list, [])))
        return found

    def breaks_of(self, key, text):
        """Where the lines of a field's text were wrapped: each piece of a text but the first begins a line, unless it is of spaces."""
        found, whole = [], ""
        for one in self.texts_below(key, ("StaticText", "LineBreak")):
            for count, inner in enumerate(self.shown(self.of(one, "children", list, []))):
                piece = self.of(inner, "name", str, "")
                found += [len(whole)] if count and piece.strip() else []
                whole += piece
        return tuple(found) if whole == text else ()

    def put_lines(self, key):
        """In an editable part of the page: which runs are on one line, and the selection."""
        texts = self.texts_below(key)
        runs = [run for one in texts for run, _, _ in self.runs.get(one, [])]
        for run, other in zip(runs, runs[1:]):
            box, after = (self.nodes[it].fields.get("bounds") for it in (run, other))
            if box and after and 2 * (min(box[3], after[3]) - max(box[1], after[1])) > after[3] - after[1] and after[0] >= box[2] - LEEWAY:
                self.nodes[run].fields["next"], self.nodes[other].fields["prev"] = other, run
        field = self.seen.field
        if key == self.focused and isinstance(field, list) and len(field) == 4 and field[0] is None:
            places = [self.place_of(texts, spot) for spot in field[1:3]]
            self.nodes[id_of(key)].fields["selection"] = places if all(places) else None

    def place_of(self, texts, spot):
        """An end of a selection, by the number of its text and a place there, as a run and a character."""
        is_right = isinstance(spot, list) and len(spot) == 2 and all(isinstance(one, int) and one >= 0 for one in spot)
        if not is_right or spot[0] >= len(texts):
            return None
        before = [one for one in self.runs.get(texts[spot[0]], []) if one[1] <= spot[1]]
        if not before:
            return None
        run, start, value = before[-1]
        return run, pieces(value)[0].index(from_utf16(value, spot[1] - start))


def edges(box):
    """The edges of a box that is given by a corner, width and height."""
    if not isinstance(box, list) or len(box) != 4 or not all(map(is_amount, box)) or min(box[2:]) < 0:
        return None
    x, y, width, height = box
    return pixels(x, y, x + width, y + height)
