"""What a page of a script shows, by the model, and what a page says to one who reads it as HTML: the two are compared, and
nothing of how a page is written is known here but its elements and their classes."""

import re
from html.parser import HTMLParser

from model.record import given
from model.worlds import differences, effective_focus, faults, focus, is_focused, places, root_named
from model.worlds import children as children_of
from model.worlds import told_of_update
from model.fields import FIELDS, ROOT, BadLine
from model.scripts import Play, field_word, role_shown, told_by
from model.speech import EXPANDED, SELECTED, SWITCHED
from model.texts import BULLET, HOLDS_TEXT, is_read_only, is_text, label_of, labelled_by, runs_of, value_of
from model.views import CUT_OFF, INCLUDED, LEFT_OUT, ancestors, base_filter, bounding_box, common_filter, filtered_parent, meets, preorder, upward

REFUSALS = {
    "MissingTreeInfo": "the first update has no tree info",
    "NotRootTree": "the first update is not for the root tree",
    "MissingData": "no data for node {0}",
    "NotReached": "node {0} is named and not reached from the root",
    "NamedTwice": "node {0} is named twice",
    "ListedTwice": "node {0} is listed at two places, or is the root and listed",
    "RootTreeGrafted": "node {0} grafts the root tree",
    "GraftWithChildren": "node {0} is a graft and lists children",
    "GraftedTwice": "tree {0} is grafted twice",
    "NoGraft": "no node grafts tree {0}",
    "NoFirstTreeInfo": "tree {0} is not present, and the update has no tree info",
    "FocusMissing": "the focus {0} is not reached",
    "FocusOnEmptyGraft": "the focus is on a graft of tree {0}, which is not present",
}


# ---- what is shown of a node


def id_text(id):
    return f"{id[0]}:{id[1]}"


def is_password(world, id):
    return world.nodes[id].role == "PasswordInput"


def is_in_password(world, id):
    """Whether it stands below a password input."""
    return any(is_password(world, up) for up in ancestors(world, id))


def holds_password(world, id):
    """Whether the runs of a password may be among its runs."""
    has_runs = world.nodes[id].role in HOLDS_TEXT and runs_of(world, id)
    return bool(has_runs) and any(is_password(world, below) for below in preorder(world, id)[1:])


def hides_value(world, id):
    """Whether its value may show what is typed into a password."""
    is_of_runs = is_password(world, id) or world.nodes[id].value is None
    return is_in_password(world, id) or is_of_runs and holds_password(world, id)


def hides_part(world, id):
    """Whether what it gives to another node's label may."""
    return hides_value(world, id) if world.nodes[id].role == "Label" else is_in_password(world, id)


def hides_label(world, id):
    """Whether its label may."""
    is_own = world.nodes[id].label is not None
    return is_in_password(world, id) or not is_own and any(hides_part(world, part) for part in labelled_by(world, id))


def shown_label(world, id):
    """The label, where it isn't hidden."""
    return None if hides_label(world, id) else label_of(world, id)


def shown_value(world, id):
    """The value, where it isn't hidden: of a password a bullet for each character."""
    if hides_value(world, id):
        return None
    if not is_password(world, id):
        return value_of(world, id)
    if is_text(world, id):
        return BULLET * sum(len(world.nodes[run].chars) for run in runs_of(world, id))
    value = world.nodes[id].value
    return value and BULLET * len(value)


def hidden_words(world, id):
    """What is said in place of a label and a value that are hidden."""
    return ["label hidden"] * hides_label(world, id) + ["value hidden"] * hides_value(world, id)


def caption(world, id):
    """The label, or else the value."""
    label = shown_label(world, id)
    return shown_value(world, id) if label is None else label


def words_of_state(node):
    """What is said of its state, each where it applies."""
    return [
        SWITCHED.get(node.toggled),
        EXPANDED.get(node.expanded),
        SELECTED.get(node.selected),
        node.disabled and "disabled",
        is_read_only(node) and "read-only",
        node.required and "required",
        node.busy and "busy",
        node.modal and "modal",
    ]


def state_words(node):
    return [word for word in words_of_state(node) if word]


def focus_words(world, id):
    """What is said of the focus, and of that of the tree where the host doesn't have it."""
    if is_focused(world, id):
        return ["focus"]
    return ["focus in the tree"] if not world.is_host_focused and id == effective_focus(world) else []


def is_left_out(world, id):
    """Whether the common filter excludes it, or a node above it, with its subtree."""
    return any(common_filter(world, up) == CUT_OFF for up in upward(world, id))


def is_out_of_clip(world, id):
    """Whether a graft, a container or a run lies wholly outside of the box of the nearest node above it that the base filter
    includes, if that clips its children. On an axis on which its box has no length, that is somewhere in it too."""
    parent, own = filtered_parent(world, base_filter, id), bounding_box(world, id)
    if common_filter(world, id) != LEFT_OUT or parent is None or not world.nodes[parent].clips:
        return False
    frame = bounding_box(world, parent)
    wide = own and own[:2] + tuple(max(own[axis] + 1, own[axis + 2]) for axis in (0, 1))
    return bool(frame and wide) and not meets(wide, frame)


def is_not_drawn(world, id):
    """Whether its row says that it isn't shown, and it has no box."""
    return is_left_out(world, id) or is_out_of_clip(world, id)


def row(world, id, number, marks):
    """What the outline says of a node."""
    is_hidden = any(world.nodes[up].hidden for up in upward(world, id))
    left_out = ["hidden" if is_hidden else "clipped"] * is_not_drawn(world, id)
    return {
        "anchor": f"s{number}-{id[0]}-{id[1]}",
        "depth": len(ancestors(world, id)),
        "role": role_shown(world.nodes[id].role),
        "label": shown_label(world, id),
        "value": shown_value(world, id),
        "words": hidden_words(world, id) + state_words(world.nodes[id]),
        "marks": [marks[id] for id in {id} & set(marks)] + focus_words(world, id) + left_out,
        "id": id_text(id),
    }


def in_box(world, id):
    """What stands in its box: its label, or else its value, unless the first of its children is a run with a box, where that stands."""
    first = children_of(world, id)[:1]
    is_in_run = any(world.nodes[it].role == "TextRun" and world.nodes[it].bounds is not None for it in first)
    return None if is_in_run and shown_label(world, id) is None else caption(world, id)


def drawn(world, id, number, marks):
    """The box of a node that isn't left out, and what stands in it."""
    box = bounding_box(world, id)
    look = "" if common_filter(world, id) == INCLUDED else "t", marks.get(id, "")[:1]
    classes = " ".join(filter(None, look)) or "n"
    return f"#s{number}-{id[0]}-{id[1]}", classes, box[:2] + (max(box[2] - box[0], 1), max(box[3] - box[1], 1)), in_box(world, id)


# ---- what has become of a state


def named(world, id):
    """What names a node: its role, its label or else its value, its id, and whether its label is hidden."""
    return [role_shown(world.nodes[id].role), caption(world, id), id_text(id), hides_label(world, id)] if id else ["none"]


def box_text(box):
    """A box by its left, top, right and bottom."""
    return ",".join(map(str, box)) if box else "none"


# What is told of the characters of a text.
MEASURED = ("chars", "words", "character_positions", "character_widths")


def hides_field(world, id, name):
    """Whether a field may show what is typed into a password: a text of a node in one, or what is measured of characters there, and
    of the password itself."""
    if is_in_password(world, id):
        return FIELDS[name] is str or name in MEASURED
    return is_password(world, id) and name in MEASURED


def shown_field(world, id, name):
    """The label and the value as they are shown, and any other field as a script has it; of a flag, whether it is set."""
    if name == "label":
        return shown_label(world, id)
    if name == "value":
        return shown_value(world, id)
    if hides_field(world, id, name):
        return None
    value = getattr(world.nodes[id], name)
    if FIELDS[name] is bool:
        return "yes" if value else "no"
    written = field_word(name, given(name, value))
    return written[0].partition("=")[2] if written else None


def place_shown(world, id):
    """Its parent, and its index among the parent's children."""
    place = places(world).get(id)
    return place and f"{id_text(place[0])}/{place[1]}"


def fields_told(old, new, id):
    """Each field of two states of a node that differs: its name, what was shown of it, and what is."""
    for name, shown in (("role", lambda world, id: role_shown(world.nodes[id].role)), ("place", place_shown)):
        yield name, shown(old, id), shown(new, id)
    for name in FIELDS:
        yield name, shown_field(old, id, name), shown_field(new, id, name)


def event_told(old, new, event):
    """What is told of an event."""
    kind, id, *_ = event
    if kind == "focus":
        return [kind, named(old, id), named(new, event[2])]
    told = [kind, named(old if kind == "removed" else new, id)]
    if kind == "updated":
        told += [[name, was, now] for name, was, now in fields_told(old, new, id) if was != now]
        boxes = box_text(bounding_box(old, id)), box_text(bounding_box(new, id))
        told += [f"; box {boxes[0]} → {boxes[1]}"] if boxes[0] != boxes[1] else []
    return told


def tree_shown(world, number, marks, last):
    """The outline, the boxes and the ring of a world, and which rows lead to an earlier state, where `last` has what was shown of
    each node before; and what is shown of each node now."""
    ids = preorder(world, root_named(world, ROOT))
    boxes = [drawn(world, id, number, marks) for id in ids if bounding_box(world, id) and not is_not_drawn(world, id)]
    ring = bounding_box(world, focus(world)) if focus(world) else None
    rows = [row(world, id, number, marks) for id in ids]
    now = {id: (without_mark(shown), children_of(world, id)) for id, shown in zip(ids, rows)}
    same = set()
    for id in reversed(ids):
        if id not in marks and now[id] == last.get(id) and same.issuperset(now[id][1]):
            same.add(id)
    folded = {child for id in same for child in now[id][1]}
    leading = [shown["anchor"] for id, shown in zip(ids, rows) if id in same - folded]
    return (rows, boxes, ring, leading), now


def without_mark(shown):
    """What a row says but for what an update did to its node, and for where it stands."""
    marks = [mark for mark in shown["marks"] if mark not in ("added", "updated")]
    return {key: marks if key == "marks" else said for key, said in shown.items() if key not in ("anchor", "depth")}


# What is cut off at both ends of a comment.
SPACE = " \t\n\f\r"


def title_by(lines):
    """The title of a state, by the lines before its command that make none: what the comments after the last empty one say."""
    block = lines[len(lines) - lines[::-1].index("") :] if "" in lines else lines
    return " ".join(filter(None, (line.lstrip("#").strip(SPACE) for line in block)))


class Pages(Play):
    """A script as far as it has run, with what a page shows of it."""

    def __init__(self, without=None):
        super().__init__()
        self.states, self.lines, self.updates, self.without = [], 0, 0, without
        self.reports, self.last = [], {}
        # The empty lines and comments since the last command.
        self.skipped = []

    def line(self, line):
        self.lines += 1
        printed = super().line(line)
        text = line.decode().removesuffix("\r")
        if not self.open:
            self.skipped = [*self.skipped, text] if text[:1] in ("", "#") else []
        return printed

    def show(self, cause, old, told, refused=None):
        """The next state."""
        state = {"cause": cause, "refused": refused, "events": [event_told(old, self.world, event) for event in told]}
        state["title"] = title_by(self.skipped)
        if refused is None and (told or not old.known):
            marks = {event[1]: event[0] for event in told if event[0] in ("added", "updated")}
            state["tree"], self.last = tree_shown(self.world, len(self.states) + 1, marks, self.last)
        self.reports += [f"line {self.lines}, update {self.updates}: {' | '.join(sorted(refused))}\n"] if refused else []
        self.states.append(state)

    def send(self):
        self.updates += 1
        cause = f"Update {self.updates}"
        if self.open and len(self.states) == self.without:
            self.open = None
            return self.show(cause, self.world, [], {"out of memory"}) or []
        old, update, standing = self.world, self.open, faults(self.world, self.open) if self.open else set()
        printed = super().send()
        told = told_of_update(old, update, self.world) if not standing else []
        reasons = {REFUSALS[fault.name].format(fault.subject) for fault in standing}
        self.show(cause, old, told, reasons or None)
        return printed

    def set_host(self, is_focused):
        old = self.world
        printed = super().set_host(is_focused)
        if old.known and old.is_host_focused != is_focused:
            what = "gets" if is_focused else "loses"
            self.show(f"The host window {what} the focus", old, differences(old, self.world))
        return printed


def as_read(shown):
    """What can be read of what is shown: no page can show U+0000, in whose place stands U+FFFD."""
    if isinstance(shown, str):
        return shown.replace("\0", "\ufffd")
    if isinstance(shown, dict):
        return {key: as_read(value) for key, value in shown.items()}
    return type(shown)(map(as_read, shown)) if isinstance(shown, (list, tuple, set)) else shown


def states_of(script, without=None):
    """What a page shows of a script, which is bytes, and the number of its bad line, if it has one. The update that would make
    the state `without`, counted from 0, finds no memory."""
    states = pages_of(script, without).states
    for number, state in enumerate(states, 1):
        state["title"] = f"State {number}: {state['title']}" if state["title"] else f"State {number}"
    return as_read(states), told_by(script)[1]


def reports_of(script, without=None):
    """What is reported of the refused updates of a script, up to its bad line if it has one, each by the line that ends it, by its number
    among the updates, and with the words for each rule that it breaks: `line 9, update 3: WORDS | WORDS`."""
    return "".join(pages_of(script, without).reports).encode()


def pages_of(script, without):
    """The page of a script, up to its bad line if it has one."""
    pages = Pages(without)
    try:
        for line in script.split(b"\n"):
            pages.line(line)
    except BadLine:
        pass
    return pages


# ---- pages as they are read


class Reader(HTMLParser):
    """The elements of a page, each with its name, attributes, elements and texts in it."""

    VOID = {"meta", "rect"}

    def __init__(self):
        super().__init__()
        self.top = ("", {}, [])
        self.open = [self.top]

    def handle_starttag(self, name, attributes):
        element = (name, dict(attributes), [])
        self.open[-1][2].append(element)
        if name not in self.VOID:
            self.open.append(element)

    def handle_startendtag(self, name, attributes):
        self.open[-1][2].append((name, dict(attributes), []))

    def handle_endtag(self, name):
        assert self.open[-1][0] == name, f"</{name}> ends <{self.open[-1][0]}>"
        self.open.pop()

    def handle_data(self, text):
        self.open[-1][2].append(text)


def top_of(page):
    """A page, which is bytes, as a parser of HTML reads it: it drops U+0000, and makes a line feed of a carriage return."""
    reader = Reader()
    reader.feed(page.decode().replace("\0", "").replace("\r\n", "\n").replace("\r", "\n"))
    reader.close()
    assert len(reader.open) == 1, f"<{reader.open[-1][0]}> has no end"
    return reader.top


def elements(top, name):
    """The elements in this one that have this name, at any depth."""
    for part in top[2]:
        if not isinstance(part, str):
            if part[0] == name:
                yield part
            yield from elements(part, name)


def text_in(top):
    """All text in an element."""
    return "".join(part if isinstance(part, str) else text_in(part) for part in top[2])


def first(found):
    return next(iter(found), None)


def of_class(top, name, classes):
    """The text of the first such element, if there is one."""
    return first(text_in(part) for part in elements(top, name) if part[1].get("class") == classes)


# So many lists of an outline are in one another at most.
MOST_LISTS = 100


def children(top, name):
    """The elements right in this one that have this name."""
    return [part for part in top[2] if not isinstance(part, str) and part[0] == name]


def items_of(outline, within=0):
    """The items of an outline, each with its line: a folding item is open, and the items in it come after its own."""
    for item in children(outline, "li"):
        assert min(int(item[1]["aria-level"]) - 1, MOST_LISTS) == within, f"{item[1]['id']} is in {within} lists"
        folds = children(item, "details")
        yield item, children(folds[0], "summary")[0] if folds else item
        for fold in folds:
            assert "open" in fold[1] and item[2] == [fold], f"{item[1]['id']} isn't open"
            yield from items_of(children(fold, "ul")[0], within + 1)


def row_read(item, line):
    """What a row of an outline says, and to which row of an earlier state it leads, if it does."""
    leads = first(elements(line, "a"))
    return {
        "anchor": item[1]["id"],
        "depth": int(item[1]["aria-level"]) - 1,
        "role": text_in(first(elements(line, "b"))),
        "label": of_class(line, "q", "l"),
        "value": of_class(line, "q", "v"),
        "words": [text_in(part) for part in elements(line, "i")],
        "marks": [text_in(part) for part in elements(line, "em")],
        "id": text_in(first(elements(line, "small"))),
    }, leads and leads[1]["href"][1:]


class Rows:
    """The rows of all states of a page, and what is drawn in them."""

    def __init__(self, top):
        self.places, self.drawn = {}, {}
        for outline in (part for part in elements(top, "ul") if part[1].get("class") == "outline"):
            rows = [row_read(item, line) for item, line in items_of(outline)]
            self.places.update({row["anchor"]: (rows, index) for index, (row, leads) in enumerate(rows)})
        self.drawn = {part[1]["id"]: part for part in elements(top, "g")}

    def all_of(self, outline):
        """The rows of a state's outline, as if each was written out there, and the anchors of those that lead elsewhere."""
        rows = [row_read(item, line) for item, line in items_of(outline)]
        shown = [row for own, leads in rows for row in (self.led_to(own, leads) if leads else [own])]
        return shown, [own["anchor"] for own, leads in rows if leads]

    def led_to(self, own, leads):
        """The row of an earlier state, with those below it, as it stands in a later one."""
        assert leads in self.places, f"{leads} leads nowhere"
        rows, index = self.places[leads]
        top, further = rows[index]
        assert without_mark(top) == without_mark(own) and own["marks"] == without_mark(own)["marks"], f"{own['anchor']} is not {leads}"
        below = []
        for row, next in rows[index + 1 :]:
            if row["depth"] <= top["depth"]:
                break
            below += self.led_to(row, next) if next else [row]
        if further:
            return self.led_to(own, further)
        state = own["anchor"].partition("-")[0]
        deeper = own["depth"] - top["depth"]

        def placed(row):
            anchor = f"{state}-{row['anchor'].partition('-')[2]}"
            return {**row, **without_mark(row), "anchor": anchor, "depth": row["depth"] + deeper}

        return [own, *map(placed, below)]

    def links_in(self, top):
        """The boxes in an element, with those that are drawn again from an earlier state."""
        for part in top[2]:
            if isinstance(part, str):
                continue
            if part[0] == "use":
                assert part[1]["href"][1:] in self.drawn, f"{part[1]['href']} is not drawn"
                yield from self.links_in((None, None, [self.drawn[part[1]["href"][1:]]]))
            elif part[0] == "a" and "tabindex" in part[1]:
                yield part
            else:
                yield from self.links_in(part)


def rect_read(rect):
    return tuple(int(rect[1][name]) for name in ("x", "y", "width", "height"))


def box_read(link, state):
    """A box of a picture, which leads to a row of this state or of an earlier one."""
    rect, text = first(elements(link, "rect")), first(elements(link, "text"))
    leads = f"#{state}-{link[1]['href'].partition('-')[2]}"
    return leads, rect[1]["class"], rect_read(rect), text and text_in(text)


def parts_of_event(item):
    """What an item of the list of events says, in the order of its elements."""
    kind, *rest = [part for part in item[2] if part != " "]
    told, names, texts = [text_in(kind)], [], []
    for part in rest:
        if isinstance(part, str):
            match = re.match(r"; (\w+) $", part)
            if match and match.group(1) != "box":
                texts.append([match.group(1)])
            elif part.startswith("; box "):
                texts.append(part)
            elif texts and isinstance(texts[-1], str):
                texts[-1] += part
            continue
        name, text = part[0], text_in(part)
        if texts and isinstance(texts[-1], str):
            texts[-1] += text
        elif texts and isinstance(texts[-1], list) and len(texts[-1]) < 3:
            texts[-1].append(None if name == "i" else text)
        elif name == "b":
            names.append([text, None, None, False])
        elif name == "q":
            names[-1][1] = text
        elif name == "i" and part[1].get("class") == "w":
            names[-1][3] = text == "label hidden"
        elif name == "i":
            names.append(["none"])
        else:
            names[-1][2] = text
    return told + names + texts


def state_read(section, rows):
    """What a state's section says, where `rows` has the rows of all states."""
    refused = of_class(section, "p", "refused")
    details = first(part for part in children(section, "details") if part[1].get("class") == "events")
    state = {
        "title": text_in(first(elements(section, "h2"))),
        "cause": of_class(section, "p", "cause"),
        "refused": refused and {refused[len("Refused: ") : -len(". Nothing has changed.")]},
        "events": [parts_of_event(item) for item in elements(details, "li")] if details else [],
    }
    outline = first(elements(section, "ul"))
    if outline:
        figure = first(elements(section, "figure"))
        ring = first(rect for rect in elements(section, "rect") if rect[1]["class"] == "ring")
        number = section[1]["id"].replace("state-", "s")
        boxes = [box_read(link, number) for link in rows.links_in(figure)] if figure else []
        shown, leading = rows.all_of(outline)
        state["tree"] = shown, boxes, ring and rect_read(ring), leading
    return state


def is_around(ring, box):
    """Whether a ring has a box in it, with the same room on each side."""
    room = box[0] - ring[0]
    return room >= 0 and ring == (box[0] - room, box[1] - room, max(box[2] - box[0], 0) + 2 * room, box[3] - box[1] + 2 * room)


def difference_of_states(told, read):
    """In what two states differ."""
    if told["title"] != read["title"]:
        return f"it is called {read['title']} and not {told['title']}"
    if (told["cause"], told["events"]) != (read["cause"], read["events"]):
        pairs = [pair for pair in zip(told["events"], read["events"]) if pair[0] != pair[1]]
        return f"events {pairs[:1]} {len(told['events'])} {len(read['events'])}"
    if bool(told["refused"]) != bool(read["refused"]) or read["refused"] and not read["refused"] <= told["refused"]:
        return f"refused {read['refused']} and not {told['refused']}"
    if ("tree" in told) != ("tree" in read):
        return "one has a tree"
    for mine, other in zip(told.get("tree", ())[:2], read.get("tree", ())[:2]):
        if mine != other:
            return str([pair for pair in zip(mine, other) if pair[0] != pair[1]][:1] or (len(mine), len(other)))
    if told.get("tree", ())[3:] != read.get("tree", ())[3:]:
        return f"these lead to an earlier state: {read['tree'][3]} and not {told['tree'][3]}"
    rings = told.get("tree", (0, 0, None))[2], read.get("tree", (0, 0, None))[2]
    if (rings[0] is None) != (rings[1] is None) or rings[0] is not None and not is_around(rings[1], rings[0]):
        return f"the ring is {rings[1]} around {rings[0]}"
    return None


def difference_of_page(script, page, without=None):
    """In what a page differs from what the model says of the script; `None` where it doesn't."""
    try:
        top = top_of(page)
    except AssertionError as fault:
        return str(fault)
    told, bad = states_of(script, without)
    try:
        rows = Rows(top)
        read = [state_read(section, rows) for section in elements(top, "section")]
    except AssertionError as fault:
        return str(fault)
    for number, (one, other) in enumerate(zip(told, read), 1):
        differs = difference_of_states(one, other)
        if differs:
            return f"state {number}: {differs}"
    if len(told) != len(read):
        return f"{len(read)} states and not {len(told)}"
    listed = [text_in(first(elements(item, "a"))) for item in elements(first(elements(top, "nav")), "li")]
    if listed != [state["title"] for state in told]:
        return f"it lists {listed}"
    notes = notes_at_end(top)
    wanted = rf"(The script stops at line {bad}, column [1-9][0-9]*: (?!bad line)[^\n]+\n)" if bad else ""
    if not re.fullmatch(wanted, "".join(notes)):
        return f"it ends with {notes}"
    return difference_of_links(top, len(read))


def notes_at_end(top):
    """What a page says after its states."""
    return [text_in(part) for part in first(elements(top, "main"))[2] if part[0] == "p"]


def tells_fault(page, errors):
    """Whether a page says of a bad line what is reported on standard error."""
    return notes_at_end(top_of(page)) == [f"The script stops at {errors.decode()}"]


def is_ended(page, told):
    """Whether a page is a beginning of another one, and then says at once why it ends, and lists its states, each of which is whole."""
    before, note, after = page.rpartition(b'<p class="refused">Line ')
    if not note or not told.startswith(before.removesuffix(b"</section>\n")) or not page.endswith(b"</html>\n"):
        return False
    items, count = listed_items(after), before.count(b'<section id="state-')
    return len(items) == count and items == listed_items(told)[:count]


def listed_items(page):
    """The items of the list at the end of a page."""
    return re.findall(rb'<li><a href="#state-.*?</li>\n', page.rpartition(b'<nav id="states"')[2])


def refused_in(script, page):
    """The states, counted from 0, without which a page is that of the script: their updates are refused for want of memory."""
    count = len(states_of(script)[0])
    return [without for without in range(count) if difference_of_page(script, page, without) is None]


def difference_of_links(top, count):
    """Each link leads to an element, each state to the one before and after it, and nothing but the style's sheet, no script
    and no picture from elsewhere is in the page."""
    ids = [part[1]["id"] for part in everything(top) if "id" in part[1]]
    if len(ids) != len(set(ids)):
        return "an id stands twice"
    links = [part[1]["href"] for part in everything(top) if "href" in part[1]]
    astray = [link for link in links if link[0] != "#" or link[1:] not in ids]
    if astray:
        return f"{astray[0]} leads nowhere"
    nexts = [link[1]["href"] for link in elements(top, "a") if link[1].get("rel") == "next"]
    if nexts != [f"#state-{number}" for number in range(2, count + 1)]:
        return "the states are not linked"
    foreign = [part for part in everything(top) if part[0] in ("script", "img", "link") or any(name[:2] == "on" for name in part[1])]
    return f"<{foreign[0][0]}> is in the page" if foreign else None


def everything(top):
    """All elements in this one."""
    for part in top[2]:
        if not isinstance(part, str):
            yield part
            yield from everything(part)


if __name__ == "__main__":
    import sys

    with open(sys.argv[1], "rb") as script, open(sys.argv[2], "rb") as page:
        differs = difference_of_page(script.read(), page.read())
    sys.exit(differs)
