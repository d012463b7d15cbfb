"""A recording of an application on the accessibility bus: the first tree, and what the events of each turn make of it."""

from typing import NamedTuple

from recording.accessibles import Accessibles, Question, Wrong, reference
from recording.described import Description, Ids
from recording.sources import ATSPI, ROOT

# GTK 3 sends thousands of these, which say nothing.
SILENT = {("PropertyChange", "widget"), ("PropertyChange", "renderer"), ("PropertyChange", "accessible-parent")}
SILENT |= {("StateChanged", "has-tooltip"), ("StateChanged", "defunct")}
# After these the states and the places of what is below change without events.
MOVES = {"ChildrenChanged", "ModelChanged", "VisibleDataChanged"}
MOVING_STATES = {"active", "showing", "visible", "iconified"}
WINDOW_EVENTS = {"Activate", "Deactivate", "Maximize", "Minimize", "Restore", "Move", "Resize", "Raise", "Lower"}
# If more is below, it is looked at once nothing else happens, in pieces.
AT_ONCE, PIECE = 200, 100
HIGHEST = 200


class Event(NamedTuple):
    """An event: its name, its detail, two numbers, a path or another value, and the path of its source."""

    name: str
    detail: str
    one: int
    two: int
    value: object
    path: str

    @classmethod
    def of(cls, name, path, body):
        """An event of the values of a signal, whatever they are."""
        detail, one, two, value = (*body, "", 0, 0, None)[:4] if len(body) >= 4 else ("", 0, 0, None)
        return cls(name, detail if isinstance(detail, str) else "", one if isinstance(one, int) else 0, two, value, path)


class Turns:
    """The tree of an application, and the script that it is written to."""

    def __init__(self, source, script, notes):
        self.source, self.script, self.notes = source, script, notes
        self.all_of, self.ids = Accessibles(source, notes), Ids(notes)
        self.focus, self.was, self.unlisted, self.active, self.later = None, None, None, {}, {}
        # What an accessible that nothing lists calls its parent; and whether the focus is only where a caret has moved.
        self.above, self.is_guessed = {}, False

    # ---- steps

    def begin(self, _=()):
        """Reads all there is, and writes the first update: whether the application answers."""
        if not self.all_of.begin():
            return False
        self.focus = self.focused()
        self.write("as it was found")
        return True

    def turn(self, events):
        """Reads what the events are about, and writes what has changed."""
        told, moved, resized = {}, {}, {}
        for event in map(lambda event: Event(*event), events):
            if (event.name, event.detail) not in SILENT:
                self.take(event, told, moved, resized)
            elif event.detail == "defunct" and event.one:
                self.all_of.known.pop(event.path, None)
        moved.update(dict.fromkeys(self.all_of.look(resized)))
        changed = self.look_below(moved)
        known = [path for path in told if path in self.all_of.known]
        self.all_of.load(dict.fromkeys([*self.edited(changed), *known, *self.around_focus()]))
        titles = dict.fromkeys(f"{event[0]} {event[1]}".strip() for event in events)
        self.write("; ".join(titles)[:120])

    def sweep(self, _=()):
        """Has all looked at that is known: no toolkit reports everything."""
        self.later.update(dict.fromkeys(self.all_of.known))

    def settle(self, _=()):
        """Looks at some of what may have moved."""
        some = list(self.later)[:PIECE]
        for path in some:
            del self.later[path]
        self.all_of.load(self.edited(self.all_of.look(some, is_whole=True)))
        self.write("places")

    def again(self, _=()):
        """Reads all again that is known."""
        self.all_of.load(list(self.all_of.known))
        self.write("read again")

    def check(self, _=()):
        """Reads all as if it were the first time: how that differs from what was written."""
        fresh = Accessibles(self.source, self.notes)
        if not fresh.begin():
            return None
        return self.script.differences(Description(fresh, self.ids, self.active, self.notes).tree(None))

    # ---- events

    def take(self, event, told, moved, resized):
        """Notes what an event is about."""
        if event.name == "BoundsChanged":
            resized[event.path] = None
        else:
            told[event.path] = None
        is_state = event.name == "StateChanged"
        if event.name in MOVES or event.name in WINDOW_EVENTS or is_state and event.detail in MOVING_STATES:
            moved[event.path] = None
        if (event.name, event.detail) == ("PropertyChange", "accessible-value"):
            found, above = self.all_of.known.get(event.path), self.all_of.parent(event.path)
            if found and found.role == "scroll-bar" and above:
                # (what it scrolls has moved)
                moved[above] = None
        if is_state and event.detail == "focused" and event.one or event.name == "Focus":
            self.focus, self.is_guessed = event.path, False
        elif event.name == "ActiveDescendantChanged":
            self.take_active(event, told)
        elif event.name == "TextCaretMoved" and (self.focus is None or self.is_guessed):
            # (GTK 4 doesn't say at first where the focus is)
            self.focus, self.is_guessed = event.path, True

    def take_active(self, event, told):
        try:
            name, path = reference(event.value)
        except Wrong:
            return
        if name == self.source.owner:
            self.active[event.path] = path
            told[path] = None

    def look_below(self, moved):
        """Looks at what is below what has moved, or puts that off: what has changed."""
        looked = {}
        for path in moved:
            below = self.all_of.below(path)
            (self.later if len(below) > AT_ONCE else looked).update(dict.fromkeys(below))
        return self.all_of.look(looked)

    def edited(self, paths):
        """Those with an edited text, whose lines have moved too."""
        return [path for path in paths if path in self.all_of.known and self.all_of.known[path].edits()]

    # ---- the focus

    def focused(self):
        """The accessible with the state focused. Qt gives it to an editor, its viewport and its window at once: it is the one in an active
        window that can have the focus, edits, and is deepest."""
        known = self.all_of.known
        found = [path for path, one in known.items() if {"focused", "showing"} <= one.states]
        if len(found) > 1:
            self.notes.note("several have the focus: one of them is taken", ", ".join(sorted(found)[:4]))

        def rank(path):
            above = [known[path], *self.all_of.ancestors(path)]
            is_active = any("active" in one.states and self.all_of.is_window(one) for one in above)
            return is_active, "focusable" in known[path].states, known[path].edits(), len(above), path

        return max(found, key=rank, default=None)

    def around_focus(self):
        """What is to be read since the focus came to something that isn't known: the nearest above it that is, which may list it now."""
        path = self.focus
        for _ in range(HIGHEST):
            if not path or path in self.all_of.known:
                break
            if path not in self.above:
                self.above[path] = self.asked_parent(path)
            path = self.above[path]
        return [path] if path and path != self.focus and path in self.all_of.known else []

    def asked_parent(self, path):
        try:
            name, above = reference(self.all_of.ask(path, Question("Properties", "Get", "ss", (f"{ATSPI}Accessible", "Parent"))))
        except Wrong:
            return None
        return above if name == self.source.owner and above != path else None

    def listed_focus(self, nodes):
        """The focus, if a node lists it. Otherwise, if more events wait, what it was; or the nearest above it that is listed, as for the
        button in a combo box of GTK 3."""
        path = self.focus
        if path and self.ids.of(path) not in nodes and path not in self.above and self.source.is_waiting():
            return self.was
        seen = set()
        while path and path not in seen and self.ids.of(path) not in nodes:
            seen.add(path)
            path = self.above.get(path)
        path = None if path in seen else path
        if path != self.focus and self.focus != self.unlisted:
            self.notes.note("the focus isn't listed: it is put on the nearest above it", f"{self.focus}, {path or ROOT}")
            self.unlisted = self.focus
        return path

    # ---- writing

    def write(self, title=None):
        """Writes what has changed, if the application still answers."""
        if ROOT not in self.all_of.known:
            self.notes.note("the application itself is gone, or silent")
            return False
        tree = Description(self.all_of, self.ids, self.active, self.notes).tree(None)
        self.was = self.listed_focus(tree.nodes)
        focus = self.ids.of(self.was) if self.was else tree.root
        wrote = self.script.update(tree._replace(focus=focus), title, self.all_of.toolkit)
        if wrote:
            self.forget()
        return wrote

    def forget(self):
        """Forgets what the root no longer leads to: it is read anew if it comes back."""
        for path in [path for path in self.all_of.known if self.ids.of(path) not in self.script.lines]:
            del self.all_of.known[path]
