"""Compares what clients read and hear on the bus, after each step of a script, with what the model and the program `atree` say."""

import subprocess

import pyatspi

import expected
from model.scripts import Play, is_told
from model.worlds import differences, focus, root_named
from session import ROOT, SPI, Listener, Program, application, commands, id_of, in_window, path_of

# Of how many nodes of a step what is at their centre is asked, and of how many marks of a text what they are.
CENTRES, MARKS = 40, 3
# Of how many rows and columns of a table the cells are read.
CELLS = 4


def word_of(state):
    """The name of a state as signals have it."""
    return state.value_nick


class Asked:
    """The program `atree`, which is fed the same commands and is asked of each step."""

    def __init__(self, program):
        how = {"stdin": subprocess.PIPE, "stdout": subprocess.PIPE, "text": True, "encoding": "utf-8"}
        self.process = subprocess.Popen([program], **how)
        self.is_new = True

    def feed(self, command):
        """The last line that a command prints; a host line before there is a tree prints none."""
        self.process.stdin.write(command)
        self.process.stdin.flush()
        if command.startswith("host") and self.is_new:
            return "ok"
        while True:
            line = self.process.stdout.readline().rstrip("\n")
            if line == "ok" or line.startswith("refused"):
                self.is_new = self.is_new and line != "ok"
                return line

    def ask(self, questions):
        """The answers of questions, of which each prints a line."""
        self.process.stdin.write("".join(it + "\n" for it in questions))
        self.process.stdin.flush()
        return [self.process.stdout.readline().rstrip("\n") for _ in questions]

    def end(self):
        self.process.stdin.close()
        self.process.stdout.close()
        self.process.wait()


class Mirror:
    """The children of each node as a client keeps them by signals alone: what is below a child that is added is read."""

    def __init__(self, listener, checks):
        self.listener, self.checks = listener, checks
        self.below = {}
        self.read(ROOT)

    def read(self, path):
        self.below[path] = [it for _, it in self.listener.call(path, SPI + "Accessible", "GetChildren")[0]]
        for it in self.below[path]:
            self.read(it)

    def forget(self, path):
        for it in self.below.pop(path, []):
            self.forget(it)

    def follow(self, signals):
        for path, interface, member, kind, index, _, value in signals:
            if member != "ChildrenChanged":
                continue
            listed, child = self.below.get(path), value[1]
            if not self.checks.that(listed is not None, f"children of {path}, which isn't known, {kind}"):
                continue
            if kind == "add":
                listed.insert(index, child)
                self.read(child)
            elif self.checks.that(index < len(listed) and listed[index] == child, f"{child} isn't child {index} of {path}"):
                del listed[index]
                self.forget(child)


class Comparison:
    """A script on the bus, in `atree` and in the model."""

    def __init__(self, checks, program, atree, name, script, options=(), title=None, units=64):
        self.checks, self.name, self.units, self.title = checks, name, units, title
        words = [*options, "--name", name, "--units", str(units), *(["--window", title] if title else [])]
        self.program = Program(program, script, *words)
        self.rest = [in_window(it, title) for it in commands(script)]
        self.play, self.asked = Play(), Asked(atree)
        self.trees = []
        self.objects = 0
        while not self.play.world.known:
            self.feed(self.rest.pop(0))
        self.application = application(name)
        self.checks.that(self.application is not None, f"{name}: not on the bus")
        self.listener = Listener(bus_name(self.application))
        self.mirror = Mirror(self.listener, checks)

    def feed(self, command):
        """Has the model and `atree` carry out a command: whether it is accepted."""
        told = [line for it in command.splitlines() for line in self.play.line(it.encode())]
        printed = self.asked.feed(command)
        last = told[-1] if told else "ok"
        self.checks.that(is_told(last, printed), f"{self.name}: atree says {printed}, the model {last}")
        return not last.startswith("refused")

    def run(self):
        """Compares the first state and that after each step."""
        self.compare(0)
        for step, command in enumerate(self.rest, 1):
            before = self.play.world
            is_accepted = self.feed(command)
            printed = self.program.say()
            signals = self.listener.heard()
            self.checks.that(printed[0].startswith("ok") == is_accepted, f"{self.name} {step}: {printed[0]}")
            if not is_accepted:
                self.checks.that(not signals, f"{self.name} {step}: refused, and heard {signals[:3]}")
            self.mirror.follow(signals)
            self.compare_events(step, before, signals)
            self.compare(step)
        self.program.say("quit")
        self.listener.close()
        self.asked.end()
        self.program.end()

    # ---- what is heard

    def compare_events(self, step, old, signals):
        """Each property, state and focus that differs of a node that is told as updated is told once, with what it is now."""
        new = self.play.world
        told = {event[1] for event in differences(old, new) if event[0] == "updated"}
        both = [id for id in told if all(expected.FILTER(it, id) == expected.INCLUDED for it in (old, new))]
        both = [id for id in both if not expected.is_application(new, id)]
        wanted = set()
        for id in both:
            path = path_of(id)
            for kind, read in (("accessible-name", expected.name), ("accessible-description", lambda w, it: w.nodes[it].description or "")):
                if read(old, id) != read(new, id):
                    wanted.add((path, "PropertyChange", kind, read(new, id)))
            differ = expected.states(old, id) ^ expected.states(new, id)
            wanted |= {(path, "StateChanged", it, it in expected.states(new, id)) for it in differ - {"focused", "active"}}
        for id in filter(lambda it: it in old.nodes and is_edited(new, it) and not expected.hides_text(new, it), new.nodes):
            if expected.caret(new, id) not in (-1, expected.caret(old, id)) and all(
                expected.FILTER(it, id) == expected.INCLUDED for it in (old, new)
            ):
                wanted.add((path_of(id), "TextCaretMoved", expected.caret(new, id)))
        before, after = focus(old), focus(new)
        if before != after:
            if before is not None and before in new.nodes:
                wanted.add((path_of(before), "StateChanged", "focused", False))
            if after is not None and not expected.is_application(new, after):
                wanted.add((path_of(after), "StateChanged", "focused", True))
        before, after = expected.active_window(old), expected.active_window(new)
        if before != after:
            wanted |= {(path_of(before), "Deactivate")} if before in new.nodes else set()
            wanted |= {(path_of(after), "Activate")} if after is not None else set()
        heard = []
        for path, interface, member, kind, first, second, value in signals:
            if interface == "Window":
                heard.append((path, member))
            if member == "PropertyChange" and kind in ("accessible-name", "accessible-description"):
                heard.append((path, member, kind, value))
            elif member == "StateChanged" and kind not in ("active", "defunct"):
                heard.append((path, member, kind, bool(first)))
            elif member == "TextCaretMoved":
                heard.append((path, member, first))
        where = f"{self.name} {step}"
        self.checks.that(len(heard) == len(set(heard)), f"{where}: heard twice {[it for it in heard if heard.count(it) > 1][:3]}")
        self.checks.that(
            set(heard) == wanted,
            f"{where}: not heard {sorted(map(str, wanted - set(heard)))[:4]}, heard {sorted(map(str, set(heard) - wanted))[:4]}",
        )
        self.compare_edits(where, old, signals)

    def compare_edits(self, where, old, signals):
        """What was taken out of each text and put in leads from the old text to the new one."""
        texts, new = {}, self.play.world
        for path, _, member, kind, start, length, value in signals:
            if member != "TextChanged":
                continue
            id = id_of(path)
            now = texts.get(path, text_of(old, id))
            is_right = length == len(value) and (kind == "insert" or now[start : start + length] == value)
            self.checks.that(is_right, f"{where}: {path} {kind} {start} {value!r} in {now!r}")
            texts[path] = now[:start] + (value if kind == "insert" else "") + now[start + (0 if kind == "insert" else length) :]
        for path, now in texts.items():
            id = id_of(path)
            self.checks.that(now == text_of(new, id), f"{where}: {path} is {now!r} by its edits")
        # (what is said in a live region is told)
        for id in filter(lambda it: new.nodes[it].role == "Label" and expected.holds_text(new, it), new.nodes):
            above = expected.parent(new, id)
            is_said = above in old.nodes and expected.live(old, above) != "off" and expected.live(new, id) != "off"
            is_said = is_said and all(expected.FILTER(it, above) == expected.INCLUDED for it in (old, new))
            if is_said and expected.FILTER(new, id) == expected.INCLUDED and text_of(new, id) != text_of(old, id):
                self.checks.that(path_of(id) in texts, f"{where}: {id} in a live region is {text_of(new, id)!r}, and it isn't told")

    # ---- what is read

    def compare(self, step):
        """Reads all that is shown."""
        world = self.play.world
        root = root_named(world, expected.ROOT)
        questions, hits = [], []
        windows = expected.windows(world)
        found = {ROOT: [path_of(it) for it in windows]}
        todo = [(self.application.get_child_at_index(i), it) for i, it in enumerate(windows)]
        self.checks.that(self.application.get_child_count() == len(windows), f"{self.name} {step}: not {len(windows)} windows")
        frame = todo[0][0] if windows == [root] else None
        while todo:
            node, id = todo.pop()
            self.objects += 1
            children = expected.children(world, id)
            got = [node.get_child_at_index(i) for i in range(node.get_child_count())]
            found[path_of(id)] = [it.path if it else None for it in got]
            self.checks.that(
                found[path_of(id)] == [path_of(it) for it in children], f"{self.name} {step}: children of {id}: {found[path_of(id)]}"
            )
            self.compare_node(f"{self.name} {step}: {id}", world, id, node)
            questions.append((f"filtered {id[1]} {world.known[id[0]]} common_with_root", " ".join(f"{a}:{b}" for a, b in children) or "-"))
            if frame and len(hits) < CENTRES and world.nodes[id].bounds:
                hits.append(self.hit(frame, world, id, questions))
            todo += [pair for pair in zip(got, children) if pair[0]]
        self.checks.that(found == self.mirror.below, f"{self.name} {step}: by signals {difference(self.mirror.below, found)}")
        answers = self.asked.ask([it for it, _ in questions])
        wrong = [(question, answer, told) for (question, told), answer in zip(questions, answers) if answer != told]
        self.checks.that(not wrong, f"{self.name} {step}: atree, the bus {wrong[:3]}")

    def hit(self, frame, world, id, questions):
        """What is at the centre of a node."""
        x, y, width, height = expected.box(world, id, self.units)
        x, y = x + width // 2, y + height // 2
        got = frame.queryComponent().getAccessibleAtPoint(x, y, pyatspi.WINDOW_COORDS)
        got = None if got is None else id_of(got.path)
        told = expected.hit_at(world, x, y, self.units)
        self.checks.that(got == told, f"{self.name}: at {x},{y} {got} and not {told}")
        root = root_named(world, expected.ROOT)
        questions.append(
            (f"hit {root[1]} root {x * self.units} {y * self.units} common_with_root", "none" if told is None else f"{told[0]}:{told[1]}")
        )
        return told

    def compare_node(self, where, world, id, node):
        """Everything that is read of one node."""
        sent = world.nodes[id]
        states = {word_of(it) for it in node.get_state_set().get_states()}
        attributes = dict(it.split(":", 1) for it in node.get_attributes_as_array())
        interfaces = set(node.get_interfaces())
        relations = node.get_relation_set()
        parent = expected.parent(world, id)
        pairs = [
            ("name", node.get_name(), expected.name(world, id)),
            ("description", node.get_description(), sent.description or ""),
            ("role", node.get_role_name(), expected.role(world, id)),
            ("states", states, expected.states(world, id)),
            ("attributes", attributes, expected.attributes(world, id)),
            ("interfaces", interfaces, expected.interfaces(world, id)),
            ("parent", node.get_parent().path, path_of(parent) if parent and not expected.is_application(world, parent) else ROOT),
            (
                "index",
                node.get_index_in_parent(),
                expected.children(world, parent).index(id) if parent and id in expected.children(world, parent) else 0,
            ),
            ("labels", relation(relations, pyatspi.RELATION_LABELLED_BY), [path_of(it) for it in expected.labels(world, id)]),
            ("page", relation(relations, pyatspi.RELATION_EMBEDS), [path_of(it) for it in expected.page(world, id)]),
            ("controls", relation(relations, pyatspi.RELATION_CONTROLLER_FOR), [path_of(it) for it in expected.controls(world, id)]),
        ]
        if "Component" in interfaces:
            pairs.append(("box", tuple(node.queryComponent().getExtents(pyatspi.WINDOW_COORDS)), expected.box(world, id, self.units)))
        if "Value" in interfaces:
            value = node.queryValue()
            got = [value.currentValue, value.minimumValue, value.maximumValue, value.minimumIncrement]
            pairs.append(("value", got, expected.values(world, id)))
        if "Action" in interfaces:
            action = node.queryAction()
            pairs.append(("actions", [action.getName(i) for i in range(action.nActions)], expected.actions(world, id)))
        if "Hyperlink" in interfaces:
            found = node.get_hyperlink()
            pairs.append(("address", found.get_uri(0), sent.url or ""))
            pairs.append(("link", (found.get_start_index(), found.get_end_index()), expected.link(world, id)))
        if "Selection" in interfaces:
            selection = node.querySelection()
            got = [id_of(selection.getSelectedChild(i).path) for i in range(selection.nSelectedChildren)]
            pairs.append(("selected", got, expected.selected_items(world, id)))
        if "Table" in interfaces:
            pairs += self.table(world, id, node.queryTable())
        if "TableCell" in interfaces:
            pairs += self.cell(world, id, node.queryTableCell())
        if "Hypertext" in interfaces:
            pairs += self.marks(world, id, node)
        elif "Text" in interfaces:
            pairs += self.texts(world, id, node.queryText())
        for what, got, told in pairs:
            self.checks.that(got == told, f"{where}: {what} is {got}, and not {told}")

    @staticmethod
    def table(world, id, table):
        """How many rows and columns it has, what is at a few places, and the headers of these."""
        rows = [expected.parts(world, it, "cell") for it in expected.parts(world, id, "row")]
        pairs = [("rows, columns", (table.nRows, table.nColumns), (len(rows), max(map(len, rows), default=0)))]
        for at, row in list(enumerate(rows))[:CELLS] + [(len(rows), [])]:
            for column in range(min(len(row), CELLS) + 1):
                cell = row[column] if column < len(row) else None
                found = table.getAccessibleAt(at, column)
                pairs.append((f"cell {at},{column}", found and id_of(found.path), cell))
                index = expected.cell_index((id, at, column)) if cell else -1
                pairs.append((f"index of {at},{column}", table.getIndexAt(at, column), index))
                got = table.getRowAtIndex(index), table.getColumnAtIndex(index), table.getRowExtentAt(at, column)
                pairs.append((f"place {index}", got, (at, column, 1) if cell else (-1, -1, 0)))
            first = row[0] if row and expected.role(world, row[0]) == "row header" else None
            found = table.getRowHeader(at)
            pairs.append((f"header of row {at}", found and id_of(found.path), first))
        for column, cell in enumerate(rows[0][:CELLS] if rows else []):
            found = table.getColumnHeader(column)
            told = cell if expected.role(world, cell) == "column header" else None
            pairs.append((f"header of column {column}", found and id_of(found.path), told))
        return pairs

    @staticmethod
    def cell(world, id, cell):
        """Where it is in its table, and its headers."""
        table, row, column = expected.place(world, id)
        pairs = [("place", tuple(cell.position), (True, row, column)), ("table", cell.table.path, path_of(table))]
        pairs.append(("spans", (cell.rowSpan, cell.columnSpan), (1, 1)))
        for kind, found in (("row header", cell.rowHeaderCells), ("column header", cell.columnHeaderCells)):
            pairs.append((kind, [id_of(it.path) for it in found], expected.headers(world, id, kind)))
        return pairs

    def marks(self, world, id, node):
        """The text of what holds other nodes in a page: a mark for each, its box, and what it leads to."""
        text, links, below = node.queryText(), node.queryHypertext(), expected.children(world, id)
        pairs = [("marks", (text.getText(0, -1), text.characterCount, text.caretOffset), ("\ufffc" * len(below), len(below), -1))]
        pairs.append(("links", links.getNLinks(), len(below)))
        for at, child in list(enumerate(below))[:MARKS]:
            got = text.getRangeExtents(at, at + 1, pyatspi.WINDOW_COORDS)
            pairs.append(("mark", tuple(got), expected.box(world, child, self.units)))
            pairs.append(("unit", tuple(text.getStringAtOffset(at, pyatspi.TEXT_GRANULARITY_LINE)), ("\ufffc", at, at + 1)))
            pairs.append(("leads", links.getLink(links.getLinkIndex(at)).getObject(0).path, path_of(child)))
        return pairs

    @staticmethod
    def texts(world, id, text):
        """The text, its caret and selection, and its lines and words."""
        told = expected.text(world, id)
        place = expected.selection(world, id)
        pairs = [
            ("text", text.getText(0, -1), told),
            ("length", text.characterCount, len(told)),
            ("caret", text.caretOffset, expected.caret(world, id)),
        ]
        if place:
            pairs.append(("selection", text.getNSelections(), int(place[0] != place[1])))
        if place and place[0] != place[1]:
            pairs.append(("selected", tuple(text.getSelection(0)), tuple(sorted(place))))
        flat = expected.flat_text(world, id)
        starts = {pyatspi.TEXT_GRANULARITY_LINE: [(r, 0) for r in flat.line_starts], pyatspi.TEXT_GRANULARITY_WORD: flat.word_starts}
        for unit, positions in starts.items():
            offsets = sorted({expected.indexes(flat, it)[0] for it in positions} | {0}) + [len(told)]
            for start, end in list(zip(offsets, offsets[1:]))[:30]:
                if start < end:
                    got = text.getStringAtOffset((start + end) // 2, unit)
                    pairs.append(("unit", tuple(got), (told[start:end], start, end)))
        return pairs


def text_of(world, id):
    """Its text, or its marks; nothing of a node that isn't there."""
    if id not in world.nodes:
        return ""
    return expected.text(world, id) if expected.holds_text(world, id) else "\ufffc" * expected.marks(world, id)


def is_edited(world, id):
    """Whether edits of its text are told."""
    return world.nodes[id].role in expected.TEXT_INPUTS | {"Document", "Terminal"}


def relation(relations, kind):
    """The paths of a relation's targets."""
    return [it.get_target(i).path for it in relations if it.get_relation_type() == kind for i in range(it.get_n_targets())]


def bus_name(node):
    """The name on the bus of an accessible's application."""
    return node.app.bus_name


def difference(one, other):
    """A few of the keys at which two differ."""
    return [(it, one.get(it), other.get(it)) for it in {*one, *other} if one.get(it) != other.get(it)][:2]
