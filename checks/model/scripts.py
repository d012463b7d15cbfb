"""The model's output for a script, which it reads line by line (docs/SCRIPT.md).

If an update breaks several rules, the line has all of them: `refused NotReached 5 or NotReached 6`.
"""

import os
import re
from copy import copy

from model.fields import FIELDS, ROOT, BadLine, coordinate, need, number, one_of, short, tree_name, units
from model.worlds import (
    Node,
    Update,
    World,
    accepted,
    children,
    differences,
    faults,
    focus,
    is_focused,
    node_named,
    root_named,
    told_of_update,
)
from model.texts import MOVES, flat_text, indexes, is_text, label_of, position_at, text_between, value_of
from model.views import (
    FILTERS,
    ancestors,
    following,
    following_filtered,
    hit,
    preceding,
    preceding_filtered,
    preorder,
    shown,
    size_and_position,
)

ROLES = (
    "Unknown Window ScrollView Paragraph GenericContainer TextRun Label Image Document Terminal TextInput MultilineTextInput"
    " SearchInput DateInput DateTimeInput WeekInput MonthInput TimeInput EmailInput NumberInput PasswordInput"
    " PhoneNumberInput UrlInput EditableComboBox SpinButton ListBox TabList AlertDialog Dialog ComboBox DisclosureTriangle"
    " TreeItem Button CheckBox DefaultButton Link MenuItem MenuItemCheckBox MenuItemRadio RadioButton DocBackLink"
    " DocBiblioRef DocGlossRef DocNoteRef ColorWell Grid MenuListPopup RadioGroup Slider Switch TreeGrid Article Definition"
    " DescriptionList GraphicsDocument List ListItem PdfRoot ProgressIndicator RootWebArea Term Timer Toolbar Tooltip Comment"
    " Tab ListBoxOption MenuListOption ListGrid Menu MenuBar Tree"
).split()

SCRIPT_PAGE = os.path.join(os.path.dirname(os.path.abspath(__file__)), "..", "..", "docs", "SCRIPT.md")


def numbered_roles():
    """The roles that are sent by a number, as the page on scripts lists them, each with its name."""
    with open(SCRIPT_PAGE, encoding="utf-8") as page:
        listed = re.search(r"^## Roles$.*?^```text$.*?^```$.*?^```text$(.*?)^```$", page.read(), re.S | re.M).group(1)
    return {f"Other({number})": name for number, name in re.findall(r"(\d+) (\w+)", listed)}


NAME_OF_ROLE = numbered_roles()


def aria_roles():
    """The names of roles in ARIA, as the page on scripts lists them, each with the names of the roles that have it."""
    with open(SCRIPT_PAGE, encoding="utf-8") as page:
        listed = re.search(r"^## Roles$(?:.*?^```text$.*?^```$){2}.*?^```text$(.*?)^```$", page.read(), re.S | re.M).group(1)
    return {entry.split()[0]: entry.split()[1:] for entry in listed.split(";")}


ARIA_ROLES = aria_roles()


def role_shown(role):
    """A role's name as programs show it: of one that is sent by a number that of the table, if it has one."""
    return NAME_OF_ROLE.get(role, role)


# ---- words


def role(word):
    """A role by its name, or by its number."""
    if word in ROLES:
        return word
    other = re.fullmatch(r"Other\((.*)\)", word, re.S)
    need(other)
    return f"Other({short(other.group(1))})"


class Words:
    """What is left of a line: nothing at its end, and else what comes after a space."""

    def __init__(self, line):
        self.rest = line

    def word(self):
        """The next word."""
        need(self.rest)
        word, space, rest = self.rest.partition(" ")
        need(word)
        self.rest = rest if space else None
        return word

    def text(self):
        """The next text, which stands in quotes."""
        quoted = re.match(r'"((?:[^"\\]|\\["\\n])*)"(?: |\Z)', self.rest or "", re.S)
        need(quoted)
        after = self.rest[quoted.end(1) + 1 :]
        self.rest = after[1:] if after else None
        return re.sub(r"\\(.)", lambda escape: "\n" if escape[1] == "n" else escape[1], quoted[1])

    def fields(self, kinds):
        """The fields up to the line's end, each once, by their names: flags, texts, and what is read of a word."""
        found = {}
        while self.rest is not None:
            name, equals, _ = self.rest.partition(" ")[0].partition("=")
            need(name in kinds and name not in found and bool(equals) == (kinds[name] is not bool))
            if kinds[name] is bool:
                self.word()
                found[name] = True
                continue
            self.rest = self.rest[len(name) + 1 :]
            found[name] = self.text() if kinds[name] is str else kinds[name](self.word())
        return found

    def done(self):
        """The line ends here."""
        need(self.rest is None)


# ---- lines of updates

UPDATE_FIELDS = {"focus": number, "root": number, "toolkit": str, "version": str}

def read_update(words):
    """`update TREE focus=ID ..`, from `TREE` on. The toolkit's texts stand beside a root only."""
    tree = tree_name(words.word())
    fields = words.fields(UPDATE_FIELDS)
    need("focus" in fields and ("root" in fields or not {"toolkit", "version"} & set(fields)))
    return Update(tree, fields["focus"], fields.get("root"))


def read_node(words):
    """`node ID ROLE ..`, from `ID` on: the number, and the node."""
    return number(words.word()), Node(role(words.word()), **words.fields(FIELDS))


def field_word(name, value):
    """The word of a field with its value, in a list that is empty where the field is absent."""
    kind = FIELDS.get(name, UPDATE_FIELDS.get(name))
    if value is None or value is False or value in ((), []) and kind is not units:
        return []
    if value is True:
        return [name]
    if kind is str:
        return [f"{name}={text_line(value)}"]
    if name == "selection":
        value = [f"{node}:{index}" for node, index in value]
    if isinstance(value, (tuple, list)):
        value = ",".join(map(str, value)) or "-"
    return [f"{name}={value}"]


# ---- answers


def id_line(id):
    """An id, or `none`."""
    return f"{id[0]}:{id[1]}" if id else "none"


def ids_line(ids):
    """Ids with a space between them, or `-`."""
    return " ".join(map(id_line, ids)) or "-"


def text_line(text):
    """A text in quotes, or `none`."""
    if text is None:
        return "none"
    return '"' + text.replace("\\", r"\\").replace('"', r"\"").replace("\n", r"\n") + '"'


def of_filter(answer):
    """What is answered by a filter, of which a list of ids is told."""
    return lambda world, id, name="common": ids_line(answer(world, FILTERS[name], id))


def set_line(world, id, name="common"):
    """The size of the node's set, and its position in it, `-` for each that there is not."""
    return " ".join("-" if one is None else str(one) for one in size_and_position(world, FILTERS[name], id))


def hit_line(world, id, x, y, name="common"):
    """What is hit at a point."""
    return id_line(hit(world, FILTERS[name], id, (x, y)))


def whole_text_line(world, id):
    """The text of the node's runs, where they make one."""
    return text_line("".join(flat_text(world, id).characters) if is_text(world, id) else None)


def at_places(answer):
    """What is answered of places in the node's text, each an index and a side, where the text has them."""

    def told(world, id, index, side, *more):
        if not is_text(world, id):
            return "no text"
        text = flat_text(world, id)
        asked = [position_at(text, index, side)]
        if len(more) == 2:
            asked, more = [*asked, position_at(text, *more)], ()
        return "no text" if None in asked else answer(text, *asked, *more)

    return told


def move_line(text, position, move):
    """Where a move leads: a run's node and an index in it, or `none`."""
    found = MOVES[move](text, position)
    return f"{text.runs[found[0]].node} {found[1]}" if found else "none"


def indexes_line(text, position):
    """The indexes of a position."""
    return "{} {} {}".format(*indexes(text, position))


def between_line(text, start, end):
    """The text between two positions."""
    return text_line(text_between(text, start, end))


FILTER = one_of(FILTERS)
PLACE = [number, one_of(["start", "end"])]

# The questions about a node: what is read after its name, how much of it may be left out, and what is answered.
QUESTIONS = {
    "children": ([], 0, lambda world, id: ids_line(children(world, id))),
    "following": ([], 0, lambda world, id: ids_line(following(world, id))),
    "preceding": ([], 0, lambda world, id: ids_line(preceding(world, id))),
    "filtered": ([FILTER], 1, of_filter(shown)),
    "following_filtered": ([FILTER], 1, of_filter(following_filtered)),
    "preceding_filtered": ([FILTER], 1, of_filter(preceding_filtered)),
    "set": ([FILTER], 1, set_line),
    "hit": ([coordinate, coordinate, FILTER], 1, hit_line),
    "label": ([], 0, lambda world, id: text_line(label_of(world, id))),
    "value": ([], 0, lambda world, id: text_line(value_of(world, id))),
    "text": ([], 0, whole_text_line),
    "move": ([*PLACE, one_of(MOVES)], 0, at_places(move_line)),
    "indexes": (PLACE, 0, at_places(indexes_line)),
    "between": ([*PLACE, *PLACE], 0, at_places(between_line)),
}


def event_line(event):
    """What is told of a change."""
    return " ".join([event[0], *("-" if id is None else id_line(id) for id in event[1:])])


def refusal_line(standing):
    """The faults that may be named."""
    subjects = {fault: "" if fault.subject is None else f" {fault.subject}" for fault in standing}
    return "refused " + " or ".join(sorted(fault.name + subjects[fault] for fault in standing))


def outline(world):
    """The tree: each node with its role, and a star if it is focused."""
    return [
        "  " * len(ancestors(world, id)) + f"{id_line(id)} {world.nodes[id].role}" + " *" * is_focused(world, id)
        for id in preorder(world, root_named(world, ROOT))
    ]


# ---- scripts


class Play:
    """A script as far as it has run."""

    def __init__(self):
        self.world = World()
        # The update whose nodes are being read.
        self.open = None

    def line(self, line):
        """The lines that a line, which is bytes without its newline, has the program print."""
        try:
            line = line.decode()
        except UnicodeDecodeError:
            raise BadLine from None
        line = line[:-1] if line.endswith("\r") else line
        if not line or line.startswith("#"):
            return []
        words = Words(line)
        word = words.word()
        if word == "node":
            return self.add(words)
        if word == "end":
            words.done()
            return self.send()
        told = self.command(word, words)
        need(not self.open or word == "update")
        return told

    def add(self, words):
        """A node of the update."""
        node = read_node(words)
        need(self.open)
        self.open = self.open._replace(nodes=(*self.open.nodes, node))
        return []

    def send(self):
        """Sends the update."""
        need(self.open)
        update, self.open = self.open, None
        standing = faults(self.world, update)
        if standing:
            return [refusal_line(standing)]
        new = accepted(self.world, update)
        told = told_of_update(self.world, update, new)
        self.world = new
        return [*map(event_line, told), "ok"]

    def command(self, word, words):
        """What stands between updates."""
        if word == "update":
            need(not self.open)
            self.open = read_update(words)
            return []
        if word == "host":
            is_focused = one_of(["on", "off"])(words.word()) == "on"
            words.done()
            return self.set_host(is_focused) if not self.open else []
        if word in QUESTIONS:
            return [self.ask(word, words)]
        need(word in ("print", "focus"))
        words.done()
        if not self.world.known:
            return ["no tree"]
        return outline(self.world) if word == "print" else [id_line(focus(self.world))]

    def set_host(self, is_focused):
        """The host window has the focus, or has lost it."""
        new = self.world.with_host(is_focused)
        told = differences(self.world, new) if self.world.known else None
        self.world = new
        return [*map(event_line, told), "ok"] if told is not None else []

    def ask(self, word, words):
        """A question about a node."""
        name = number(words.word()), tree_name(words.word())
        reads, optional, answer = QUESTIONS[word]
        asked = []
        while len(asked) < len(reads) and (words.rest is not None or len(asked) < len(reads) - optional):
            asked.append(reads[len(asked)](words.word()))
        words.done()
        if not self.world.known:
            return "no tree"
        id = node_named(self.world, *name)
        return answer(self.world, id, *asked) if id else "no node"


def worlds_of(script):
    """The world after each update of a script without a bad line, which is bytes, and after all those the one that it leaves."""
    play = Play()
    for line in script.split(b"\n"):
        was_open = play.open
        play.line(line)
        if was_open and not play.open:
            yield play.world
    yield play.world


def world_of(script):
    """The world that a script without a bad line leaves, which is bytes."""
    *_, last = worlds_of(script)
    return last


def told_by(script, play=None, before=0):
    """What a script, which is bytes, prints by the model, line by line, and the number of its bad line, if it has one. Where
    it goes on from another one, so many lines came before."""
    lines = script.split(b"\n")
    lines = lines if lines[-1] else lines[:-1]
    play, told = copy(play) if play else Play(), []
    for count, line in enumerate(lines, before + 1):
        try:
            told += play.line(line)
        except BadLine:
            return told, count
    return told, before + len(lines) if play.open else None


def is_told(told, printed):
    """Whether a line that was printed is the one that is told, or one of them."""
    if not told.startswith("refused "):
        return told == printed
    return printed.startswith("refused ") and printed[8:] in told[8:].split(" or ")


if __name__ == "__main__":
    import sys

    lines, bad = told_by(sys.stdin.buffer.read())
    sys.stdout.buffer.write("".join(line + "\n" for line in lines).encode())
    sys.exit(f"line {bad}: bad line" if bad else 0)
