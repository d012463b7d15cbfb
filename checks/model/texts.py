"""Texts, values and labels: docs/MODEL-TEXT.md as one flat list of characters for each text, with marks in it.

A position is the number of a run, and the number of its characters before the position. Its offset counts the characters
before it in all runs.
"""

from typing import NamedTuple

from model.worlds import once
from model.views import CUT_OFF, INCLUDED, LEFT_OUT, shown, upward

BULLET = "\u2022"

TEXT_INPUTS = set(
    "TextInput MultilineTextInput SearchInput DateInput DateTimeInput WeekInput MonthInput TimeInput EmailInput NumberInput"
    " PasswordInput PhoneNumberInput UrlInput EditableComboBox SpinButton".split()
)
MAY_BE_READ_ONLY = TEXT_INPUTS | set(
    "CheckBox ColorWell ComboBox Grid ListBox MenuItemCheckBox MenuItemRadio MenuListPopup RadioButton RadioGroup Slider Switch"
    " TreeGrid".split()
)
HOLDS_TEXT = TEXT_INPUTS | {"Label", "Document", "Terminal"}
LABELLED_FROM_WITHIN = set(
    "Button CheckBox DefaultButton Link MenuItem MenuItemCheckBox MenuItemRadio RadioButton".split()
)


def is_read_only(node):
    """Whether it is read-only, where that makes a difference."""
    return node.read_only and node.role in MAY_BE_READ_ONLY


# ---- runs as they were sent


@once
def run_filter(world, id):
    """Runs are shown and not looked into, all else is looked into."""
    return INCLUDED if world.nodes[id].role == "TextRun" else LEFT_OUT


@once
def runs_of(world, root):
    """The runs below a root, in order."""
    return shown(world, run_filter, root)


def characters_of(node):
    """The characters that the lengths cut the value into, if each is a whole text and they make up the value."""
    left, characters = (node.value or "").encode(), []
    for length in node.chars:
        piece, left = left[:length], left[length:]
        if length == 0 or len(piece) < length:
            return None
        try:
            characters.append(piece.decode())
        except UnicodeDecodeError:
            return None
    return characters if not left else None


def has_rising_words(node):
    """Whether word starts rise and lie below the count of characters."""
    rise = all(one < other for one, other in zip(node.words, node.words[1:]))
    return rise and all(word < len(node.chars) for word in node.words)


def are_linked(world, ids):
    """Whether neighbours are linked both ways or not at all, and nothing else is linked."""
    nodes = [world.nodes[id] for id in ids]
    for (_, one), (_, other), before, after in zip(ids, ids[1:], nodes, nodes[1:]):
        if (before.next, after.prev) not in [(None, None), (other, one)]:
            return False
    return nodes[0].prev is None and nodes[-1].next is None


def are_measured(world, root, ids):
    """Whether positions and widths, where they are given, are as many as the characters, or of a password at least one."""
    is_password = world.nodes[root].role == "PasswordInput"
    for node in (world.nodes[id] for id in ids):
        for given in (node.character_positions, node.character_widths):
            least = min(len(node.chars), 1) if is_password else len(node.chars)
            if given is not None and not least <= len(given) <= len(node.chars):
                return False
    return True


# What a text has to be, by a name of what it is where it isn't so. (That it has 2^64 bytes no script can say.)
RULES = {
    "role": lambda world, root, ids: world.nodes[root].role in HOLDS_TEXT,
    "runs": lambda world, root, ids: ids,
    "trees": lambda world, root, ids: all(id[0] == root[0] for id in ids),
    "cuts": lambda world, root, ids: all(characters_of(world.nodes[id]) is not None for id in ids),
    "words": lambda world, root, ids: all(has_rising_words(world.nodes[id]) for id in ids),
    "empty runs": lambda world, root, ids: all(world.nodes[id].chars for id in ids[:-1]),
    "links": lambda world, root, ids: not ids or are_linked(world, ids),
    "measures": are_measured,
}


@once
def broken_rules(world, root):
    """The rules that the node's runs break. They make a text if they break none."""
    return [name for name, rule in RULES.items() if not rule(world, root, runs_of(world, root))]


def is_text(world, root):
    """Whether the node's runs make a text."""
    return not broken_rules(world, root)


def wrong_link(link, neighbour, answer, names):
    """What is wrong with a link, which should lead to this neighbour, and be answered by a link from there."""
    field, place, other = names
    if link is not None and (neighbour is None or link != neighbour[1]):
        yield f"its {field} is {link}, which is not the {place}"
    elif link is not None and answer is None:
        yield f"its {field} is the {place}, which has no {other}"


def wrong_with_run(world, root, before, id, after):
    """What is wrong with a run between these two, in the order in which it is told."""
    node = world.nodes[id]
    previous, following = (world.nodes[at] if at is not None else None for at in (before, after))
    yield from wrong_link(node.prev, before, previous and previous.next, ("previous_on_line", "run before it", "next_on_line"))
    if id[0] != root[0]:
        yield "it is in another tree"
    if characters_of(node) is None:
        yield "its character lengths do not cut its value into characters"
    if not has_rising_words(node):
        yield "its word starts do not rise, or go beyond its characters"
    least = 1 if world.nodes[root].role == "PasswordInput" else len(node.chars)
    for name, given in (("positions", node.character_positions), ("widths", node.character_widths)):
        if given is not None and not min(least, len(node.chars)) <= len(given) <= len(node.chars):
            yield f"its character {name} are not one for each character"
    if after is not None and not node.chars:
        yield "it is empty, and another run follows"
    yield from wrong_link(node.next, after, following and following.prev, ("next_on_line", "next run", "previous_on_line"))


def why_no_text(world, root):
    """Why the node's runs make no text: its role, or the first run that something is wrong with."""
    ids = runs_of(world, root)
    if not ids:
        return "it has no runs"
    if world.nodes[root].role not in HOLDS_TEXT:
        return "its role holds no text"
    triples = zip([None, *ids], ids, [*ids[1:], None])
    return next(f"run {id[1]}: {wrong}" for before, id, after in triples for wrong in wrong_with_run(world, root, before, id, after))


# ---- the flat text


class Run(NamedTuple):
    """A run as it is shown."""

    node: int
    characters: list
    is_linked_back: bool
    is_linked_on: bool
    has_newline: bool
    words: tuple
    style: tuple


def are_alike(things):
    """Whether no two of them differ."""
    return len(set(things)) < 2


@once
def needs_masking(world, root):
    """Whether it is a password of which two characters differ."""
    ids = runs_of(world, root)
    is_password = world.nodes[root].role == "PasswordInput"
    return is_password and not are_alike(one for id in ids for one in characters_of(world.nodes[id]))


# What a format is made of: of a run, or else of the nearest node above it that says it.
STYLES = (
    "font_family language font_size font_weight background_color foreground_color overline strikethrough underline text_align"
    " vertical_offset"
).split()


def style_of(world, id):
    """The format of a run."""
    above = [world.nodes[up] for up in upward(world, id)]
    given = [[getattr(node, name) for node in above if getattr(node, name) is not None] for name in STYLES]
    return tuple(found[0] if found else None for found in given)


def shown_run(world, root, id):
    """The run: in a masked text each character is a bullet, and in a password no word starts."""
    node = world.nodes[id]
    characters = characters_of(node)
    return Run(
        node=id[1],
        characters=[BULLET] * len(characters) if needs_masking(world, root) else characters,
        is_linked_back=node.prev is not None,
        is_linked_on=node.next is not None,
        has_newline=(node.value or "").endswith("\n"),
        words=() if world.nodes[root].role == "PasswordInput" else node.words,
        style=style_of(world, id),
    )


class Text:
    """The text of a root: its runs, its characters, and where lines, paragraphs and words begin and end."""

    def __init__(self, runs):
        self.runs = runs
        self.characters = [one for run in runs for one in run.characters]
        self.last = len(runs) - 1
        self.end = self.end_of(self.last)
        # The positions of each offset: one, or the two where runs meet.
        self.sides = [[] for _ in range(len(self.characters) + 1)]
        for r, run in enumerate(runs):
            for index in range(len(run.characters) + 1):
                self.sides[self.offset((r, index))].append((r, index))
        self.line_starts = [r for r, run in enumerate(runs) if not run.is_linked_back]
        self.line_ends = [r for r, run in enumerate(runs) if not run.is_linked_on]
        closing = [r for r in self.line_ends if runs[r].has_newline]
        self.paragraph_starts = sorted({0, *(r + 1 for r in closing if r < self.last)})
        self.paragraph_ends = sorted({*closing, self.last})
        self.format_starts = [r for r, run in enumerate(runs) if r == 0 or run.style != runs[r - 1].style]
        words = {(r, word) for r, run in enumerate(runs) for word in run.words}
        self.word_starts = sorted(words | {(r, 0) for r in self.paragraph_starts})

    def offset(self, position):
        """How many characters are before a position."""
        return sum(len(run.characters) for run in self.runs[: position[0]]) + position[1]

    def end_of(self, r):
        """After the last character of a run."""
        return (r, len(self.runs[r].characters))

    def to_start(self, position):
        """On the start side of its place: where two runs meet, at the start of the second."""
        return self.sides[self.offset(position)][-1]

    def to_end(self, position):
        """On the end side: at the end of the first."""
        return self.sides[self.offset(position)][0]


@once
def flat_text(world, root):
    """The text of a node whose runs make one."""
    return Text([shown_run(world, root, id) for id in runs_of(world, root)])


# ---- moves: each from a position of a text, to a position or to none


def by_character(step, side):
    """To a side of the place that is a character away."""

    def move(text, position):
        offset = text.offset(position) + step
        return text.sides[offset][side] if 0 <= offset <= len(text.characters) else None

    return move


def to_document_start(text, position):
    """Before the first character."""
    return (0, 0)


def to_document_end(text, position):
    """After the last one."""
    return text.end


def forward_to_word_start(text, position):
    """To the nearest start of a word after the position, or to the end of the text."""
    offset = text.offset(position)
    return next((mark for mark in text.word_starts if text.offset(mark) > offset), text.end)


def backward_to_word_start(text, position):
    """To the nearest start of a word before the position, or to the start of the text."""
    offset = text.offset(position)
    return next((mark for mark in reversed(text.word_starts) if text.offset(mark) < offset), (0, 0))


def forward_to_format_start(text, position):
    """To the start of the next run with which a format begins, or to the end of the text."""
    return next(((r, 0) for r in text.format_starts if r > position[0]), text.end)


def backward_to_format_start(text, position):
    """To the start of the last run before the position with which a format begins, or to the start of the text."""
    before = position[0] + (position[1] > 0)
    return next(((r, 0) for r in reversed(text.format_starts) if r < before), (0, 0))


def forward_to_start(ends):
    """To the start of what comes after the line or paragraph in which the position's run is."""

    def move(text, position):
        return text.to_start(text.end_of(first_from(getattr(text, ends), position[0])))

    return move


def forward_to_end(ends):
    """To the end of the line or paragraph in which the place is; at its end already, to that of the next."""

    def move(text, position):
        return text.end_of(first_from(getattr(text, ends), text.to_start(position)[0]))

    return move


def backward_to_start(starts):
    """To the start of the line or paragraph in which the place is; at its start already, to that of the one before."""

    def move(text, position):
        return (last_until(getattr(text, starts), text.to_end(position)[0]), 0)

    return move


def first_from(numbers, least):
    """The least of these numbers that isn't less than that."""
    return min(number for number in numbers if number >= least)


def last_until(numbers, most):
    """The greatest of these numbers that isn't more than that."""
    return max(number for number in numbers if number <= most)


def at_its_end(move):
    """To where a move leads, on the end side."""
    return lambda text, position: text.to_end(move(text, position))


# The moves by name. A text has one page.
MOVES = {
    "forward_to_character_start": by_character(1, -1),
    "forward_to_character_end": by_character(1, 0),
    "backward_to_character_start": by_character(-1, -1),
    "forward_to_format_start": forward_to_format_start,
    "forward_to_format_end": at_its_end(forward_to_format_start),
    "backward_to_format_start": backward_to_format_start,
    "forward_to_word_start": forward_to_word_start,
    "forward_to_word_end": at_its_end(forward_to_word_start),
    "backward_to_word_start": backward_to_word_start,
    "forward_to_line_start": forward_to_start("line_ends"),
    "forward_to_line_end": forward_to_end("line_ends"),
    "backward_to_line_start": backward_to_start("line_starts"),
    "forward_to_paragraph_start": forward_to_start("paragraph_ends"),
    "forward_to_paragraph_end": forward_to_end("paragraph_ends"),
    "backward_to_paragraph_start": backward_to_start("paragraph_starts"),
    "forward_to_page_start": to_document_end,
    "forward_to_page_end": to_document_end,
    "document_end": to_document_end,
    "backward_to_page_start": to_document_start,
    "document_start": to_document_start,
}


# ---- indexes, and the text between two places


def scalars(text):
    """How many scalars a text has."""
    return len(text)


def units(text):
    """How many units of UTF-16 it has."""
    return len(text.encode("utf-16-le")) // 2


def length_before(text, offset, length):
    """How long the characters before an offset are, by one of these two."""
    return sum(length(one) for one in text.characters[:offset])


def indexes(text, position):
    """The position's index in scalars, its index in units, and the number of its line."""
    offset = text.offset(position)
    line = sum(end < position[0] for end in text.line_ends)
    return length_before(text, offset, scalars), length_before(text, offset, units), line


def position_at(text, index, side):
    """Before the character that holds this index in scalars, or the end of the text where the index is; on one side."""
    found = text.end if index == length_before(text, len(text.characters), scalars) else None
    for offset in range(len(text.characters)):
        if length_before(text, offset, scalars) <= index < length_before(text, offset + 1, scalars):
            found = text.sides[offset][-1]
    return text.to_end(found) if found and side == "end" else found


def text_between(text, start, end):
    """The characters from one position on to another one; none where that comes first."""
    return "".join(text.characters[text.offset(start) : text.offset(end)])


# ---- values


def shown_value(world, id, value):
    """An own value as it is shown: a bullet for each character of a password that needs masking, or, where it has no text,
    for each scalar, if two of them differ."""
    if world.nodes[id].role != "PasswordInput":
        return value
    if is_text(world, id):
        return BULLET * len(flat_text(world, id).characters) if needs_masking(world, id) else value
    return value if are_alike(value) else BULLET * len(value)


@once
def value_of(world, id):
    """The own value, or else the text of the runs, unless the role has many lines."""
    own = world.nodes[id].value
    if own is not None:
        return shown_value(world, id, own)
    if is_text(world, id) and world.nodes[id].role != "MultilineTextInput":
        return "".join(flat_text(world, id).characters)
    return None


# ---- labels


@once
def label_filter(world, id):
    """Labels and images are shown, and looked for in containers alone."""
    role = world.nodes[id].role
    return INCLUDED if role in ("Label", "Image") else LEFT_OUT if role == "GenericContainer" else CUT_OFF


def labelled_by(world, id):
    """The nodes that it names, as far as they are there; where it names none and its role is such, the labels in it."""
    node = world.nodes[id]
    if not node.labelled and node.role in LABELLED_FROM_WITHIN:
        return shown(world, label_filter, id)
    return [(id[0], number) for number in node.labelled if (id[0], number) in world.nodes]


def label_part(world, id):
    """What a node gives to another one's label: a label its value, another one its own label."""
    return value_of(world, id) if world.nodes[id].role == "Label" else world.nodes[id].label


@once
def label_of(world, id):
    """Its own label, or else what these nodes give, with a space between each two."""
    if world.nodes[id].label is not None:
        return world.nodes[id].label
    parts = [label_part(world, other) for other in labelled_by(world, id)]
    parts = [part for part in parts if part is not None]
    return " ".join(parts) if parts else None
