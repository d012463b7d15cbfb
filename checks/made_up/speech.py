"""Random windows whose changes are spoken: controls, fields with and without runs, carets that move, letters that are typed, live regions,
landmarks, lists and items of trees in one another, and a dialog that opens and closes."""

import re

from model.scripts import text_line

WORDS = ["", "a", "ab", "abc", "b", "x y", "\u00e4\u00f6", "no \"end\"", "two"]
CONTROLS = "Button DefaultButton Switch CheckBox RadioButton Slider Tab MenuItemCheckBox Link".split()
FIELDS = "TextInput SearchInput PasswordInput SpinButton EditableComboBox".split()
RUN_TEXTS = [*WORDS, "one two three", "a e\u0301 \U0001f44d"]
LETTERS = ["a", "b", "a", "b", "e\u0301"]
FLAGS = "disabled read_only required hidden busy".split()
PLACES = "Other(371) Other(346) Other(353) Other(321) Other(325) List ListBox TreeItem TreeItem GenericContainer".split()
ITEMS = "Link ListItem ListItem ListBoxOption TreeItem Other(328)".split()
WINDOW, CONTROL, FIELD, TEXT, HINT, REGION, SAID, LIST, DIALOG, BUTTON, SECRET, PLACE = range(12)
RUNS = (30, 31, 32)
OPTIONS = (40, 41, 42)
REGION_RUN, SECRET_RUN = 50, 51
NESTED, LEAVES = (PLACE, 61, 62, 63), (70, 71, 72, 73)


def with_one_in(dice, bound, words):
    """The words, once in so many times."""
    return [words] if dice.one_in(bound) else []


def of_words(dice, name, bound=2):
    """A text for a field, often."""
    return with_one_in(dice, bound, f"{name}={text_line(dice.choice(WORDS))}")


def flags(dice):
    """Some flags, each now and then."""
    return [flag for flag in FLAGS if dice.one_in(9)]


def state(dice):
    """What a control may be set to."""
    toggled = with_one_in(dice, 2, "toggled=" + dice.choice(["true", "false", "mixed"]))
    others = [f"{name}={dice.choice(['true', 'false'])}" for name in ("expanded", "selected") if dice.one_in(4)]
    return [*toggled, *others, *with_one_in(dice, 4, f"number={dice.choice([-70, 0, 5, 1200, 2500])}")]


def live(dice):
    """How a node's changes are told, and whether as a whole."""
    how = with_one_in(dice, 2, "live=" + dice.choice(["off", "polite", "polite", "assertive"]))
    return how + with_one_in(dice, 4, "live_atomic")


def run_line(dice, number, is_last):
    """A run, with a newline at its end where it isn't the last one."""
    return run_of(dice, number, dice.choice(RUN_TEXTS) + ("" if is_last or dice.one_in(3) else "\n"))


def run_of(dice, number, text):
    """A run of this text, often with the starts of its words."""
    characters = re.findall(".[\u0300-\u036f]*", text, re.DOTALL)
    lengths = ",".join(str(len(character.encode())) for character in characters)
    starts = ",".join(str(index) for index in range(len(characters)) if index == 0 or characters[index - 1] == " ")
    words = with_one_in(dice, 2, f"words={starts}") if text else []
    return " ".join([f"node {number} TextRun value={text_line(text)}", *([f"chars={lengths}"] if text else []), *words])


def letters(dice):
    """A few letters, of which many are alike."""
    return [dice.choice(LETTERS) for _ in range(dice.randrange(6))]


def place(dice, runs):
    """A place in these runs."""
    return f"{dice.choice(runs)}:{dice.randrange(6)}"


def selection(dice, runs):
    """A selection in these runs, often."""
    return [] if dice.one_in(4) else [f"selection={place(dice, runs)},{place(dice, runs)}"]


def caret(dice, runs):
    """A caret in these runs, or now and then a selection."""
    focus = place(dice, runs)
    return selection(dice, runs) if dice.one_in(5) else [f"selection={focus},{focus}"]


class Window:
    """What is in the window, by the numbers of its nodes: a line for each."""

    def __init__(self, dice):
        self.dice, self.has_dialog, self.runs, self.text_role = dice, False, RUNS[:1], "TextInput"

    def node(self, number, role, *words):
        """A node's line."""
        return " ".join([f"node {number} {role}", *(word for some in words for word in some)])

    def line_of_text(self, selected):
        """The line of the text, with its runs as they are."""
        given = ["children=" + ",".join(map(str, self.runs))]
        return self.node(TEXT, self.text_role, given, selected, of_words(self.dice, "label"))

    def lines_of_places(self):
        """The lines of nodes in one another, each with an item before what is in it or behind that."""
        dice = self.dice
        for number, leaf, inner in zip(NESTED, LEAVES, (*NESTED[1:], None)):
            inside = [str(one) for one in dice.choice([(leaf, inner), (inner, leaf)]) if one]
            labels = of_words(dice, "label"), with_one_in(dice, 5, f"labelled={dice.choice([CONTROL, FIELD])}")
            yield self.node(number, dice.choice(PLACES), ["children=" + ",".join(inside)], *labels, self.rank(), flags(dice))
            yield self.node(leaf, dice.choice(ITEMS), of_words(dice, "label"), self.rank(), flags(dice))

    def rank(self):
        """The level, and the size of the set, each now and then."""
        dice = self.dice
        return with_one_in(dice, 6, f"level={dice.randrange(4)}") + with_one_in(dice, 6, f"set_size={dice.randrange(3)}")

    def lines_of(self, number):
        """The lines of a node, made up anew, with those of what stands in it."""
        dice = self.dice
        if number == WINDOW:
            self.has_dialog = dice.one_in(2)
            shown = [CONTROL, FIELD, TEXT, HINT, REGION, LIST, PLACE, *([DIALOG] if self.has_dialog else [])]
            dialog = self.lines_of(DIALOG) if self.has_dialog else []
            return [self.node(WINDOW, "Window", ["children=" + ",".join(map(str, shown))]), *dialog]
        if number == PLACE:
            return [*self.lines_of_places()]
        if number == TEXT:
            self.runs = RUNS[: dice.randrange(1, 4)]
            self.text_role = dice.choice(["MultilineTextInput", "TextInput"])
            return [self.line_of_text(selection(dice, self.runs)), *(run_line(dice, run, run == self.runs[-1]) for run in self.runs)]
        if number == REGION:
            region = self.node(REGION, "GenericContainer", [f"children={SAID}"], live(dice), flags(dice))
            return [region, *self.lines_of(SAID)]
        if number == SAID:
            said = self.node(SAID, "Label", [f"children={REGION_RUN}"], of_words(dice, "value", 3), live(dice), flags(dice))
            return [said, run_line(dice, REGION_RUN, True)]
        if number == LIST:
            options = [self.node(option, "ListBoxOption", of_words(dice, "label"), state(dice), flags(dice)) for option in OPTIONS]
            return [self.node(LIST, "ListBox", ["children=" + ",".join(map(str, OPTIONS))], live(dice)), *options]
        if number == DIALOG:
            role = dice.choice(["Dialog", "AlertDialog"])
            dialog = self.node(DIALOG, role, [f"children={BUTTON},{SECRET}"], of_words(dice, "label"), with_one_in(dice, 2, "modal"))
            return [dialog, *self.lines_of(BUTTON), *self.lines_of(SECRET)]
        if number == SECRET:
            secret = self.node(SECRET, "PasswordInput", [f"children={SECRET_RUN}"], selection(dice, [SECRET_RUN]), of_words(dice, "placeholder"))
            return [secret, run_line(dice, SECRET_RUN, True)]
        if number == FIELD:
            number_of_field = with_one_in(dice, 5, "number=1500")
            words = of_words(dice, "value"), of_words(dice, "placeholder"), number_of_field, live(dice), flags(dice)
            return [self.node(FIELD, dice.choice(FIELDS), of_words(dice, "label"), *words)]
        if number == HINT:
            return [self.node(HINT, "Label", of_words(dice, "value"), of_words(dice, "label", 3), live(dice), flags(dice))]
        return [self.node(number, dice.choice(CONTROLS), of_words(dice, "label"), of_words(dice, "value", 3), state(dice), flags(dice))]

    def any_focus(self):
        """A node that may have the focus."""
        shown = [WINDOW, CONTROL, FIELD, FIELD, TEXT, TEXT, LIST, *OPTIONS, *NESTED, *LEAVES]
        return self.dice.choice(shown + [DIALOG, BUTTON, SECRET, SECRET] * self.has_dialog)


def move_caret(maker, window):
    """The caret of the text moves, some times, and nothing else changes."""
    for _ in range(maker.dice.randrange(1, 4)):
        send(maker, [window.line_of_text(caret(maker.dice, window.runs))], TEXT)


def type_letters(maker, window):
    """In a text of few letters some are typed at once, now and then in place of those before them; the caret is behind what is typed."""
    dice, window.runs = maker.dice, RUNS[:1]
    before, after = letters(dice), letters(dice)
    for _ in range(dice.randrange(2, 6)):
        caret_there = f"selection={RUNS[0]}:{len(before)},{RUNS[0]}:{len(before)}"
        send(maker, [window.line_of_text([caret_there]), run_of(dice, RUNS[0], "".join(before + after))], TEXT)
        kept = dice.randrange(len(before) + 1) if dice.one_in(3) else len(before)
        before = before[:kept] + letters(dice)


def send(maker, lines, focus, head=""):
    """Adds an update's lines."""
    for line in (f"update root focus={focus}{head}", *lines, "end"):
        maker.say(line)


def make_speech(maker):
    """A window, whose nodes change while the focus goes through it."""
    dice, window = maker.dice, Window(maker.dice)
    if not dice.one_in(4):
        maker.say("host on")
    lines = [line for number in (WINDOW, CONTROL, FIELD, TEXT, HINT, REGION, LIST, PLACE) for line in window.lines_of(number)]
    focus = window.any_focus()
    send(maker, lines, focus, " root=0")
    for _ in range(dice.randrange(4, 16)):
        if dice.one_in(9):
            maker.set_host()
        some = [number for number in (CONTROL, FIELD, FIELD, TEXT, TEXT, HINT, REGION, LIST, PLACE) if dice.one_in(4)]
        some += [WINDOW] if dice.one_in(4) else [SECRET] if window.has_dialog and dice.one_in(2) else []
        lines = [line for number in dict.fromkeys(some) for line in window.lines_of(number)]
        if dice.one_in(2) or focus in (DIALOG, BUTTON, SECRET):
            focus = window.any_focus()
        send(maker, lines, focus)
        if focus == TEXT and dice.one_in(2):
            type_letters(maker, window)
        elif focus == TEXT:
            move_caret(maker, window)
