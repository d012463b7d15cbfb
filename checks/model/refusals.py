"""The model's words for a refused update, which the programs report on standard error (docs/SCRIPT.md#the-programs)."""

from model.fields import BadLine
from model.scripts import Play

WORDS = {
    "MissingTreeInfo": "the first update has no tree info",
    "NotRootTree": "the first update is not for the root tree",
    "MissingData": "no data for node {0}",
    "NotReached": "node {0} is named and not reached from the root",
    "NamedTwice": "node {0} is named twice",
    "ListedTwice": "node {0} is listed at two places, or is the root and listed",
    "RootTreeGrafted": "node {0} grafts the root tree",
    "GraftWithChildren": "node {0} is a graft and lists children",
    "GraftedTwice": "tree {0} is grafted twice",
    "NoGraft": "no node grafts tree {0}",
    "NoFirstTreeInfo": "tree {0} is not present, and the update has no tree info",
    "FocusMissing": "the focus {0} is not reached",
    "FocusOnEmptyGraft": "the focus is on a graft of tree {0}, which is not present",
}


def words_of(line):
    """The words for each of the rules that a line of `atree` names: `refused NotReached 5 or NotReached 6`."""
    for named in line[len("refused ") :].split(" or "):
        name, _, subject = named.partition(" ")
        yield WORDS[name].format(subject)


def reports(script):
    """What is reported of the refused updates of a script, up to its bad line if it has one, each by the line that ends it and its number
    among the updates. Where one breaks several rules, the report has the words for each of them: `line 9, update 3: WORDS | WORDS`."""
    play, updates, lines = Play(), 0, []
    try:
        for at, line in enumerate(script.split(b"\n"), 1):
            was_open = play.open
            told = play.line(line)
            if was_open and not play.open:
                updates += 1
                lines += [f"line {at}, update {updates}: {' | '.join(words_of(one))}" for one in told if one.startswith("refused ")]
    except BadLine:
        pass
    return "".join(line + "\n" for line in lines).encode()


def parts_at_refusal(script):
    """A script before its first refused update, and up to that update's end; None where none is refused before a bad line."""
    play, lines, head = Play(), script.split(b"\n"), 0
    try:
        for at, line in enumerate(lines):
            was_open = play.open
            told = play.line(line)
            head = at if play.open and not was_open else head
            if was_open and not play.open and any(one.startswith("refused ") for one in told):
                return [b"".join(line + b"\n" for line in lines[:end]) for end in (head, at + 1)]
    except BadLine:
        pass
    return None


def is_reported(told, errors):
    """Whether what is told on standard error was written. Of a refused update one of several words may be."""
    lines, others = told.decode().split("\n"), errors.decode(errors="replace").split("\n")
    return len(lines) == len(others) and all(map(is_one_of, lines, others))


def is_one_of(line, other):
    """Whether a line is this one, or one of those for which it stands."""
    head, mark, words = line.partition(": ")
    return other in [head + mark + one for one in words.split(" | ")]
