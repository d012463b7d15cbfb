"""Texts as the runs of a script: a run for each line as it was typed, with its characters and words."""

import unicodedata
from functools import lru_cache
from typing import NamedTuple

from recording.script import Node

# Scalar values of a run: a longer line is cut into several, which are linked. And those of a text: what is beyond is left out.
LONGEST_RUN, LONGEST_TEXT = 10_000, 200_000


def characters(text):
    """The characters as a person counts them, nearly: combining marks, joiners and skin tones belong to what is before them, and so does
    the newline after a carriage return."""
    found = []
    for scalar in text:
        is_part = unicodedata.combining(scalar) or scalar in "\u200d\ufe0f\ufe0e" or 0x1F3FB <= ord(scalar) <= 0x1F3FF
        if found and (is_part or found[-1][-1] == "\u200d" or found[-1] + scalar == "\r\n"):
            found[-1] += scalar
        else:
            found.append(scalar)
    return found


def word_starts(parts):
    """Where words begin among these characters: letters and digits, or one other character that isn't a space."""
    found, is_inside = [], False
    for at, part in enumerate(parts):
        is_letter = part[0].isalnum() or part[0] == "_"
        if not part.isspace() and not (is_inside and is_letter):
            found.append(at)
        is_inside = is_letter
    return found


class Piece(NamedTuple):
    """A part of a text: where it begins, its characters, and whether it goes on with the line of the one before."""

    start: int
    text: str
    parts: list
    goes_on: bool

    def index(self, at):
        """How many characters are before this place in the text."""
        return len(characters(self.text[: at - self.start]))


@lru_cache(maxsize=500)
def pieces(text, breaks=()):
    """The lines of a text, each with its newline, and the long ones in pieces; the last one is empty after a newline. A line also ends
    before each place of `breaks`, where it was wrapped."""
    found, start, text = [], 0, text[:LONGEST_TEXT]
    ends = sorted({at for at in breaks if 0 < at < len(text)} | {at + 1 for at, one in enumerate(text) if one == "\n"})
    for line in [text[one:other] for one, other in zip([0, *ends], [*ends, len(text)])]:
        parts, goes_on = characters(line), False
        while parts or not goes_on:
            some, parts = parts[:LONGEST_RUN], parts[LONGEST_RUN:]
            piece = "".join(some)
            found.append(Piece(start, piece, some, goes_on))
            start, goes_on = start + len(piece), True
    return tuple(found)


def run_ids(id, count):
    """The ids of the runs of a node's text."""
    return [10**13 * (place + 1) + id for place in range(count)]


def run_node(piece):
    """The node of a run, without its place."""
    lengths = [len(part.encode("utf-8", "replace")) for part in piece.parts]
    return Node("TextRun", {"value": piece.text, "chars": lengths, "words": word_starts(piece.parts)}, [])


def text_nodes(id, text, breaks=()):
    """The runs of a node's text, by id, in order."""
    found = pieces(text, breaks)
    ids = run_ids(id, len(found))
    nodes = {run: run_node(piece) for run, piece in zip(ids, found)}
    for at, piece in enumerate(found):
        if piece.goes_on:
            nodes[ids[at]].fields["prev"] = ids[at - 1]
            nodes[ids[at - 1]].fields["next"] = ids[at]
    return nodes


def place_in(id, text, at, breaks=()):
    """A place in a node's text, as a run and a character; `None` beyond it."""
    found = pieces(text, breaks)
    ids = run_ids(id, len(found))
    for count, (run, piece) in enumerate(zip(ids, found), 1):
        end = piece.start + len(piece.text)
        if piece.start <= at < end or at == end and count == len(found):
            return run, piece.index(at)
    return None


def selection_in(id, text, start, end, breaks=()):
    """A selection in a node's text from one place to the other, which moves; `None` beyond it."""
    places = place_in(id, text, start, breaks), place_in(id, text, end, breaks)
    return places if all(places) else None


def from_utf16(text, at):
    """The place in a text that has so many UTF-16 code units before it."""
    return len(text.encode("utf-16-le", "surrogatepass")[: 2 * at].decode("utf-16-le", "ignore"))


def to_utf16(text, at):
    """How many UTF-16 code units are before a place in a text."""
    return len(text[:at].encode("utf-16-le", "surrogatepass")) // 2
