"""The rows of fields.table, and what the writers of files share."""

import re
import sys
from dataclasses import dataclass
from functools import cache
from pathlib import Path

TOP = Path(__file__).resolve().parent.parent.parent
TABLE = TOP / "fields.table"
# What says in the table that what it is about in a script is another docstring.
IN_A_SCRIPT = "in a script: "
# How long a chain of calls may be before the formatter breaks it.
CHAIN = 60


@dataclass
class Field:
    """A row."""

    name: str
    # Of its value in the crate: `flag` and `text` are kept in ways of their own, and `-` says that it is by hand.
    type: str
    group: str
    mark: int
    build: int
    script: str
    kind: str
    which: str
    place: int
    number: int
    section: str
    said: str = ""
    said_in_a_script: str = ""

    @property
    def variant(self):
        """The name of its mark, and of its key among the rare texts."""
        return camel(self.name)

    @property
    def getter(self):
        return self.name if self.name == "clips_children" or self.type not in ("flag", "bool") else f"is_{self.name}"

    @property
    def is_plain(self):
        """Whether it is kept among the plain fields, and a mark says whether it is set."""
        return self.type not in ("-", "flag", "text")


def camel(name):
    return name.title().replace("_", "")


def number_of(word):
    return None if word == "-" else int(word)


def row(line):
    """The field of a row's first line."""
    name, type_, group, mark, build, script, kind, place, number, section = line.split(None, 9)
    kind, _, which = kind.partition(".")
    script = name if script == "=" else script
    return Field(name, type_, group, number_of(mark), number_of(build), script, kind, which or camel(name), int(place), int(number), section)


@cache
def fields():
    """The fields in the order of the rows."""
    found = []
    for line in TABLE.read_text(encoding="utf-8").splitlines():
        said = line.strip()
        if not said or line.startswith("#"):
            continue
        if not line.startswith(" "):
            found.append(row(line))
        elif said.startswith(IN_A_SCRIPT):
            found[-1].said_in_a_script = said[len(IN_A_SCRIPT) :]
        else:
            found[-1].said = said
    for what in ("place", "number", "mark", "build"):
        numbers = sorted(number for number in (getattr(field, what) for field in found) if number is not None)
        if what != "build" and numbers != list(range(len(numbers))):
            sys.exit(f"{TABLE.name}: each {what} has to be there once, from 0 on")
    return found


def by(what):
    """The fields that have a number of a kind, in the order of these."""
    return sorted((field for field in fields() if getattr(field, what) is not None), key=lambda field: getattr(field, what))


def in_group(*groups):
    return [field for field in fields() if field.group in groups]


def replaced(text, begin, end, between):
    """The text with this between what begins a part of it and what ends that."""
    head, found, rest = text.partition(begin)
    _, ended, tail = rest.partition(end)
    if not found or not ended:
        sys.exit(f"there is nothing between {begin!r} and {end!r}")
    return head + begin + between + end + tail


def chain(indent, first, *calls):
    """A chain of calls as the formatter lays it out."""
    one = first + "".join(calls)
    if len(one) <= CHAIN:
        return f"{' ' * indent}{one}\n"
    return f"{' ' * indent}{first}\n" + "".join(f"{' ' * (indent + 4)}{call}\n" for call in calls)


def columns(words, indent, width):
    """Words in lines of at most so many columns."""
    lines, line = [], ""
    for word in words:
        if line and indent + len(line) + 1 + len(word) > width:
            lines.append(line)
            line = ""
        line = f"{line} {word}" if line else word
    return "".join(f"{' ' * indent}{line}\n" for line in [*lines, line])


def snake(variant):
    return re.sub(r"(?<!^)(?=[A-Z])", "_", variant).lower()
