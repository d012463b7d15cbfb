"""Sends updates that are built call by call, beside the same ones by lines: `updates.py LIBRARY SCRIPT` prints updates.told. It needs the
script that `updates.py --script` prints: updates.script, in which node 2 has each other field too.

Where both say the same, the second of them changes nothing. It has one event: an update of another tree than the root tree reports the
root that it names. A field that a line lacks is noticed by another event, or by a refusal, so each field was compared.
"""

import re
import sys
from pathlib import Path
from uuid import UUID
from accesskit_proved import FIELDS, Event, Id, Refused, Tree

INSIDE = UUID(int=7)
UNCHANGED = [Event("updated", Id(1, 1), Id(1, 1))]
# What updates.script has of node 2.
GIVEN = dict(children=[3, 6], labelled=[1], controls=[4, 5], active=5, label='To: "all"\n', bounds=(-1, 2, 2**31 - 1, -(2**31)), move=(3, -4))
GIVEN |= dict(selection=(3, 1, 6, 2), toggled="mixed", live="assertive", orientation="vertical", sort_direction="other", aria_current="time")
GIVEN |= dict(has_popup="dialog", font_size=2**32 - 1, font_weight=65535, overline=("solid", 0, 0, 0, 255), strikethrough=("double", 9, 8, 7, 6))
GIVEN |= dict(text_direction="bottom_to_top", text_align="justify", vertical_offset="superscript", number=-(2**63), max=2**63 - 1, level=2**64 - 1)
GIVEN |= dict(actions=["Click", "Decrement", 255], child_actions=["Focus", 0])
# What it has of each other field of these kinds: a value made of the field's number, so that no two are alike. updates.rs makes the same.
MADE = {
    "text": lambda number: f"text {number}",
    "flag": lambda number: True,
    "number": lambda number: -number,
    "count": lambda number: number,
    "bool": lambda number: number % 2 == 0,
    "color": lambda number: (number, 1, 2, 255),
    "decoration": lambda number: ("wavy", number, 1, 2, 255),
}
OTHERS = {name: MADE[kind](number) for number, (name, kind) in enumerate(FIELDS.items()) if kind in MADE and name not in GIVEN}


def word(name, value):
    """One of the other fields, in a line."""
    if FIELDS[name] == "flag":
        return name
    if FIELDS[name] == "text":
        return f'{name}="{value}"'
    return f"{name}={','.join(map(str, value)) if isinstance(value, tuple) else str(value).lower()}"


def completed(script):
    """updates.script with the other fields of node 2."""
    return re.sub(r"(?<=^node 2 TextInput) ", f" {' '.join(word(*it) for it in OTHERS.items())} ", script, flags=re.M)


def build(tree):
    """The updates of the script by calls; the events of both."""
    update = tree.update(2, root=1, toolkit="Kit", version="1.2")
    update.node(1, "Window", label="Mail", children=[2, 4, 5])
    update.node(2, "TextInput", **GIVEN, **OTHERS)
    update.node(3, "TextRun", value="aéb", chars=[1, 2, 1], words=[0, 65535], character_positions=[-5, 0, 2**31 - 1], character_widths=[], next=6)
    update.node(6, "TextRun", value="cd", chars=[1, 1], words=[0], prev=3)
    update.node(4, 328, tree=INSIDE)
    update.node(5, "Button", label="")
    update.send()
    events = tree.events()
    tree.update(1, root=1, tree=INSIDE).node(1, "Document", label="Inside").send()
    return events + tree.events()


def feed(tree, lines):
    tree.feed(lines)
    return tree.events()


def without_a_field(lines):
    """Each way to leave out one field of a node, by its name."""
    for field in re.finditer(r' (\w+)(=("(\\.|[^"])*"|[^ \n]+))?(?=[ \n])', lines):
        if not lines[: field.start()].rpartition("\n")[2].startswith("node ") or field[1] not in FIELDS:
            continue
        yield field[1], lines[: field.start()] + lines[field.end() :]


def noticed(library, script):
    """The fields of which a lack in the lines is noticed, by a tree that was built by calls."""
    names = set()
    for name, lines in without_a_field(script):
        with Tree(library) as tree:
            build(tree)
            try:
                if feed(tree, lines) != UNCHANGED:
                    names.add(name)
            except Refused:
                names.add(name)
    return names


def named(id):
    return "none" if id is None else f"{id.tree}:{id.node}"


def told(events):
    words = [f"focus {named(it.old)} {named(it.new)}" if it.kind == "focus" else f"{it.kind} {named(it.new or it.old)}" for it in events]
    return ", ".join(words)


def refused(call):
    try:
        call()
    except Refused as why:
        return f"{type(why).__name__}, node {why.node}"
    return "done"


def main(library, path):
    with open(path, encoding="utf-8") as file:
        script = file.read()
    with Tree(library) as built, Tree(library) as fed:
        build(built)
        print("built, then fed:", told(feed(built, script)))
        feed(fed, script)
        print("fed, then built:", told(build(fed)))
        print("fields whose lack is not noticed:", ", ".join(FIELDS.keys() - noticed(library, script)) or "none")
        print(f"root and focus: {named(built.root())}, {named(built.focus())}")
        built.update(2).node(5, "Button", label="More").send()
        print("relabelled by calls:", told(built.events()))
        print("relabelled by lines:", told(feed(fed, 'update root focus=2\nnode 5 Button label="More"\nend\n')))
        print("refused:", refused(built.update(9).send))
        built.update(2).node(5, "Button", label="Fro").node(5, "Button")
        built.update(2).node(5, "Button", label="To").send()
        print("label:", built.label(Id(0, 5)))
        built.set_host_focus(True)
        print("host has the focus:", told(built.events()))


if __name__ == "__main__":
    if sys.argv[1] == "--script":
        print(completed(Path(__file__).with_suffix(".script").read_text(encoding="utf-8")), end="")
    else:
        main(*sys.argv[1:])
