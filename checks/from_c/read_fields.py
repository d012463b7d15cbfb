"""Reads every field of the nodes of a script: `read_fields.py LIBRARY SCRIPT` prints the line of each node as a script has it, with its
fields in the order of their numbers. read_fields.rs and read_fields.c print the same."""

import sys
from accesskit_proved import FIELDS, Id, Tree

NODES = [Id(node, 0) for node in range(1, 7)] + [Id(1, 1)]


def quoted(text):
    escaped = text.replace("\\", "\\\\").replace('"', '\\"').replace("\n", "\\n")
    return f'"{escaped}"'


def word(name, value):
    """The field as a line has it; none where it isn't set."""
    kind = FIELDS[name]
    if value is None or value is False and kind == "flag" or value == [] and kind != "units":
        return None
    if kind == "flag":
        return name
    if kind == "text":
        return f"{name}={quoted(value)}"
    if kind == "selection":
        return f"{name}={value[0]}:{value[1]},{value[2]}:{value[3]}"
    if kind == "action":
        return f"{name}={','.join(it if isinstance(it, str) else f'Other({it})' for it in value)}"
    if isinstance(value, (list, tuple)):
        return f"{name}={','.join(map(str, value)) or '-'}"
    return f"{name}={str(value).lower() if kind == 'bool' else value}"


def main(library, script):
    with Tree(library) as tree, open(script, encoding="utf-8") as lines:
        tree.feed(lines.read())
        for id in NODES:
            words = [word(name, tree.field(id, name)) for name in FIELDS]
            print(" ".join(["node", str(id.node), tree.role_word(id), *filter(None, words)]))


main(*sys.argv[1:])
