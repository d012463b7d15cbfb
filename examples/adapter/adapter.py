"""A small adapter in Python: it feeds a tree with two updates, and prints what the second changed and what the tree then says.

    PYTHONPATH=bindings/python python3 examples/adapter/adapter.py lib/libaccesskit_proved.so
    python3 examples/adapter/adapter.py    # where a release's package is installed, which has the library inside
"""

import sys

from accesskit_proved import BadLine, Id, Refused, Tree

FIRST = """host on
update root focus=2 root=1
node 1 Window label="Mail" children=2,3
node 2 Button label="Send"
node 3 CheckBox label="Receipt"
end
"""
SECOND = 'update root focus=3\nnode 1 Window label="Mail" children=3\nend\n'
BAD = "update root focus=3\nnode 1 Window children=3,4\nend\n"


def print_node(tree: Tree, id: Id) -> None:
    print(f"{id.tree}:{id.node} {tree.role(id)} {tree.label(id) or ''}")


with Tree(*sys.argv[1:]) as tree:
    tree.feed(FIRST)
    try:
        tree.feed(BAD)
    except Refused as refused:
        print(f"refused rule {refused.rule} node {refused.node}")
    try:
        tree.feed("what\n")
    except BadLine as bad:
        print(f"bad line {bad.line}")
    tree.feed(SECOND)
    for event in tree.events():
        print(event.kind, event.old.node if event.old else 0, event.new.node if event.new else 0)
    root, focus = tree.root(), tree.focus()
    if root:
        print_node(tree, root)
        for child in tree.children(root) or ():
            print_node(tree, child)
    if focus:
        print(f"focus {focus.tree}:{focus.node}")
