"""Scripts for `atree`, `speak` and `find`, and their expected output; and scripts of deep trees for `page`."""


def flat(count):
    """One update sends a flat tree, a root with so many buttons, each with a label."""
    yield "update root focus=0 root=0\n"
    yield f"node 0 Window children={','.join(map(str, range(1, count + 1)))}\n"
    for id in range(1, count + 1):
        yield f'node {id} Button label="button {id}"\n'
    yield "end\n"


def flat_printed(_count):
    """Of the first update nothing is told."""
    yield "ok\n"


def chain(count):
    """One update sends a chain of so many nodes, each the only child of the one before, and another drops all but the root."""
    yield "update root focus=0 root=0\nnode 0 Window children=1\n"
    for id in range(1, count - 1):
        yield f"node {id} GenericContainer children={id + 1}\n"
    yield f'node {count - 1} Button label="the last"\nend\n'
    yield "update root focus=0\nnode 0 Window\nend\n"


def chain_printed(count):
    """The root is updated, and each other node removed, in the order of their ids."""
    yield "ok\nupdated 0:0\n"
    for id in range(1, count):
        yield f"removed 0:{id}\n"
    yield "ok\n"


def relabelled(count):
    """A chain in a live region, all of whose labels change in one update."""
    for step, update in enumerate(("update root focus=0 root=0\n", "update root focus=0\n")):
        yield update
        for id in range(count):
            below = f" children={id + 1}" if id + 1 < count else ""
            yield f'node {id} {"ListItem" if id else "Window"} label="{step} {id}"{below}{"" if id else " live=polite"}\n'
        yield "end\n"


def labelled_below(count):
    """A chain of buttons that the deepest node labels, and another label."""
    yield "update root focus=0 root=0\n"
    for id in range(count - 1):
        yield f'node {id} {"Button" if id else "Window"} children={id + 1} labelled={count - 1}\n'
    yield f'node {count - 1} Label value="one"\nend\nupdate root focus=0\nnode {count - 1} Label value="two"\nend\n'


def documents(count, last="TextRun", between="Document", beside="", upward=False):
    """A chain of documents, each the only child of the one before, down to a node of another role, and another text of that. Every
    second node of the chain may have another role, and a password may be beside the first."""
    ids = range(count - 1, 0, -1) if upward else range(1, count)
    yield f"update root focus=0 root=0\nnode 0 Window children={ids[0]}{f',{count}' if beside else ''}\n"
    for place, id in enumerate(ids[:-1]):
        yield f'node {id} {between if place % 2 else "Document"} children={ids[place + 1]}\n'
    yield f'node {count} {beside} value="a"\n' if beside else ""
    for text in "ab":
        yield "update root focus=0\n" if text == "b" else ""
        yield f'node {ids[-1]} {last} value="{text}"{" chars=1" if last == "TextRun" else ""}\nend\n'


def toolbars(count, beside=""):
    """A chain of toolbars, each labelled by the deepest node, a button. A password may be beside the first."""
    yield f"update root focus=0 root=0\nnode 0 Window label=\"App\" children=1{f',{count + 1}' if beside else ''}\n"
    yield from (f"node {id} Toolbar labelled={count} children={id + 1}\n" for id in range(1, count))
    yield f'node {count} Button label="Deep"\n'
    yield f'node {count + 1} {beside} value="a"\n' if beside else ""
    yield "end\n"


def deepest_found(count):
    """The button, by a path that has each toolbar."""
    yield f'0:{count}\n  value none\n  path Window "App" > '
    yield from ('Toolbar "Deep" > ' for _ in range(1, count))
    yield 'Button "Deep"\n  bounds none\n'


def no_toolbar_found(count):
    """No toolbar with another label, and all toolbars, since they have the role."""
    yield "none\n"
    yield from (f'  role 0:{id} Toolbar "Deep"\n' for id in range(1, count))


# Scripts of which `deep_pages.py` makes pages.
DEEP = {
    "relabelled": relabelled,
    "labelled_below": labelled_below,
    "documents": documents,
    "documents_upward": lambda count: documents(count, upward=True),
    "documents_without_runs": lambda count: documents(count, last="Button"),
    "documents_and_containers": lambda count: documents(count, between="GenericContainer"),
    "documents_beside_a_password": lambda count: documents(count, beside="PasswordInput"),
    "documents_around_a_password": lambda count: documents(count, last="PasswordInput"),
}


def chain_lines(ids, word, live):
    """The nodes of a chain, each the only child of the one before, with labels. `live` says how many of them are live regions."""
    for place, id in enumerate(ids):
        children = f" children={ids[place + 1]}" if place + 1 < len(ids) else ""
        region = " live=polite" if place < live else ""
        yield f'node {id} GenericContainer{children} label="{word} {place}"{region}\n'


def sent_chain(ids, live=1):
    """One update sends a chain of these nodes below the root, in a live region. Of it the focus is said, and nothing else."""
    yield f'host on\nupdate root focus=0 root=0\nnode 0 Window label="chain" children={ids[0]}\n'
    yield from chain_lines(ids, "old", live)
    yield "end\n"


def relabelled_chain(ids, live=1):
    """The same, and another update gives each node of the chain another label."""
    yield from sent_chain(ids, live)
    yield "update root focus=0\n"
    yield from chain_lines(ids, "new", live)
    yield "end\n"


def said_of_sent(_ids):
    """The focus, when the host gets it."""
    yield 'focus: window "chain"\n'


def said_of_relabelled(ids):
    """That, and a line of all labels, since the chain is one live region."""
    yield from said_of_sent(ids)
    yield f"live (polite): \"{' '.join(f'new {place}' for place in range(len(ids)))}\"\n"


def said_of_regions(ids):
    """That, and a line for each node, since each is a live region."""
    yield from said_of_sent(ids)
    yield from (f'live (polite): "new {place}"\n' for place in range(len(ids)))


# How often the focus moves below a chain.
FOCUS_MOVES = 20


def deep_buttons(count, moves):
    """One update sends a chain of so many groups, with two buttons in the last one, and then the focus moves to one of them and to the
    other, in turn."""
    yield 'host on\nupdate root focus=0 root=0\nnode 0 Window label="groups" children=1\n'
    for id in range(1, count + 1):
        children = id + 1 if id < count else f"{count + 1},{count + 2}"
        yield f'node {id} Other(325) children={children} label="group {id}"\n'
    yield f'node {count + 1} Button label="one"\nnode {count + 2} Button label="other"\nend\n'
    yield from (f"update root focus={count + 1 + move % 2}\nend\n" for move in range(moves))


def said_of_buttons(count, moves):
    """The focus, and at the first move the group around the buttons too."""
    yield 'focus: window "groups"\n'
    for move in range(moves):
        yield f'group: "group {count}"\n' if move == 0 else ""
        yield f'focus: button "{["one", "other"][move % 2]}"\n'


def downward(count):
    """Ids of so many nodes, which rise from the root on."""
    return range(1, count + 1)


def upward(count):
    """Ids of so many nodes, which rise from the deepest node on."""
    return range(count, 0, -1)


SCRIPTS = {
    "flat": (flat, flat_printed),
    "chain": (chain, chain_printed),
    "sent": (lambda count: sent_chain(downward(count)), said_of_sent),
    "relabelled": (lambda count: relabelled_chain(downward(count)), lambda count: said_of_relabelled(downward(count))),
    "sent-upward": (lambda count: sent_chain(upward(count)), said_of_sent),
    "relabelled-upward": (lambda count: relabelled_chain(upward(count)), lambda count: said_of_relabelled(upward(count))),
    "sent-regions": (lambda count: sent_chain(downward(count), count), said_of_sent),
    "relabelled-regions": (lambda count: relabelled_chain(downward(count), count), lambda count: said_of_regions(downward(count))),
    "groups": (lambda count: deep_buttons(count, 0), lambda count: said_of_buttons(count, 0)),
    "focus-in-groups": (lambda count: deep_buttons(count, FOCUS_MOVES), lambda count: said_of_buttons(count, FOCUS_MOVES)),
    "toolbars": (toolbars, deepest_found),
    "toolbars-beside-a-password": (lambda count: toolbars(count, beside="PasswordInput"), deepest_found),
    "toolbars-with-another-label": (toolbars, no_toolbar_found),
}


def script_of(words):
    """The script that words such as `flat 1000` name, and what is printed of it."""
    name, count = words.split()
    return tuple("".join(part(int(count))) for part in SCRIPTS[name])
