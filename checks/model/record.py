"""The model's output of the program `record`: each command of a script again, with the fields of a line in a fixed order; and with
`--tree` the tree that they leave."""

from model.fields import FIELDS, ROOT, BadLine, number, tree_name
from model.scripts import QUESTIONS, UPDATE_FIELDS, Play, Words, field_word, read_node
from model.worlds import graft_name, index_of, listed

NAMED_ACTIONS = ["Click", "Focus", "Increment", "Decrement"]

# The questions that name a filter, which is `common` where none is given.
BY_FILTER = "filtered following_filtered preceding_filtered set hit".split()


def tree_word(name):
    """A tree's name."""
    return "root" if name == ROOT else name


def action_place(action):
    """Where an action stands among the others."""
    return NAMED_ACTIONS.index(action) if action in NAMED_ACTIONS else len(NAMED_ACTIONS) + int(action[6:-1])


def given(name, value):
    """What is given of a field: of a tree its name, and actions in their order."""
    if isinstance(value, frozenset):
        return sorted(value, key=action_place)
    return tree_word(value) if name == "tree" else value


def line_of_node(id, node):
    """The words of a node's line."""
    fields = [(name, given(name, getattr(node, name))) for name in FIELDS]
    return ["node", str(id), node.role, *(word for name, value in fields for word in field_word(name, value))]


def node_line(words):
    """A node's line."""
    return line_of_node(*read_node(words))


def line_of_update(tree, fields):
    """The words of the line that begins an update."""
    return ["update", tree_word(tree), *(word for name in UPDATE_FIELDS for word in field_word(name, fields.get(name)))]


def update_line(words):
    """The line that begins an update."""
    return line_of_update(tree_name(words.word()), words.fields(UPDATE_FIELDS))


def question_line(word, words):
    """A question about a node."""
    asked = [str(number(words.word())), tree_word(tree_name(words.word()))]
    while words.rest is not None:
        one = words.word()
        asked.append(str(int(one)) if one.lstrip("-").isdigit() else one)
    is_short = len(asked) == len(QUESTIONS[word][0]) + 1 and word in BY_FILTER
    return [word, *asked, *["common"] * is_short]


def record(script):
    """The lines of a script up to its bad line, if it has one, as far as they make whole commands."""
    play, written, open_lines = Play(), [], []
    for line in script.split(b"\n"):
        try:
            play.line(line)
        except BadLine:
            break
        text = line.decode().rstrip("\r")
        if not text or text.startswith("#"):
            continue
        words = Words(text)
        word = words.word()
        line = {"node": node_line, "update": update_line}.get(word, lambda words: None)(words)
        if line is None:
            line = question_line(word, words) if word in QUESTIONS else text.split(" ")
        open_lines.append(" ".join(line))
        if not play.open:
            written += open_lines
            open_lines = []
    return "".join(line + "\n" for line in written).encode()


# ---- the tree that a script leaves


def played(script):
    """The world that a script leaves, and the toolkit that the root tree then has, as fields of an update."""
    play, head, toolkit = Play(), None, {}
    for line in script.split(b"\n"):
        told = play.line(line)
        if line.startswith(b"update "):
            words = Words(line.decode().rstrip("\r")[len("update ") :])
            head = tree_name(words.word()), words.fields(UPDATE_FIELDS)
        if line.rstrip(b"\r") == b"end" and told[-1] == "ok" and head[0] == ROOT and "root" in head[1]:
            toolkit = {name: head[1].get(name) for name in ("toolkit", "version")}
    return play.world, toolkit


def within(world, id):
    """A node and those below it in its tree, each before those below it."""
    return [id, *(below for child in listed(world, id) for below in within(world, child))]


def snapshot(script):
    """The script of the tree that a script leaves, or nothing if there is none: an update for each of its trees, after those that graft it.
    A tree whose focus is on a graft gets it last, and if that graft is its root, it has another root before."""
    world, toolkit = played(script)
    lines, late = [["host", "on"]] * (world.is_host_focused and bool(world.known)), []
    waiting = [0] if world.known else []
    for index in waiting:
        tree, name = world.trees[index], world.known[index]
        nodes = within(world, (index, tree.root))
        grafts = [id for id in nodes if graft_name(world, id)]
        head = {"focus": tree.focus, "root": tree.root, **(toolkit if name == ROOT else {})}
        nodes_lines = [line_of_node(id[1], world.nodes[id]) for id in nodes]
        if (index, tree.focus) in grafts and nodes == grafts:
            late.append([line_of_update(name, head), ["end"]])
            root = 1 if tree.root == 0 else 0
            nodes_lines.insert(0, ["node", str(root), "Unknown", f"children={tree.root}"])
            head = {"focus": root, "root": root}
        elif (index, tree.focus) in grafts:
            late.append([line_of_update(name, {"focus": tree.focus}), ["end"]])
            head["focus"] = tree.root
        lines += [line_of_update(name, head), *nodes_lines, ["end"]]
        inner = [index_of(world, graft_name(world, id)) for id in grafts]
        waiting += [one for one in inner if one in world.trees]
    lines += [line for update in reversed(late) for line in update]
    return "".join(" ".join(line) + "\n" for line in lines).encode()


def state_of(world):
    """All that a world shows, by the names of its trees."""
    names = world.known
    trees = {names[index]: tree for index, tree in world.trees.items()}
    return world.is_host_focused, trees, {(names[id[0]], id[1]): node for id, node in world.nodes.items()}


if __name__ == "__main__":
    import sys

    sys.stdout.buffer.write(record(sys.stdin.buffer.read()))
