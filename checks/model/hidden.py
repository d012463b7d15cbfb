"""Which texts, values and labels may show what is typed into a password, and what may be shown of the others."""

from model.texts import BULLET, HOLDS_TEXT, Text, flat_text, is_text, label_of, labelled_by, runs_of, value_of
from model.views import ancestors, preorder


def is_password(world, id):
    """Whether it is a password input."""
    return world.nodes[id].role == "PasswordInput"


def is_in_password(world, id):
    """Whether an ancestor is one."""
    return any(is_password(world, up) for up in ancestors(world, id))


def holds_password(world, id):
    """Whether it has runs that may make a text, and those of a password may be among them."""
    has_runs = world.nodes[id].role in HOLDS_TEXT and runs_of(world, id)
    return bool(has_runs) and any(is_password(world, below) for below in preorder(world, id)[1:])


def hides_text(world, id):
    """Whether the text of its runs may show what is typed."""
    return is_in_password(world, id) or holds_password(world, id)


def hides_value(world, id):
    """Whether its value may: it may be made of the runs where there is no own value, or where it is a password itself."""
    is_of_runs = world.nodes[id].value is None or is_password(world, id)
    return is_in_password(world, id) or (is_of_runs and holds_password(world, id))


def hides_part(world, id):
    """Whether what it gives to another node's label may: its value if it is a label, and otherwise its own label."""
    return hides_value(world, id) if world.nodes[id].role == "Label" else is_in_password(world, id)


def hides_label(world, id):
    """Whether its label may."""
    is_from_others = world.nodes[id].label is None
    return is_in_password(world, id) or (is_from_others and any(hides_part(world, other) for other in labelled_by(world, id)))


def text_of_bullets(world, id):
    """The text of a node; of a password each character is a bullet, also if all are the same."""
    text = flat_text(world, id)
    if not is_password(world, id):
        return text
    return Text([run._replace(characters=[BULLET] * len(run.characters)) for run in text.runs])


def shown_value(world, id):
    """The value that may be shown, of a password a bullet for each character, or for each scalar where it has no text."""
    if hides_value(world, id):
        return None
    if not is_password(world, id):
        return value_of(world, id)
    if is_text(world, id):
        return BULLET * len(flat_text(world, id).characters)
    own = world.nodes[id].value
    return None if own is None else BULLET * len(own)


def shown_label(world, id):
    """The label that may be shown."""
    return None if hides_label(world, id) else label_of(world, id)
