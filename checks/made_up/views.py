"""Random interfaces: several trees of nodes that are hidden, clip, have rectangles and are translated."""

from made_up.trees import any_update, send_grove

ROLES = (
    "GenericContainer GenericContainer GenericContainer TextRun Button Button Label Image Link ListItem ListItem ListItem"
    " ListBoxOption ListBoxOption ListBox Window ScrollView CheckBox MenuItem RadioButton Unknown Other(7)"
).split()

WORDS = ["a", "b c", 'd "', "\\", "", "\n\u00e4"]


def edge(dice):
    """A small number of units on either side of 0, and seldom a great one."""
    return dice.choice([-(2**31), 2**31 - 1]) if dice.one_in(80) else dice.randint(-12, 27)


def rectangle(dice):
    """A rectangle, most often not reversed."""
    x0, x1 = edge(dice), edge(dice)
    y0, y1 = edge(dice), edge(dice)
    if dice.one_in(6):
        return x0, y0, x1, y1
    return min(x0, x1), min(y0, y1), max(x0, x1), max(y0, y1)


def looks(maker):
    """Fields of how a node looks, and what it is called."""
    dice = maker.dice
    return {
        "role": dice.choice(ROLES),
        "hidden": dice.one_in(14),
        "clips": dice.one_in(4),
        "bounds": None if dice.one_in(4) else rectangle(dice),
        "move": (edge(dice), edge(dice)) if dice.one_in(3) else None,
        "active": maker.number() if dice.one_in(6) else None,
        "label": dice.choice(WORDS) if dice.one_in(4) else None,
        "value": dice.choice(WORDS) if dice.one_in(4) else None,
        "labelled": tuple(maker.number() for _ in range(dice.randint(1, 3))) if dice.one_in(5) else (),
    }


def make_interfaces(maker):
    """Makes up an interface, asks of it, changes some of its nodes, and asks again."""
    maker.set_host()
    send_grove(maker, lambda node: node._replace(**looks(maker)))
    maker.ask_any(20)
    for _ in range(3):
        maker.send(any_update(maker, lambda node: node._replace(**looks(maker)) if maker.dice.one_in(2) else node))
        maker.set_host()
        maker.ask_any(8)
    maker.say("print")
