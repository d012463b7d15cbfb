"""What is raised: each error of the library's answers is an `Error`, and each refusal also an exception by its rule's name."""

from __future__ import annotations

from typing import TYPE_CHECKING, Dict, Type

if TYPE_CHECKING:
    from uuid import UUID

    from ._checks import Id


class Error(Exception):
    """What the library answers if a call isn't carried out. Values that it can't be given are a `TypeError` or a `ValueError` alone."""


class Closed(Error, ValueError):
    """The tree is closed."""

    def __str__(self) -> str:
        return "the tree is closed"


class NoMemory(Error, MemoryError):
    """Memory ran out, after `done` commands. What wasn't done has changed nothing, and can be done again."""

    def __init__(self, done: int = 0) -> None:
        super().__init__(done)
        self.done = done

    def __str__(self) -> str:
        return f"memory ran out, after {self.done} commands"


class EventsLost(Error, MemoryError):
    """The tree has changed, and memory ran out for the events: read it anew."""

    def __str__(self) -> str:
        return "memory for an event ran out: the tree is to be read anew"


class BadLine(Error, ValueError):
    """A line is bad, and nothing was carried out. `line` is its number, counted from 1."""

    def __init__(self, line: int) -> None:
        super().__init__(line)
        self.line = line

    def __str__(self) -> str:
        return f"line {self.line}"


class NoNode(Error, LookupError):
    """The tree hasn't the node `id`."""

    def __init__(self, id: Id) -> None:
        super().__init__(id)
        self.id = id

    def __str__(self) -> str:
        return f"there is no node {self.id.node} in tree {self.id.tree}"


class Refused(Error, ValueError):
    """An update was refused, after `done` commands, and has changed nothing. The exception's class is the rule that it breaks, which `rule`
    has the number of. `node` is the node that the rule is about, by its number, or `tree` the `uuid.UUID` of the tree, where it is about
    one. If an update breaks several rules, the exception is about one of them."""

    # The number of the rule, and what it is about.
    RULE = 0
    ABOUT = ""

    def __init__(self, node: int, tree: UUID, done: int = 0) -> None:
        super().__init__(node, tree, done)
        self.node = node if self.ABOUT == "node" else None
        self.tree = tree if self.ABOUT == "tree" else None
        self.done, self.rule = done, self.RULE

    def __str__(self) -> str:
        about = f" {self.ABOUT} {self.args[self.ABOUT == 'tree']}" if self.ABOUT else ""
        return f"{type(self).__name__}{about}"


class MissingTreeInfo(Refused):
    """It is the first one, and says no root."""

    RULE = 1


class NotRootTree(Refused):
    """It is the first one, and for another tree than the root tree."""

    RULE = 2


class MissingData(Refused):
    """It leads to a node that has no data, new or old."""

    RULE = 3
    ABOUT = "node"


class NotReached(Refused):
    """It sends a node that the root doesn't lead to afterwards."""

    RULE = 4
    ABOUT = "node"


class NamedTwice(Refused):
    """It sends a node twice."""

    RULE = 5
    ABOUT = "node"


class ListedTwice(Refused):
    """It leaves a node listed twice, by one parent or by two, or the root listed by a node."""

    RULE = 6
    ABOUT = "node"


class RootTreeGrafted(Refused):
    """It grafts the root tree."""

    RULE = 7
    ABOUT = "node"


class GraftWithChildren(Refused):
    """It has a graft that lists children."""

    RULE = 8
    ABOUT = "node"


class GraftedTwice(Refused):
    """It leaves two grafts of one tree."""

    RULE = 9
    ABOUT = "tree"


class NoGraft(Refused):
    """It is for a tree that no node grafts, and that isn't the root tree."""

    RULE = 10
    ABOUT = "tree"


class NoFirstTreeInfo(Refused):
    """It is the first one for its tree, and says no root."""

    RULE = 11
    ABOUT = "tree"


class FocusMissing(Refused):
    """It puts the focus on a node that isn't reached."""

    RULE = 12
    ABOUT = "node"


class FocusOnEmptyGraft(Refused):
    """It puts the focus on a graft of a tree that isn't present."""

    RULE = 13
    ABOUT = "tree"


class IndexesUsedUp(Refused):
    """It would need a tree index past 32 bits."""

    RULE = 14


RULES: Dict[int, Type[Refused]] = {rule.RULE: rule for rule in Refused.__subclasses__()}
