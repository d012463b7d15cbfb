"""What is asked of nodes: where they are in the tree, what they are, and what a filter shows."""

from __future__ import annotations

from ctypes import byref, c_bool, c_char, c_size_t, c_uint32, c_uint64, create_string_buffer
from typing import Iterable, List, Optional, Set, Union
from uuid import UUID

from . import _raw
from ._checks import I64, U8, U16, U64, Id, listed, number_of, number_or_named, whole
from ._fields import Bounds, Point
from ._handle import Handle
from ._names import (
    OTHER_ACTION,
    OTHER_ROLE,
    Action,
    Count,
    Filter,
    FilterResult,
    Flag,
    Listed,
    Live,
    Orientation,
    Relative,
    Role,
    State,
    Toggled,
    numbers_of,
)

_RESULTS, _ROLES = tuple(FilterResult), tuple(Role)
_TOGGLED, _ORIENTATIONS, _LIVE = tuple(Toggled), tuple(Orientation), tuple(Live)
_FLAGS, _FILTERS, _ACTIONS, _ROLE_NUMBERS = numbers_of(Flag), numbers_of(Filter), numbers_of(Action), numbers_of(Role)
_STATES, _COUNTS, _RELATIVES, _LISTS = tuple(State), tuple(Count), tuple(Relative), tuple(Listed)


class Nodes(Handle):
    """The questions of a `Tree` about nodes."""

    def parent(self, id: Id) -> Optional[Id]:
        """The node's parent; of the root of a grafted tree, the node that grafts it."""
        return self._id(self._calls.ak_node_parent, id)

    def children(self, id: Id) -> List[Id]:
        """The node's children."""
        return self._ids(self._calls.ak_node_children, id)

    def role(self, id: Id) -> Union[Role, int]:
        """The node's role, as `Update.node` takes it: one without a name is a number."""
        number: int = self._one(self._calls.ak_node_role_number, c_uint32(), id).value
        return _ROLES[number] if number < OTHER_ROLE else number - OTHER_ROLE

    def role_name(self, role: Union[Role, str, int]) -> str:
        """The name of a role: of one that is a number, as 328, its name in the Rust crate, as `Heading`, or else `Other(7)`."""
        number = number_or_named(_ROLE_NUMBERS, OTHER_ROLE, U16, role, "role")
        buffer, length = create_string_buffer(64), c_size_t()
        self._check(self._calls.ak_role_name(number, byref(buffer), 64, length))
        return buffer.raw[: length.value].decode()

    def role_word(self, id: Id) -> str:
        """The node's role as a script has it: of one that is a number `Other(328)`."""
        return self._text(self._calls.ak_node_role, id) or ""

    def label(self, id: Id) -> Optional[str]:
        """The node's label, its own or that of the nodes that label it."""
        return self._text(self._calls.ak_node_label, id)

    def value(self, id: Id) -> Optional[str]:
        """The node's value; of a password one bullet for each character."""
        return self._text(self._calls.ak_node_value, id)

    def bounds(self, id: Id) -> Optional[Bounds]:
        """The node's rectangle after all translations, in units of 1/64 pixel."""
        found = self._one(self._calls.ak_node_bounds, _raw.Bounds(), id)
        return None if found is None else Bounds(found.x0, found.y0, found.x1, found.y1)

    def flag(self, id: Id, flag: Union[Flag, str]) -> bool:
        """Whether the node is what the flag says."""
        is_set: bool = self._one(self._calls.ak_node_flag, c_bool(), id, number_of(_FLAGS, flag, "flag")).value
        return is_set

    def filter(self, id: Id, filter: Union[Filter, str] = Filter.COMMON) -> FilterResult:
        """The answer of a filter for the node."""
        number: int = self._one(self._calls.ak_node_filter, c_uint32(), id, number_of(_FILTERS, filter, "filter")).value
        return _RESULTS[number]

    def hit(self, id: Id, x: int, y: int, filter: Union[Filter, str] = Filter.COMMON) -> Optional[Id]:
        """The node at a point in the coordinates of this one, in units of 1/64 pixel, among it and those below it."""
        at = whole(x, -I64 - 1, I64, "x"), whole(y, -I64 - 1, I64, "y")
        return self._id(self._calls.ak_node_hit, id, *at, number_of(_FILTERS, filter, "filter"))

    def filtered_parent(self, id: Id, filter: Union[Filter, str] = Filter.COMMON) -> Optional[Id]:
        """The nearest ancestor that the filter includes."""
        return self._id(self._calls.ak_node_filtered_parent, id, number_of(_FILTERS, filter, "filter"))

    def filtered_children(self, id: Id, filter: Union[Filter, str] = Filter.COMMON) -> List[Id]:
        """The nodes that the filter shows in place of the children."""
        return self._ids(self._calls.ak_node_filtered_children, id, number_of(_FILTERS, filter, "filter"))

    def _state(self, id: Id, state: State) -> Optional[int]:
        found = self._one(self._calls.ak_node_state, c_uint32(), id, _STATES.index(state))
        return None if found is None else found.value

    def toggled(self, id: Id) -> Optional[Toggled]:
        """Whether it is on, of what can be."""
        found = self._state(id, State.TOGGLED)
        return None if found is None else _TOGGLED[found]

    def is_selected(self, id: Id) -> Optional[bool]:
        """Whether it is selected, of what can be."""
        found = self._state(id, State.SELECTED)
        return None if found is None else bool(found)

    def orientation(self, id: Id) -> Optional[Orientation]:
        """The axis along which it lies: its own, or that of its role."""
        found = self._state(id, State.ORIENTATION)
        return None if found is None else _ORIENTATIONS[found]

    def live(self, id: Id) -> Live:
        """How changes of it are announced, as it or the nearest ancestor that says so has it."""
        return _LIVE[self._state(id, State.LIVE) or 0]

    def flags(self, id: Id, flags: Iterable[Union[Flag, str]] = Flag) -> Set[Flag]:
        """Which of these flags the node is. Only these are computed."""
        asked = {number_of(_FLAGS, it, "flags") for it in listed(flags, "flags", "a list of flags")}
        found = self._one(self._calls.ak_node_flags, c_uint64(), id, sum(1 << number for number in asked)).value
        return {flag for number, flag in enumerate(Flag) if found >> number & 1}

    def supports_action(self, id: Id, action: Union[Action, str, int], filter: Union[Filter, str] = Filter.COMMON) -> bool:
        """Whether the node supports an action."""
        number = number_or_named(_ACTIONS, OTHER_ACTION, U8, action, "action")
        found: bool = self._one(self._calls.ak_node_supports_action, c_bool(), id, number, number_of(_FILTERS, filter, "filter")).value
        return found

    def _count(self, id: Id, count: Count, filter: Union[Filter, str]) -> Optional[int]:
        found = self._one(self._calls.ak_node_count, c_size_t(), id, _COUNTS.index(count), number_of(_FILTERS, filter, "filter"))
        return None if found is None else found.value

    def child_count(self, id: Id) -> int:
        """How many children the node has. No list of them is made."""
        return self._count(id, Count.CHILDREN, Filter.ALL) or 0

    def index_in_parent(self, id: Id) -> Optional[int]:
        """The node's place among the children of its parent, from 0; of a root None."""
        return self._count(id, Count.INDEX, Filter.ALL)

    def filtered_child_count(self, id: Id, filter: Union[Filter, str] = Filter.COMMON) -> int:
        """How many nodes the filter shows in place of the children."""
        return self._count(id, Count.FILTERED_CHILDREN, filter) or 0

    def filtered_index(self, id: Id, filter: Union[Filter, str] = Filter.COMMON) -> Optional[int]:
        """The node's place among those that the filter shows in place of its filtered parent's children."""
        return self._count(id, Count.FILTERED_INDEX, filter)

    def set_size(self, id: Id, filter: Union[Filter, str] = Filter.COMMON) -> Optional[int]:
        """How many items the node's set has: as it says, or else by the items of its container."""
        return self._count(id, Count.SET_SIZE, filter)

    def position_in_set(self, id: Id, filter: Union[Filter, str] = Filter.COMMON) -> Optional[int]:
        """The node's place in its set, from 0: as it says, or else among the items of its container."""
        return self._count(id, Count.SET_POSITION, filter)

    def size_of_set_from_container(self, id: Id, filter: Union[Filter, str] = Filter.COMMON) -> Optional[int]:
        """How many items the node's set has, by its container alone."""
        return self._count(id, Count.CONTAINER_SET_SIZE, filter)

    def child_at(self, id: Id, index: int, filter: Union[Filter, str] = Filter.COMMON) -> Optional[Id]:
        """The node at an index among those that the filter shows in place of the children."""
        return self._id(self._calls.ak_node_child_at, id, number_of(_FILTERS, filter, "filter"), whole(index, 0, U64, "index"))

    def _relative(self, id: Id, relative: Relative, filter: Union[Filter, str]) -> Optional[Id]:
        return self._id(self._calls.ak_node_relative, id, _RELATIVES.index(relative), number_of(_FILTERS, filter, "filter"))

    def active_descendant(self, id: Id) -> Optional[Id]:
        """The node below this one that has the focus in its place."""
        return self._relative(id, Relative.ACTIVE_DESCENDANT, Filter.ALL)

    def deepest_first_child(self, id: Id) -> Optional[Id]:
        """The first leaf below the node."""
        return self._relative(id, Relative.DEEPEST_FIRST_CHILD, Filter.ALL)

    def deepest_last_child(self, id: Id) -> Optional[Id]:
        """The last leaf below the node."""
        return self._relative(id, Relative.DEEPEST_LAST_CHILD, Filter.ALL)

    def selection_container(self, id: Id, filter: Union[Filter, str] = Filter.COMMON) -> Optional[Id]:
        """The nearest ancestor in which the node can be selected."""
        return self._relative(id, Relative.SELECTION_CONTAINER, filter)

    def _listed(self, id: Id, which: Listed, filter: Union[Filter, str]) -> List[Id]:
        return self._ids(self._calls.ak_node_list, id, _LISTS.index(which), number_of(_FILTERS, filter, "filter"))

    def labelled_by(self, id: Id) -> List[Id]:
        """The nodes whose values are the node's label."""
        return self._listed(id, Listed.LABELLED_BY, Filter.ALL)

    def controls(self, id: Id) -> List[Id]:
        """The nodes that it controls, and that are there."""
        return self._listed(id, Listed.CONTROLS, Filter.ALL)

    def preceding_siblings(self, id: Id) -> List[Id]:
        """The siblings before the node, nearest first."""
        return self._listed(id, Listed.PRECEDING_SIBLINGS, Filter.ALL)

    def following_siblings(self, id: Id) -> List[Id]:
        """The siblings after the node."""
        return self._listed(id, Listed.FOLLOWING_SIBLINGS, Filter.ALL)

    def descendants(self, id: Id) -> List[Id]:
        """All nodes below the node, each before those below it."""
        return self._listed(id, Listed.DESCENDANTS, Filter.ALL)

    def items(self, id: Id, filter: Union[Filter, str] = Filter.COMMON) -> List[Id]:
        """The items of the node's set."""
        return self._listed(id, Listed.ITEMS, filter)

    def preceding_filtered_siblings(self, id: Id, filter: Union[Filter, str] = Filter.COMMON) -> List[Id]:
        """What the filter shows beside the node and before it, nearest first."""
        return self._listed(id, Listed.PRECEDING_FILTERED_SIBLINGS, filter)

    def following_filtered_siblings(self, id: Id, filter: Union[Filter, str] = Filter.COMMON) -> List[Id]:
        """What the filter shows beside the node and after it."""
        return self._listed(id, Listed.FOLLOWING_FILTERED_SIBLINGS, filter)

    def filtered_descendants(self, id: Id, filter: Union[Filter, str] = Filter.COMMON) -> List[Id]:
        """What the filter shows below the node."""
        return self._listed(id, Listed.FILTERED_DESCENDANTS, filter)

    def transform(self, id: Id) -> Point:
        """By how much the node is shifted, with all its ancestors."""
        found = self._one(self._calls.ak_node_transform, _raw.Point(), id)
        return Point(found.x, found.y)

    def own_point(self, id: Id, x: int, y: int) -> Point:
        """A point of the tree's own coordinates in those of the node, as `hit` takes it."""
        at = whole(x, -I64 - 1, I64, "x"), whole(y, -I64 - 1, I64, "y")
        found = self._one(self._calls.ak_node_point, _raw.Point(), id, *at)
        return Point(found.x, found.y)

    def tree_id(self, id: Id) -> UUID:
        """The UUID of the node's tree; that of the root tree is all zeros."""
        return UUID(bytes=self._items(self._calls.ak_node_tree_id, c_char * 16, id))
