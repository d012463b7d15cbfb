"""What is read of the fields of nodes: the types of the values, and how each kind is read."""

from __future__ import annotations

from ctypes import c_bool, c_char, c_int32, c_int64, c_size_t, c_uint16, c_uint32, c_uint64
from typing import TYPE_CHECKING, Any, Callable, Dict, List, NamedTuple, Optional, Tuple, Union, overload
from uuid import UUID

from . import _raw
from ._checks import Id, number_of
from ._handle import Bytes, Handle
from ._names import CHOICES, FIELDS, OTHER_ACTION, Action, Style

if TYPE_CHECKING:
    from typing import Literal

    from ._names import AriaCurrent, HasPopup, Live, Orientation, SortDirection, TextAlign, TextDirection, Toggled, VerticalOffset


class Bounds(NamedTuple):
    """A rectangle, in units of 1/64 pixel. Of one that the library computes an edge beyond 64 bits is the nearest number within them."""

    x0: int
    y0: int
    x1: int
    y1: int


class Point(NamedTuple):
    """A point, or by how much something is shifted, in units of 1/64 pixel. A number beyond 64 bits is the nearest one within them."""

    x: int
    y: int


class Translation(NamedTuple):
    """By how much a node and its subtree are shifted, in units of 1/64 pixel."""

    x: int
    y: int


class Selection(NamedTuple):
    """A selection in a text: the run of its fixed end, and how many of the run's characters are before it; the same of the end that moves."""

    anchor: int
    anchor_character: int
    focus: int
    focus_character: int


class Color(NamedTuple):
    """A colour, each part from 0 to 255; `alpha` is the opacity."""

    red: int
    green: int
    blue: int
    alpha: int


class Decoration(NamedTuple):
    """A line above, through or below text."""

    style: Style
    red: int
    green: int
    blue: int
    alpha: int


_ACTIONS, _STYLES = tuple(Action), tuple(Style)
_CHOICES = {name: tuple(names) for name, names in CHOICES.items()}


def _value(found: Any, name: str) -> Any:
    return found.value


def _parts(of: Callable[..., Any]) -> Callable[[Any, str], Any]:
    names = of._fields  # type: ignore[attr-defined]
    return lambda found, name: of(*(getattr(found, part) for part in names))


def _decoration(found: Any, name: str) -> Decoration:
    color = found.color
    return Decoration(_STYLES[found.style], color.red, color.green, color.blue, color.alpha)


# The calls for one value: what each writes, and what is made of it.
_VALUES: Dict[str, Tuple[Any, Callable[[Any, str], Any]]] = {
    "id": (c_uint64, _value),
    "flag": (c_bool, _value),
    "choice": (c_uint32, lambda found, name: _CHOICES[name][found.value]),
    "number": (c_int64, _value),
    "count": (c_size_t, _value),
    "rect": (_raw.Rect, _parts(Bounds)),
    "translation": (_raw.Translation, _parts(Translation)),
    "selection": (_raw.Selection, _parts(Selection)),
    "color": (_raw.Color, _parts(Color)),
    "decoration": (_raw.Decoration, _decoration),
}

# The calls for lists: what holds the first items, and what is made of all of them.
_LISTS: Dict[str, Tuple[Any, Callable[[Any], Any]]] = {
    "text": (Bytes, lambda items: str(items, "utf-8")),
    "ids": (c_uint64 * 64, list),
    "numbers": (c_uint16 * 256, list),
    "units": (c_int32 * 256, list),
    "actions": (c_uint32 * 64, lambda items: [_ACTIONS[it] if it < OTHER_ACTION else it - OTHER_ACTION for it in items]),
    "tree": (c_char * 16, lambda items: UUID(bytes=items)),
}

# The calls that are named after another kind than that of the call that sets a field.
_READ_BY = {"bool": "flag", "action": "actions"}
_KINDS = [(name, _READ_BY.get(kind, kind)) for name, kind in FIELDS.items()]
_NUMBERS = {name: number for number, name in enumerate(FIELDS)}


class Fields(Handle):
    """The questions of a `Tree` about the fields of nodes."""

    # (the fields by what is read of them: `tools/fields` writes this)
    @overload
    def field(self, id: Id, name: Literal["children", "labelled", "controls", "chars", "words"]) -> List[int]: ...

    @overload
    def field(self, id: Id, name: Literal["tree"]) -> Optional[UUID]: ...

    @overload
    def field(
        self,
        id: Id,
        name: Literal[
            "active", "prev", "next", "font_size", "font_weight", "number", "min", "max", "step", "jump", "level", "set_size", "position",
            "scroll_x", "scroll_x_min", "scroll_x_max", "scroll_y", "scroll_y_min", "scroll_y_max",
        ],
    ) -> Optional[int]: ...

    @overload
    def field(
        self,
        id: Id,
        name: Literal[
            "label", "value", "description", "placeholder", "role_description", "url", "author_id", "html_id", "class_name",
            "braille_label", "braille_role_description", "column_index_text", "row_index_text", "font_family", "language",
        ],
    ) -> Optional[str]: ...

    @overload
    def field(
        self,
        id: Id,
        name: Literal[
            "hidden", "clips", "disabled", "read_only", "required", "modal", "busy", "multiselectable", "italic", "live_atomic",
            "touch_transparent",
        ],
    ) -> bool: ...

    @overload
    def field(self, id: Id, name: Literal["bounds"]) -> Optional[Bounds]: ...

    @overload
    def field(self, id: Id, name: Literal["move"]) -> Optional[Translation]: ...

    @overload
    def field(self, id: Id, name: Literal["selection"]) -> Optional[Selection]: ...

    @overload
    def field(self, id: Id, name: Literal["character_positions", "character_widths"]) -> Optional[List[int]]: ...

    @overload
    def field(self, id: Id, name: Literal["toggled"]) -> Optional[Toggled]: ...

    @overload
    def field(self, id: Id, name: Literal["expanded", "selected"]) -> Optional[bool]: ...

    @overload
    def field(self, id: Id, name: Literal["live"]) -> Optional[Live]: ...

    @overload
    def field(self, id: Id, name: Literal["orientation"]) -> Optional[Orientation]: ...

    @overload
    def field(self, id: Id, name: Literal["sort_direction"]) -> Optional[SortDirection]: ...

    @overload
    def field(self, id: Id, name: Literal["aria_current"]) -> Optional[AriaCurrent]: ...

    @overload
    def field(self, id: Id, name: Literal["has_popup"]) -> Optional[HasPopup]: ...

    @overload
    def field(self, id: Id, name: Literal["background_color", "foreground_color"]) -> Optional[Color]: ...

    @overload
    def field(self, id: Id, name: Literal["overline", "strikethrough", "underline"]) -> Optional[Decoration]: ...

    @overload
    def field(self, id: Id, name: Literal["text_direction"]) -> Optional[TextDirection]: ...

    @overload
    def field(self, id: Id, name: Literal["text_align"]) -> Optional[TextAlign]: ...

    @overload
    def field(self, id: Id, name: Literal["vertical_offset"]) -> Optional[VerticalOffset]: ...

    @overload
    def field(self, id: Id, name: Literal["actions", "child_actions"]) -> List[Union[Action, int]]: ...

    @overload
    def field(self, id: Id, name: str) -> Any: ...

    def field(self, id: Id, name: str) -> Any:
        """What the node has in a field as its last update set it, in the form in which `Update.node` takes it. None if it has nothing
        there; a list that isn't set is empty, and a flag False. What the library makes of fields, as of those of ancestors, isn't here.

        Beware: of `value` of a password, and of its text runs, that is what is typed into it; `Tree.value` and `Tree.text` mask it."""
        number = number_of(_NUMBERS, name, "name")
        name, kind = _KINDS[number]
        call = getattr(self._calls, f"ak_field_{kind}")
        if kind in _LISTS:
            holds, made_of = _LISTS[kind]
            items = self._items(call, holds, id, number)
            return None if items is None else made_of(items)
        holds, made = _VALUES[kind]
        found = self._one(call, holds(), id, number)
        return None if found is None else made(found, name)
