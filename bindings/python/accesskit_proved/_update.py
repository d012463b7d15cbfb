"""An update that is built call by call, and what the values of a node's fields are as arguments of C."""

from __future__ import annotations

from array import array
from typing import TYPE_CHECKING, Any, Callable, Dict, List, Optional, Tuple

from ._checks import I32, I64, U8, U16, U32, U64, listed, number_of, number_or_named, numbers, several, text, tree_id, truth, whole
from ._names import CHOICES, FIELDS, OTHER_ACTION, OTHER_ROLE, Action, Role, numbers_of

if TYPE_CHECKING:
    from types import TracebackType
    from typing import Iterable, Type, Union
    from uuid import UUID

    from ._names import AriaCurrent, HasPopup, Live, Orientation, SortDirection, Style, TextAlign, TextDirection, Toggled, VerticalOffset
    from ._tree import Tree

# A call of the library, and what it is given after the tree.
Said = Tuple[Callable[..., int], Tuple[Any, ...]]

_FIELDS = {name: (number, kind) for number, (name, kind) in enumerate(FIELDS.items())}
_ROLES, _ACTIONS = numbers_of(Role), numbers_of(Action)
_CHOICES = {name: numbers_of(names) for name, names in CHOICES.items()}
# The largest value of the counts that have less than 64 bits.
_MOST = {"font_size": U32, "font_weight": U16}
# Of lists of integers: the type in C, and the range.
_LISTS = {"ids": ("Q", 0, U64), "numbers": ("H", 0, U16), "units": ("i", -I32 - 1, I32)}
# Of values with parts: the ranges of those, and what they are.
_EDGE, _PART, _COUNT = (-I32 - 1, I32), (0, U8), (0, U64)
_COLOR, _COLOR_PARTS = (_PART,) * 4, "red, green, blue and alpha"
_DECORATION = f"a style, and {_COLOR_PARTS}"
_PARTS = {
    "rect": ((_EDGE,) * 4, "x0, y0, x1 and y1"),
    "translation": ((_EDGE,) * 2, "x and y"),
    "selection": ((_COUNT,) * 4, "run and character of the anchor, and of the focus"),
    "color": (_COLOR, _COLOR_PARTS),
}


def _decoration(value: Any, name: str) -> Tuple[int, ...]:
    """A style and a colour."""
    parts = listed(value, name, _DECORATION)
    if len(parts) != 5:
        raise ValueError(f"{name}: expected {_DECORATION}, got {len(parts)} values")
    return (number_of(_CHOICES["style"], parts[0], f"{name}[0]"), *several(_COLOR, _COLOR_PARTS, tuple(parts[1:]), f"{name}[1:]"))


# The arguments of the call that sets a field, by the kind of its value, but for lists, values with parts, flags and actions.
_VALUES: Dict[str, Callable[[Any, str], Tuple[Any, ...]]] = {
    "id": lambda value, name: (whole(value, 0, U64, name),),
    "text": lambda value, name: _with_length(text(value, name)),
    "bool": lambda value, name: (truth(value, name),),
    "choice": lambda value, name: (number_of(_CHOICES[name], value, name),),
    "number": lambda value, name: (whole(value, -I64 - 1, I64, name),),
    "count": lambda value, name: (whole(value, 0, _MOST.get(name, U64), name),),
    "tree": lambda value, name: _with_length(tree_id(value, name)),
    "decoration": _decoration,
}


def _with_length(data: bytes) -> Tuple[bytes, int]:
    return data, len(data)


class Update:
    """An update that is being built, by `Tree.update`: node by node, and then sent. Each value is checked as it is given; what raises an
    error has added nothing. The tree gets all of it when it is sent, so that several can be built at a time, and one that isn't sent is
    as none. As the subject of a `with` it is sent at the end, unless an exception ends that."""

    def __init__(
        self,
        tree: Tree,
        focus: int,
        root: Optional[int] = None,
        name: Optional[UUID] = None,
        toolkit: Optional[str] = None,
        version: Optional[str] = None,
    ) -> None:
        """As `Tree.update`."""
        self._tree, self._calls = tree, tree._calls
        uuid = b"" if name is None else tree_id(name, "tree")
        self._said: Optional[List[Said]] = [(self._calls.ak_update_begin, (uuid, len(uuid), whole(focus, 0, U64, "focus")))]
        # (what C is given the address of)
        self._kept: List[array[int]] = []
        if root is not None:
            self._said.append((self._calls.ak_update_root, (whole(root, 0, U64, "root"),)))
        calls = self._calls.ak_update_toolkit_name, self._calls.ak_update_toolkit_version
        for call, of, said in zip(calls, ("toolkit", "version"), (toolkit, version)):
            if said is not None:
                if root is None:
                    raise ValueError(f"{of}: only goes with a root")
                self._said.append((call, _with_length(text(said, of))))

    def __enter__(self) -> Update:
        return self

    def __exit__(self, kind: Optional[Type[BaseException]], error: Optional[BaseException], trace: Optional[TracebackType]) -> None:
        if kind is None and self._said is not None:
            self.send()

    def __reduce_ex__(self, protocol: object) -> Any:
        raise TypeError("an Update can't be copied or pickled")

    if TYPE_CHECKING:
        # (the fields: `tools/fields` writes them)
        def node(
            self,
            id: int,
            role: Union[Role, str, int],
            *,
            children: Iterable[int] = ...,
            labelled: Iterable[int] = ...,
            controls: Iterable[int] = ...,
            tree: UUID = ...,
            active: int = ...,
            label: str = ...,
            value: str = ...,
            description: str = ...,
            placeholder: str = ...,
            role_description: str = ...,
            url: str = ...,
            author_id: str = ...,
            html_id: str = ...,
            class_name: str = ...,
            braille_label: str = ...,
            braille_role_description: str = ...,
            column_index_text: str = ...,
            row_index_text: str = ...,
            font_family: str = ...,
            language: str = ...,
            hidden: bool = ...,
            clips: bool = ...,
            disabled: bool = ...,
            read_only: bool = ...,
            required: bool = ...,
            modal: bool = ...,
            busy: bool = ...,
            multiselectable: bool = ...,
            italic: bool = ...,
            live_atomic: bool = ...,
            touch_transparent: bool = ...,
            bounds: Tuple[int, int, int, int] = ...,
            move: Tuple[int, int] = ...,
            selection: Tuple[int, int, int, int] = ...,
            chars: Iterable[int] = ...,
            words: Iterable[int] = ...,
            character_positions: Iterable[int] = ...,
            character_widths: Iterable[int] = ...,
            prev: int = ...,
            next: int = ...,
            toggled: Union[Toggled, str] = ...,
            expanded: bool = ...,
            selected: bool = ...,
            live: Union[Live, str] = ...,
            orientation: Union[Orientation, str] = ...,
            sort_direction: Union[SortDirection, str] = ...,
            aria_current: Union[AriaCurrent, str] = ...,
            has_popup: Union[HasPopup, str] = ...,
            font_size: int = ...,
            font_weight: int = ...,
            background_color: Tuple[int, int, int, int] = ...,
            foreground_color: Tuple[int, int, int, int] = ...,
            overline: Tuple[Union[Style, str], int, int, int, int] = ...,
            strikethrough: Tuple[Union[Style, str], int, int, int, int] = ...,
            underline: Tuple[Union[Style, str], int, int, int, int] = ...,
            text_direction: Union[TextDirection, str] = ...,
            text_align: Union[TextAlign, str] = ...,
            vertical_offset: Union[VerticalOffset, str] = ...,
            number: int = ...,
            min: int = ...,
            max: int = ...,
            step: int = ...,
            jump: int = ...,
            level: int = ...,
            set_size: int = ...,
            position: int = ...,
            scroll_x: int = ...,
            scroll_x_min: int = ...,
            scroll_x_max: int = ...,
            scroll_y: int = ...,
            scroll_y_min: int = ...,
            scroll_y_max: int = ...,
            actions: Iterable[Union[Action, str, int]] = ...,
            child_actions: Iterable[Union[Action, str, int]] = ...,
        ) -> Update:
            """Adds a node, with a role and fields."""

    else:

        def node(self, id, role, **fields):
            """Adds a node, with fields by their names in a script: `node(1, "Button", label="Send", bounds=(0, 0, 64, 64), busy=True)`. A
            role or an action without a name is a number. A flag is True or False; a line above, through or below text is
            `("wavy", 255, 0, 0, 255)`, a selection the run and the character of both of its ends, `(4, 1, 5, 0)`, a grafted tree a
            `uuid.UUID`."""
            number = number_or_named(_ROLES, OTHER_ROLE, U16, role, "role")
            said, kept = [(self._calls.ak_update_node, (whole(id, 0, U64, "id"), number))], []
            for name, value in fields.items():
                self._add(name, value, said, kept)
            # (another thread may be sending it: then it has all of this node, or nothing)
            unsent = self._said
            if unsent is None:
                raise ValueError("the update is sent already")
            self._kept.extend(kept)
            unsent.extend(said)
            return self

    def _add(self, name: str, value: Any, said: List[Said], kept: List[array[int]]) -> None:
        """What says the value of a field."""
        if name not in _FIELDS:
            raise TypeError(f"{name}: no such field; those are {', '.join(_FIELDS)}")
        field, kind = _FIELDS[name]
        call = getattr(self._calls, f"ak_update_{kind}")
        if kind == "flag":
            if truth(value, name):
                said.append((call, (field,)))
        elif kind == "action":
            for at, action in enumerate(listed(value, name, "a list of actions")):
                said.append((call, (field, number_or_named(_ACTIONS, OTHER_ACTION, U8, action, f"{name}[{at}]"))))
        elif kind in _LISTS:
            items = numbers(*_LISTS[kind], value, name)
            kept.append(items)
            said.append((call, (field, *items.buffer_info())))
        elif kind in _PARTS:
            said.append((call, (field, *several(*_PARTS[kind], value, name))))
        else:
            said.append((call, (field, *_VALUES[kind](value, name))))

    def send(self) -> None:
        """Carries the update out, once. The events are then those of this update. If it raises `NoMemory` with `done` 0, nothing has
        changed, and it can be sent again."""
        self._tree._send(self)
