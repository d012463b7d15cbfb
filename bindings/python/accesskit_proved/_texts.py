"""What is asked of texts, and of how text looks."""

from __future__ import annotations

from ctypes import c_bool, c_size_t
from enum import IntFlag
from typing import TYPE_CHECKING, Any, Dict, List, NamedTuple, Optional, Tuple, Union, overload

from . import _raw
from ._checks import I64, U64, Id, number_of, truth, whole
from ._fields import Bounds, Color, Decoration
from ._handle import Call, Handle
from ._names import DefectRule, Move, SpotKind, Style, Test, TextAlign, TextDirection, TextStyle, Unit, VerticalOffset, numbers_of

if TYPE_CHECKING:
    from typing import Literal

_MOVES, _UNITS, _TESTS, _STYLES = numbers_of(Move), numbers_of(Unit), numbers_of(Test), numbers_of(TextStyle)
_PROPERTIES = [it.value for it in TextStyle]
_RULES, _KINDS = tuple(DefectRule), numbers_of(SpotKind)
# What a choice among the properties is one of.
_CHOICES: Dict[str, Tuple[Any, ...]] = {"text_direction": tuple(TextDirection), "text_align": tuple(TextAlign), "vertical_offset": tuple(VerticalOffset)}
_LINE_STYLES = tuple(Style)


class Wanted(IntFlag):
    """The numbers of a position that are counted if they are wanted, and cost as much as there is text before it."""

    INDEX = 1
    UTF16_INDEX = 2
    LINE = 4
    ALL = 7


class Position:
    """A position in a text: `run` is its run, and `character` how many of the run's characters are before it; `index` and `utf16_index` count
    the scalars and the UTF-16 code units of the text before it; `line` is its line, from 0. Where two runs meet, `is_end` is the end of the
    first. A number that wasn't wanted raises `AttributeError`."""

    __slots__ = ("run", "character", "is_end", "index", "utf16_index", "line")
    run: int
    character: int
    is_end: bool
    index: int
    utf16_index: int
    line: int

    def __init__(self, found: _raw.Position, wanted: int) -> None:
        """Of what the library has written."""
        self.run, self.character, self.is_end = found.run, found.character, found.is_end
        if wanted & 1:
            self.index = found.index
        if wanted & 2:
            self.utf16_index = found.utf16_index
        if wanted & 4:
            self.line = found.line

    if not TYPE_CHECKING:

        def __getattr__(self, name):
            what = "was not wanted of this position" if name in self.__slots__ else "is no part of a position"
            raise AttributeError(f"{name}: {what}")

    def _parts(self) -> Tuple[Any, ...]:
        return tuple(getattr(self, name, None) for name in self.__slots__)

    def __eq__(self, other: object) -> bool:
        return isinstance(other, Position) and self._parts() == other._parts()

    def __hash__(self) -> int:
        return hash(self._parts())

    def __repr__(self) -> str:
        return f"Position({', '.join(f'{name}={part}' for name, part in zip(self.__slots__, self._parts()) if part is not None)})"


class Spot(NamedTuple):
    """A position in a text by one of its names, made by one of the calls below; `END`, `ANCHOR` and `CARET` are the end of the text and the
    ends of the selection. Where a spot is expected, an int is an index, and a `Position` is itself."""

    kind: SpotKind
    is_end: bool = False
    run: int = 0
    number: int = 0
    x: int = 0
    y: int = 0

    @classmethod
    def at(cls, index: int, is_end: bool = False) -> Spot:
        """Before which there are so many scalars: where two runs meet, the end of the first, or the start of the second."""
        return cls(SpotKind.INDEX, truth(is_end, "is_end"), number=whole(index, 0, U64, "index"))

    @classmethod
    def utf16(cls, index: int) -> Spot:
        """Before which there are so many UTF-16 code units."""
        return cls(SpotKind.UTF16_INDEX, number=whole(index, 0, U64, "index"))

    @classmethod
    def in_run(cls, run: int, character: int) -> Spot:
        """In a run, by how many of the run's characters are before it."""
        return cls(SpotKind.RUN, run=whole(run, 0, U64, "run"), number=whole(character, 0, U64, "character"))

    @classmethod
    def point(cls, x: int, y: int) -> Spot:
        """At a point, in the node's coordinates and in units of 1/64 pixel."""
        return cls(SpotKind.POINT, x=whole(x, -I64 - 1, I64, "x"), y=whole(y, -I64 - 1, I64, "y"))


END, ANCHOR, CARET = Spot(SpotKind.END), Spot(SpotKind.SELECTION_ANCHOR), Spot(SpotKind.SELECTION_FOCUS)


class Span(NamedTuple):
    """A part of a text, by its ends."""

    start: Position
    end: Position


class Defect(NamedTuple):
    """Why the runs of a node make no text: the first run that breaks a rule, with the rule, and the node to which a link leads, by its number,
    if the rule is about one."""

    run: Id
    rule: DefectRule
    link: int


if TYPE_CHECKING:
    AnySpot = Union[Spot, Position, int]
    # (the properties by what is read of them)
    _InText = Literal["font_family", "language", TextStyle.FONT_FAMILY, TextStyle.LANGUAGE]
    _InNumber = Literal["font_size", "font_weight", TextStyle.FONT_SIZE, TextStyle.FONT_WEIGHT]
    _InColor = Literal["background_color", "foreground_color", TextStyle.BACKGROUND_COLOR, TextStyle.FOREGROUND_COLOR]
    _InLine = Literal["overline", "strikethrough", "underline", TextStyle.OVERLINE, TextStyle.STRIKETHROUGH, TextStyle.UNDERLINE]
    _Italic = Literal["italic", TextStyle.ITALIC]
    _Direction = Literal["text_direction", TextStyle.TEXT_DIRECTION]
    _Align = Literal["text_align", TextStyle.TEXT_ALIGN]
    _Offset = Literal["vertical_offset", TextStyle.VERTICAL_OFFSET]
    StyleResult = Union[str, int, bool, Color, Decoration, TextDirection, TextAlign, VerticalOffset, None]


def _spot(value: object, is_end: object, name: str) -> _raw.Spot:
    """A spot as C has it, checked whoever has made it."""
    truth(is_end, "is_end")
    if isinstance(value, Position):
        value = Spot.in_run(value.run, value.character)
    elif not isinstance(value, Spot):
        value = Spot.at(whole(value, 0, U64, name), bool(is_end))
    if tuple.__len__(value) != 6:
        raise ValueError(f"{name}: expected a Spot, got {len(value)} parts")
    kind, side, run, number, x, y = tuple.__iter__(value)
    at = whole(x, -I64 - 1, I64, f"{name}.x"), whole(y, -I64 - 1, I64, f"{name}.y")
    numbers = whole(run, 0, U64, f"{name}.run"), whole(number, 0, U64, f"{name}.number")
    return _raw.Spot(number_of(_KINDS, kind, f"{name}.kind"), truth(side, f"{name}.is_end"), *numbers, *at)


def _style(found: Any, name: str) -> StyleResult:
    """What the library's record of a property says."""
    if name in _CHOICES:
        choice: StyleResult = _CHOICES[name][found.number]
        return choice
    if name == "italic":
        return bool(found.number)
    if name in ("font_size", "font_weight"):
        return int(found.number)
    color = Color(found.red, found.green, found.blue, found.alpha)
    return color if name.endswith("color") else Decoration(_LINE_STYLES[found.number], *color)


class Texts(Handle):
    """The questions of a `Tree` about the texts of nodes. A position is asked for by a spot; with a plain index `is_end` says which side is
    meant where two runs meet. Which numbers of positions are counted can be said by `wanted`."""

    def text(self, id: Id) -> Optional[str]:
        """The whole text of the node's runs; of a password one bullet for each character."""
        return self._text(self._calls.ak_node_text, id)

    def text_length(self, id: Id) -> Optional[int]:
        """How many scalars the node's text has."""
        found = self._one(self._calls.ak_text_length, c_size_t(), id)
        return None if found is None else found.value

    def text_between(self, id: Id, start: int, end: int) -> Optional[str]:
        """The node's text from one index up to another, which count its scalars."""
        return self._text(self._calls.ak_text_between, id, whole(start, 0, U64, "start"), whole(end, 0, U64, "end"))

    def _position(self, call: Call, id: Id, wanted: int, *asked: object) -> Optional[Position]:
        found = self._one(call, _raw.Position(), id, *asked)
        return None if found is None else Position(found, wanted)

    def text_position(self, id: Id, spot: AnySpot, is_end: bool = False, wanted: Wanted = Wanted.ALL) -> Optional[Position]:
        """The position in the node's text at a spot."""
        if wanted is Wanted.ALL and type(spot) is int:
            return self._position(self._calls.ak_text_position, id, 7, whole(spot, 0, U64, "spot"), truth(is_end, "is_end"))
        bits = whole(wanted, 0, 7, "wanted")
        return self._position(self._calls.ak_text_place, id, bits, _spot(spot, is_end, "spot"), bits)

    def text_move(
        self, id: Id, spot: AnySpot, move: Union[Move, str], is_end: bool = False, wanted: Wanted = Wanted.ALL
    ) -> Optional[Position]:
        """Where a movement of the caret from there ends."""
        by = number_of(_MOVES, move, "move")
        if wanted is Wanted.ALL and type(spot) is int:
            return self._position(self._calls.ak_text_move, id, 7, whole(spot, 0, U64, "spot"), truth(is_end, "is_end"), by)
        bits = whole(wanted, 0, 7, "wanted")
        return self._position(self._calls.ak_text_moved, id, bits, _spot(spot, is_end, "spot"), by, bits)

    def text_selection_anchor(self, id: Id) -> Optional[Position]:
        """The fixed end of the selection in the node's text."""
        return self._position(self._calls.ak_text_selection_anchor, id, 7)

    def text_selection_focus(self, id: Id) -> Optional[Position]:
        """The moving end of the selection in the node's text, where the caret is."""
        return self._position(self._calls.ak_text_selection_focus, id, 7)

    def text_test(self, id: Id, spot: AnySpot, test: Union[Test, str], is_end: bool = False) -> Optional[bool]:
        """Whether something holds of a position, as that a word starts there."""
        asked = _spot(spot, is_end, "spot"), number_of(_TESTS, test, "test")
        found = self._one(self._calls.ak_text_test, c_bool(), id, *asked)
        return None if found is None else found.value

    def _span(self, call: Call, id: Id, wanted: int, *asked: object) -> Optional[Span]:
        found = self._one(call, _raw.Span(), id, *asked, wanted)
        return None if found is None else Span(Position(found.start, wanted), Position(found.end, wanted))

    def text_unit(
        self, id: Id, spot: AnySpot, unit: Union[Unit, str], is_end: bool = False, wanted: Wanted = Wanted.ALL
    ) -> Optional[Span]:
        """The unit of text that a position is in: from it, or else from the nearest start of one before it, to where a movement to the end
        of the unit ends. At the end of the text a character is empty."""
        asked = _spot(spot, is_end, "spot"), number_of(_UNITS, unit, "unit")
        return self._span(self._calls.ak_text_unit, id, whole(wanted, 0, 7, "wanted"), *asked)

    def text_line(self, id: Id, line: int, wanted: Wanted = Wanted.ALL) -> Optional[Span]:
        """A line of the node's text by its number, from 0. After the last one, if it isn't empty or the only one, comes an empty one, for the
        caret at the end."""
        return self._span(self._calls.ak_text_line, id, whole(wanted, 0, 7, "wanted"), whole(line, 0, U64, "line"))

    def text_boxes(self, id: Id, start: AnySpot, end: AnySpot) -> Optional[List[Bounds]]:
        """The boxes of the node's text from one spot up to another, one for each run, after all translations; at one position that of a caret.
        Empty if a run hasn't what that takes."""
        ends = _spot(start, False, "start"), _spot(end, False, "end")
        found = self._items(self._calls.ak_text_boxes, _raw.Bounds * 16, id, *ends)
        return None if found is None else [Bounds(it.x0, it.y0, it.x1, it.y1) for it in found]

    def text_differs(self, id: Id, start: AnySpot, end: AnySpot, style: Union[TextStyle, str]) -> Optional[bool]:
        """Whether the runs from one spot up to another differ in a property."""
        asked = _spot(start, False, "start"), _spot(end, False, "end"), number_of(_STYLES, style, "style")
        found = self._one(self._calls.ak_text_differs, c_bool(), id, *asked)
        return None if found is None else found.value

    def text_defect(self, id: Id) -> Optional[Defect]:
        """Why the node's runs make no text; None if they do, or if there are no runs."""
        found = self._one(self._calls.ak_text_defect, _raw.Defect(), id)
        return None if found is None else Defect(Id(found.run, found.run_tree), _RULES[found.rule], found.link)

    def _style(self, call: Call, text_call: Call, id: Id, style: Union[TextStyle, str], *asked: object) -> StyleResult:
        number = number_of(_STYLES, style, "style")
        name = _PROPERTIES[number]
        if name in ("font_family", "language"):
            return self._text(text_call, id, *asked, number)
        found = self._one(call, _raw.StyleValue(), id, *asked, number)
        return None if found is None else _style(found, name)

    @overload
    def style(self, id: Id, style: _InText) -> Optional[str]: ...

    @overload
    def style(self, id: Id, style: _InNumber) -> Optional[int]: ...

    @overload
    def style(self, id: Id, style: _InColor) -> Optional[Color]: ...

    @overload
    def style(self, id: Id, style: _InLine) -> Optional[Decoration]: ...

    @overload
    def style(self, id: Id, style: _Italic) -> Optional[bool]: ...

    @overload
    def style(self, id: Id, style: _Direction) -> Optional[TextDirection]: ...

    @overload
    def style(self, id: Id, style: _Align) -> Optional[TextAlign]: ...

    @overload
    def style(self, id: Id, style: _Offset) -> Optional[VerticalOffset]: ...

    @overload
    def style(self, id: Id, style: Union[TextStyle, str]) -> StyleResult: ...

    def style(self, id: Id, style: Union[TextStyle, str]) -> StyleResult:
        """How the node's text looks: a property of the nearest node, from this one upwards, that has it. A size is in hundredths of a pixel."""
        return self._style(self._calls.ak_node_style, self._calls.ak_node_style_text, id, style)

    @overload
    def text_style(self, id: Id, spot: AnySpot, style: _InText, is_end: bool = ...) -> Optional[str]: ...

    @overload
    def text_style(self, id: Id, spot: AnySpot, style: _InNumber, is_end: bool = ...) -> Optional[int]: ...

    @overload
    def text_style(self, id: Id, spot: AnySpot, style: _InColor, is_end: bool = ...) -> Optional[Color]: ...

    @overload
    def text_style(self, id: Id, spot: AnySpot, style: _InLine, is_end: bool = ...) -> Optional[Decoration]: ...

    @overload
    def text_style(self, id: Id, spot: AnySpot, style: _Italic, is_end: bool = ...) -> Optional[bool]: ...

    @overload
    def text_style(self, id: Id, spot: AnySpot, style: _Direction, is_end: bool = ...) -> Optional[TextDirection]: ...

    @overload
    def text_style(self, id: Id, spot: AnySpot, style: _Align, is_end: bool = ...) -> Optional[TextAlign]: ...

    @overload
    def text_style(self, id: Id, spot: AnySpot, style: _Offset, is_end: bool = ...) -> Optional[VerticalOffset]: ...

    @overload
    def text_style(self, id: Id, spot: AnySpot, style: Union[TextStyle, str], is_end: bool = ...) -> StyleResult: ...

    def text_style(self, id: Id, spot: AnySpot, style: Union[TextStyle, str], is_end: bool = False) -> StyleResult:
        """How the text looks at a position: a property of the nearest node, from the run upwards, that has it."""
        return self._style(self._calls.ak_text_style, self._calls.ak_text_style_text, id, style, _spot(spot, is_end, "spot"))
