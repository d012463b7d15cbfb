"""The proved accessibility tree in a Python process, by the shared library: the one in this package, as in a release, or the one that
`./build --library` leaves in lib/, by its path.

A `Tree` is fed with the lines of a script (docs/SCRIPT.md), or sent updates that are built call by call, and read by the ids of its nodes.
It needs nothing beyond the standard library. docs/FROM_C.md says what is proved of the library; these declarations of its calls are not.
"""

from ._checks import Id
from ._errors import (
    BadLine,
    Closed,
    Error,
    EventsLost,
    FocusMissing,
    FocusOnEmptyGraft,
    GraftedTwice,
    GraftWithChildren,
    IndexesUsedUp,
    ListedTwice,
    MissingData,
    MissingTreeInfo,
    NamedTwice,
    NoFirstTreeInfo,
    NoGraft,
    NoMemory,
    NoNode,
    NotReached,
    NotRootTree,
    Refused,
    RootTreeGrafted,
)
from ._fields import Bounds, Color, Decoration, Point, Selection, Translation
from ._names import (
    FIELDS,
    Action,
    AriaCurrent,
    DefectRule,
    EventKind,
    Filter,
    FilterResult,
    Flag,
    HasPopup,
    Live,
    Move,
    Orientation,
    Role,
    SortDirection,
    Style,
    Test,
    TextAlign,
    TextDirection,
    TextStyle,
    Toggled,
    Unit,
    VerticalOffset,
)
from ._texts import ANCHOR, CARET, END, Defect, Position, Span, Spot, Wanted
from ._tree import Event, Tree
from ._update import Update
from ._version import __version__, version

__all__ = [
    "ANCHOR", "Action", "AriaCurrent", "BadLine", "Bounds", "CARET", "Closed", "Color", "Decoration", "Defect", "DefectRule", "END",
    "Error", "Event", "EventKind", "EventsLost", "FIELDS", "Filter", "FilterResult", "Flag", "FocusMissing", "FocusOnEmptyGraft",
    "GraftWithChildren", "GraftedTwice", "HasPopup", "Id", "IndexesUsedUp", "ListedTwice", "Live", "MissingData", "MissingTreeInfo", "Move",
    "NamedTwice", "NoFirstTreeInfo", "NoGraft", "NoMemory", "NoNode", "NotReached", "NotRootTree", "Orientation", "Point", "Position",
    "Refused", "Role", "RootTreeGrafted", "Selection", "SortDirection", "Span", "Spot", "Style", "Test", "TextAlign", "TextDirection",
    "TextStyle", "Toggled", "Translation", "Tree", "Unit", "Update", "VerticalOffset", "Wanted", "__version__", "version",
]
