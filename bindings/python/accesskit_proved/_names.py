"""What C says by numbers, by its names in a script; docs/SCRIPT.md explains them. A name's number is its place.

Each name can be given as a member of its class or as the plain text: `Role.BUTTON` is `"Button"`.
"""

from __future__ import annotations

from enum import Enum
from typing import Dict, Type


class _Name(str, Enum):
    """A name that is also a text, and is printed as one."""

    __str__ = str.__str__
    __format__ = str.__format__  # type: ignore[assignment]


class EventKind(_Name):
    """What has become of a node, or that the focus moved."""

    ADDED = "added"
    UPDATED = "updated"
    REMOVED = "removed"
    FOCUS_MOVED = "focus"


class Flag(_Name):
    """A question about a node that is answered by yes or no: the library's call of that name, as `is_hidden` or `supports_toggle`. From
    `FOCUSABLE` to `INVOCABLE` the common filter counts."""

    HIDDEN = "hidden"
    DISABLED = "disabled"
    BUSY = "busy"
    MODAL = "modal"
    REQUIRED = "required"
    MULTISELECTABLE = "multiselectable"
    LIVE_ATOMIC = "live_atomic"
    TOUCH_TRANSPARENT = "touch_transparent"
    CLIPS_CHILDREN = "clips_children"
    ITALIC = "italic"
    READ_ONLY = "read_only"
    READ_ONLY_SUPPORTED = "read_only_supported"
    TEXT_INPUT = "text_input"
    MULTILINE = "multiline"
    PASSWORD_INPUT = "password_input"
    DIALOG = "dialog"
    ITEM_LIKE = "item_like"
    GRAFT = "graft"
    SELECTABLE = "selectable"
    SUPPORTS_TOGGLE = "supports_toggle"
    SUPPORTS_EXPAND_COLLAPSE = "supports_expand_collapse"
    SUPPORTS_URL = "supports_url"
    SUPPORTS_TEXT_RANGES = "supports_text_ranges"
    FOCUSABLE = "focusable"
    CLICKABLE = "clickable"
    SUPPORTS_INCREMENT = "supports_increment"
    SUPPORTS_DECREMENT = "supports_decrement"
    INVOCABLE = "invocable"
    LABEL_COMES_FROM_VALUE = "label_comes_from_value"
    CONTAINER_WITH_SELECTABLE_CHILDREN = "container_with_selectable_children"
    READ_ONLY_BY_DEFAULT = "read_only_by_default"
    READ_ONLY_OR_DISABLED = "read_only_or_disabled"
    HAS_LABEL = "has_label"
    HAS_VALUE = "has_value"


class Filter(_Name):
    """A filter by its name in the library; `ALL` includes every node."""

    ALL = "all"
    COMMON = "common"
    COMMON_WITH_ROOT = "common_with_root"


class FilterResult(_Name):
    """A filter's answer for a node."""

    INCLUDE = "include"
    EXCLUDE_NODE = "exclude_node"
    EXCLUDE_SUBTREE = "exclude_subtree"


class Move(_Name):
    """A movement of the caret."""

    FORWARD_TO_CHARACTER_START = "forward_to_character_start"
    FORWARD_TO_CHARACTER_END = "forward_to_character_end"
    BACKWARD_TO_CHARACTER_START = "backward_to_character_start"
    FORWARD_TO_FORMAT_START = "forward_to_format_start"
    FORWARD_TO_FORMAT_END = "forward_to_format_end"
    BACKWARD_TO_FORMAT_START = "backward_to_format_start"
    FORWARD_TO_WORD_START = "forward_to_word_start"
    FORWARD_TO_WORD_END = "forward_to_word_end"
    BACKWARD_TO_WORD_START = "backward_to_word_start"
    FORWARD_TO_LINE_START = "forward_to_line_start"
    FORWARD_TO_LINE_END = "forward_to_line_end"
    BACKWARD_TO_LINE_START = "backward_to_line_start"
    FORWARD_TO_PARAGRAPH_START = "forward_to_paragraph_start"
    FORWARD_TO_PARAGRAPH_END = "forward_to_paragraph_end"
    BACKWARD_TO_PARAGRAPH_START = "backward_to_paragraph_start"
    FORWARD_TO_PAGE_START = "forward_to_page_start"
    FORWARD_TO_PAGE_END = "forward_to_page_end"
    DOCUMENT_END = "document_end"
    BACKWARD_TO_PAGE_START = "backward_to_page_start"
    DOCUMENT_START = "document_start"


class State(_Name):
    """What is computed of a node that has few values."""

    TOGGLED = "toggled"
    SELECTED = "selected"
    ORIENTATION = "orientation"
    LIVE = "live"


class Count(_Name):
    """A number that is computed of a node."""

    CHILDREN = "children"
    INDEX = "index"
    FILTERED_CHILDREN = "filtered_children"
    FILTERED_INDEX = "filtered_index"
    SET_SIZE = "set_size"
    SET_POSITION = "set_position"
    CONTAINER_SET_SIZE = "container_set_size"


class Relative(_Name):
    """Another node that is found from a node."""

    ACTIVE_DESCENDANT = "active_descendant"
    DEEPEST_FIRST_CHILD = "deepest_first_child"
    DEEPEST_LAST_CHILD = "deepest_last_child"
    SELECTION_CONTAINER = "selection_container"


class Listed(_Name):
    """A list of nodes that is found from a node."""

    LABELLED_BY = "labelled_by"
    CONTROLS = "controls"
    PRECEDING_SIBLINGS = "preceding_siblings"
    FOLLOWING_SIBLINGS = "following_siblings"
    DESCENDANTS = "descendants"
    ITEMS = "items"
    PRECEDING_FILTERED_SIBLINGS = "preceding_filtered_siblings"
    FOLLOWING_FILTERED_SIBLINGS = "following_filtered_siblings"
    FILTERED_DESCENDANTS = "filtered_descendants"


class TextStyle(_Name):
    """A property of how text looks."""

    TEXT_DIRECTION = "text_direction"
    FONT_FAMILY = "font_family"
    LANGUAGE = "language"
    FONT_SIZE = "font_size"
    FONT_WEIGHT = "font_weight"
    BACKGROUND_COLOR = "background_color"
    FOREGROUND_COLOR = "foreground_color"
    OVERLINE = "overline"
    STRIKETHROUGH = "strikethrough"
    UNDERLINE = "underline"
    TEXT_ALIGN = "text_align"
    VERTICAL_OFFSET = "vertical_offset"
    ITALIC = "italic"


class Unit(_Name):
    """A unit of text."""

    CHARACTER = "character"
    FORMAT = "format"
    WORD = "word"
    LINE = "line"
    PARAGRAPH = "paragraph"
    PAGE = "page"


class Test(_Name):
    """What may hold of a position in a text."""

    CHARACTER_AFTER = "character_after"
    CHARACTER_BEFORE = "character_before"
    FORMAT_START = "format_start"
    WORD_START = "word_start"
    LINE_START = "line_start"
    LINE_END = "line_end"
    PARAGRAPH_START = "paragraph_start"
    PARAGRAPH_END = "paragraph_end"
    PARAGRAPH_SEPARATOR = "paragraph_separator"
    DOCUMENT_START = "document_start"
    DOCUMENT_END = "document_end"


class SpotKind(_Name):
    """By what a position in a text is named."""

    INDEX = "index"
    UTF16_INDEX = "utf16_index"
    RUN = "run"
    POINT = "point"
    END = "end"
    SELECTION_ANCHOR = "selection_anchor"
    SELECTION_FOCUS = "selection_focus"


class DefectRule(_Name):
    """Why runs make no text: the role of the node holds none, or the rule that a run breaks."""

    ROLE = "role"
    PREVIOUS_LINK = "previous_link"
    PREVIOUS_UNANSWERED = "previous_unanswered"
    TREE = "tree"
    CHARACTER_LENGTHS = "character_lengths"
    WORD_STARTS = "word_starts"
    CHARACTER_POSITIONS = "character_positions"
    CHARACTER_WIDTHS = "character_widths"
    TOO_LONG = "too_long"
    EMPTY = "empty"
    NEXT_LINK = "next_link"
    NEXT_UNANSWERED = "next_unanswered"


class Role(_Name):
    """A role of a node that has a name. A role without one is a number, as 328 for a heading; docs/SCRIPT.md lists them."""

    UNKNOWN = "Unknown"
    WINDOW = "Window"
    SCROLL_VIEW = "ScrollView"
    PARAGRAPH = "Paragraph"
    GENERIC_CONTAINER = "GenericContainer"
    TEXT_RUN = "TextRun"
    LABEL = "Label"
    IMAGE = "Image"
    DOCUMENT = "Document"
    TERMINAL = "Terminal"
    TEXT_INPUT = "TextInput"
    MULTILINE_TEXT_INPUT = "MultilineTextInput"
    SEARCH_INPUT = "SearchInput"
    DATE_INPUT = "DateInput"
    DATE_TIME_INPUT = "DateTimeInput"
    WEEK_INPUT = "WeekInput"
    MONTH_INPUT = "MonthInput"
    TIME_INPUT = "TimeInput"
    EMAIL_INPUT = "EmailInput"
    NUMBER_INPUT = "NumberInput"
    PASSWORD_INPUT = "PasswordInput"
    PHONE_NUMBER_INPUT = "PhoneNumberInput"
    URL_INPUT = "UrlInput"
    EDITABLE_COMBO_BOX = "EditableComboBox"
    SPIN_BUTTON = "SpinButton"
    LIST_BOX = "ListBox"
    TAB_LIST = "TabList"
    ALERT_DIALOG = "AlertDialog"
    DIALOG = "Dialog"
    COMBO_BOX = "ComboBox"
    DISCLOSURE_TRIANGLE = "DisclosureTriangle"
    TREE_ITEM = "TreeItem"
    BUTTON = "Button"
    CHECK_BOX = "CheckBox"
    DEFAULT_BUTTON = "DefaultButton"
    LINK = "Link"
    MENU_ITEM = "MenuItem"
    MENU_ITEM_CHECK_BOX = "MenuItemCheckBox"
    MENU_ITEM_RADIO = "MenuItemRadio"
    RADIO_BUTTON = "RadioButton"
    DOC_BACK_LINK = "DocBackLink"
    DOC_BIBLIO_REF = "DocBiblioRef"
    DOC_GLOSS_REF = "DocGlossRef"
    DOC_NOTE_REF = "DocNoteRef"
    COLOR_WELL = "ColorWell"
    GRID = "Grid"
    MENU_LIST_POPUP = "MenuListPopup"
    RADIO_GROUP = "RadioGroup"
    SLIDER = "Slider"
    SWITCH = "Switch"
    TREE_GRID = "TreeGrid"
    ARTICLE = "Article"
    DEFINITION = "Definition"
    DESCRIPTION_LIST = "DescriptionList"
    GRAPHICS_DOCUMENT = "GraphicsDocument"
    LIST = "List"
    LIST_ITEM = "ListItem"
    PDF_ROOT = "PdfRoot"
    PROGRESS_INDICATOR = "ProgressIndicator"
    ROOT_WEB_AREA = "RootWebArea"
    TERM = "Term"
    TIMER = "Timer"
    TOOLBAR = "Toolbar"
    TOOLTIP = "Tooltip"
    COMMENT = "Comment"
    TAB = "Tab"
    LIST_BOX_OPTION = "ListBoxOption"
    MENU_LIST_OPTION = "MenuListOption"
    LIST_GRID = "ListGrid"
    MENU = "Menu"
    MENU_BAR = "MenuBar"
    TREE = "Tree"


class Action(_Name):
    """What a node can be asked to do. An action without a name is a number of your own, from 0 to 255."""

    CLICK = "Click"
    FOCUS = "Focus"
    INCREMENT = "Increment"
    DECREMENT = "Decrement"


class Toggled(_Name):
    """Whether a check box, a switch or a button is on."""

    TRUE = "true"
    FALSE = "false"
    MIXED = "mixed"


class Live(_Name):
    """How changes are announced."""

    OFF = "off"
    POLITE = "polite"
    ASSERTIVE = "assertive"


class Orientation(_Name):
    """The axis along which a control lies."""

    HORIZONTAL = "horizontal"
    VERTICAL = "vertical"


class SortDirection(_Name):
    """How a column or a row is sorted."""

    ASCENDING = "ascending"
    DESCENDING = "descending"
    OTHER = "other"


class AriaCurrent(_Name):
    """As what the node is the current one of its set."""

    FALSE = "false"
    TRUE = "true"
    PAGE = "page"
    STEP = "step"
    LOCATION = "location"
    DATE = "date"
    TIME = "time"


class HasPopup(_Name):
    """What pops up from the node."""

    MENU = "menu"
    LISTBOX = "listbox"
    TREE = "tree"
    GRID = "grid"
    DIALOG = "dialog"


class TextDirection(_Name):
    """The direction of a text."""

    LEFT_TO_RIGHT = "left_to_right"
    RIGHT_TO_LEFT = "right_to_left"
    TOP_TO_BOTTOM = "top_to_bottom"
    BOTTOM_TO_TOP = "bottom_to_top"


class TextAlign(_Name):
    """How a text is aligned."""

    LEFT = "left"
    RIGHT = "right"
    CENTER = "center"
    JUSTIFY = "justify"


class VerticalOffset(_Name):
    """Whether a text is subscript or superscript."""

    SUBSCRIPT = "subscript"
    SUPERSCRIPT = "superscript"


class Style(_Name):
    """How a line above, through or below text is drawn."""

    SOLID = "solid"
    DOTTED = "dotted"
    DASHED = "dashed"
    DOUBLE = "double"
    WAVY = "wavy"


def numbers_of(names: Type[_Name]) -> Dict[str, int]:
    """The number of each name."""
    return {str(name): number for number, name in enumerate(names)}


# The fields of a node with the kinds of their values, each by its place as its number: `tools/fields` writes this list.
FIELDS: Dict[str, str] = dict(
    word.split(":")
    for word in (
        "children:ids labelled:ids controls:ids tree:tree active:id label:text value:text description:text placeholder:text"
        " role_description:text url:text author_id:text html_id:text class_name:text braille_label:text braille_role_description:text"
        " column_index_text:text row_index_text:text font_family:text language:text hidden:flag clips:flag disabled:flag read_only:flag"
        " required:flag modal:flag busy:flag multiselectable:flag italic:flag live_atomic:flag touch_transparent:flag bounds:rect"
        " move:translation selection:selection chars:numbers words:numbers character_positions:units character_widths:units prev:id next:id"
        " toggled:choice expanded:bool selected:bool live:choice orientation:choice sort_direction:choice aria_current:choice"
        " has_popup:choice font_size:count font_weight:count background_color:color foreground_color:color overline:decoration"
        " strikethrough:decoration underline:decoration text_direction:choice text_align:choice vertical_offset:choice number:number"
        " min:number max:number step:number jump:number level:count set_size:count position:count scroll_x:number scroll_x_min:number"
        " scroll_x_max:number scroll_y:number scroll_y_min:number scroll_y_max:number actions:action child_actions:action"
    ).split()
)
# The names of the fields that have few values, and of the styles of a line.
CHOICES: Dict[str, Type[_Name]] = {
    "toggled": Toggled,
    "live": Live,
    "orientation": Orientation,
    "sort_direction": SortDirection,
    "aria_current": AriaCurrent,
    "has_popup": HasPopup,
    "text_direction": TextDirection,
    "text_align": TextAlign,
    "vertical_offset": VerticalOffset,
    "style": Style,
}
# From where roles and actions without a name are numbered.
OTHER_ROLE, OTHER_ACTION = 65536, 256
