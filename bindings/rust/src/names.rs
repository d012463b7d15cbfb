//! What C says by numbers: flags, filters, movements, fields, roles, actions, and the values of fields that have few.
use crate::raw;
use std::fmt;
use std::str::FromStr;

/// A question about a node that is answered by yes or no: the library's call of that name, as `is_hidden` or `supports_toggle`. From
/// `Focusable` to `Invocable` the common filter counts.
#[derive(Clone, Copy, Debug, PartialEq, Eq, Hash)]
pub enum Flag {
    Hidden,
    Disabled,
    Busy,
    Modal,
    Required,
    Multiselectable,
    LiveAtomic,
    TouchTransparent,
    ClipsChildren,
    Italic,
    ReadOnly,
    ReadOnlySupported,
    TextInput,
    Multiline,
    PasswordInput,
    Dialog,
    ItemLike,
    Graft,
    Selectable,
    SupportsToggle,
    SupportsExpandCollapse,
    SupportsUrl,
    SupportsTextRanges,
    Focusable,
    Clickable,
    SupportsIncrement,
    SupportsDecrement,
    Invocable,
    LabelComesFromValue,
    ContainerWithSelectableChildren,
    ReadOnlyByDefault,
    ReadOnlyOrDisabled,
    HasLabel,
    HasValue,
}

/// A state of a node that has few values: its number is that of `Toggled`, `Orientation` or `Live`, and 1 or 0 for `Selected`.
#[derive(Clone, Copy, Debug, PartialEq, Eq, Hash)]
pub(crate) enum State {
    Toggled,
    Selected,
    Orientation,
    Live,
}

/// A number that is computed of a node. Indexes and positions are counted from 0.
#[derive(Clone, Copy, Debug, PartialEq, Eq, Hash)]
pub(crate) enum Count {
    Children,
    Index,
    FilteredChildren,
    FilteredIndex,
    SetSize,
    SetPosition,
    ContainerSetSize,
}

/// Another node that is found from a node.
#[derive(Clone, Copy, Debug, PartialEq, Eq, Hash)]
pub(crate) enum Relative {
    ActiveDescendant,
    DeepestFirstChild,
    DeepestLastChild,
    SelectionContainer,
}

/// A list of nodes that is found from a node. Siblings before it come nearest first, all else in order.
#[derive(Clone, Copy, Debug, PartialEq, Eq, Hash)]
pub(crate) enum Listed {
    LabelledBy,
    Controls,
    PrecedingSiblings,
    FollowingSiblings,
    Descendants,
    Items,
    PrecedingFilteredSiblings,
    FollowingFilteredSiblings,
    FilteredDescendants,
}

/// A property of how text looks.
#[derive(Clone, Copy, Debug, PartialEq, Eq, Hash)]
pub enum TextStyle {
    TextDirection,
    FontFamily,
    Language,
    FontSize,
    FontWeight,
    BackgroundColor,
    ForegroundColor,
    Overline,
    Strikethrough,
    Underline,
    TextAlign,
    VerticalOffset,
    Italic,
}

/// A unit of text.
#[derive(Clone, Copy, Debug, PartialEq, Eq, Hash)]
pub enum Unit {
    Character,
    Format,
    Word,
    Line,
    Paragraph,
    Page,
}

/// A test of a position.
#[derive(Clone, Copy, Debug, PartialEq, Eq, Hash)]
pub enum Test {
    CharacterAfter,
    CharacterBefore,
    FormatStart,
    WordStart,
    LineStart,
    LineEnd,
    ParagraphStart,
    ParagraphEnd,
    ParagraphSeparator,
    DocumentStart,
    DocumentEnd,
}

/// Why runs make no text: the node's role holds none, or the rule that a run breaks.
#[derive(Clone, Copy, Debug, PartialEq, Eq, Hash)]
pub enum DefectRule {
    Role,
    PreviousLink,
    PreviousUnanswered,
    Tree,
    CharacterLengths,
    WordStarts,
    CharacterPositions,
    CharacterWidths,
    TooLong,
    Empty,
    NextLink,
    NextUnanswered,
}

impl DefectRule {
    pub(crate) fn numbered(number: u8) -> Option<DefectRule> {
        const ALL: [DefectRule; 12] = [
            DefectRule::Role,
            DefectRule::PreviousLink,
            DefectRule::PreviousUnanswered,
            DefectRule::Tree,
            DefectRule::CharacterLengths,
            DefectRule::WordStarts,
            DefectRule::CharacterPositions,
            DefectRule::CharacterWidths,
            DefectRule::TooLong,
            DefectRule::Empty,
            DefectRule::NextLink,
            DefectRule::NextUnanswered,
        ];
        ALL.get(usize::from(number)).copied()
    }
}

/// A filter by its name in the library; `All` includes every node.
#[derive(Clone, Copy, Debug, PartialEq, Eq, Hash)]
pub enum Filter {
    All,
    Common,
    CommonWithRoot,
}

/// A filter's answer for a node.
#[derive(Clone, Copy, Debug, PartialEq, Eq, Hash)]
pub enum FilterResult {
    Include,
    ExcludeNode,
    ExcludeSubtree,
}

/// A movement of the caret.
#[derive(Clone, Copy, Debug, PartialEq, Eq, Hash)]
pub enum Move {
    ForwardToCharacterStart,
    ForwardToCharacterEnd,
    BackwardToCharacterStart,
    ForwardToFormatStart,
    ForwardToFormatEnd,
    BackwardToFormatStart,
    ForwardToWordStart,
    ForwardToWordEnd,
    BackwardToWordStart,
    ForwardToLineStart,
    ForwardToLineEnd,
    BackwardToLineStart,
    ForwardToParagraphStart,
    ForwardToParagraphEnd,
    BackwardToParagraphStart,
    ForwardToPageStart,
    ForwardToPageEnd,
    DocumentEnd,
    BackwardToPageStart,
    DocumentStart,
}

/// A field of a node, by its name in a script; docs/SCRIPT.md explains them. Each call of [`Update`] is for those of one kind.
#[derive(Clone, Copy, Debug, PartialEq, Eq, Hash)]
pub enum Field {
    Children = 0,
    Labelled = 1,
    Controls = 2,
    Tree = 3,
    Active = 4,
    Label = 5,
    Value = 6,
    Description = 7,
    Placeholder = 8,
    RoleDescription = 9,
    Url = 10,
    AuthorId = 11,
    HtmlId = 12,
    ClassName = 13,
    BrailleLabel = 14,
    BrailleRoleDescription = 15,
    ColumnIndexText = 16,
    RowIndexText = 17,
    FontFamily = 18,
    Language = 19,
    Hidden = 20,
    Clips = 21,
    Disabled = 22,
    ReadOnly = 23,
    Required = 24,
    Modal = 25,
    Busy = 26,
    Multiselectable = 27,
    Italic = 28,
    LiveAtomic = 29,
    TouchTransparent = 30,
    Bounds = 31,
    Move = 32,
    Selection = 33,
    Chars = 34,
    Words = 35,
    CharacterPositions = 36,
    CharacterWidths = 37,
    Prev = 38,
    Next = 39,
    Toggled = 40,
    Expanded = 41,
    Selected = 42,
    Live = 43,
    Orientation = 44,
    SortDirection = 45,
    AriaCurrent = 46,
    HasPopup = 47,
    FontSize = 48,
    FontWeight = 49,
    BackgroundColor = 50,
    ForegroundColor = 51,
    Overline = 52,
    Strikethrough = 53,
    Underline = 54,
    TextDirection = 55,
    TextAlign = 56,
    VerticalOffset = 57,
    Number = 58,
    Min = 59,
    Max = 60,
    Step = 61,
    Jump = 62,
    Level = 63,
    SetSize = 64,
    Position = 65,
    ScrollX = 66,
    ScrollXMin = 67,
    ScrollXMax = 68,
    ScrollY = 69,
    ScrollYMin = 70,
    ScrollYMax = 71,
    Actions = 72,
    ChildActions = 73,
}

/// A role of a node. One that has a name is printed by it, and `parse` reads it; of one without, as a heading's, that is `Other(328)`.
/// docs/SCRIPT.md has what the names and the numbers mean.
#[derive(Clone, Copy, Debug, PartialEq, Eq, Hash)]
pub struct Role(u32);

/// From where roles without a name are numbered.
const OTHER_ROLE: u32 = 65536;

/// A word that is no role's name.
#[derive(Clone, Debug, PartialEq, Eq, Hash)]
pub struct UnknownRole(String);

impl fmt::Display for UnknownRole {
    fn fmt(&self, f: &mut fmt::Formatter<'_>) -> fmt::Result {
        write!(f, "{:?} is no role's name, and no Other(N) with N up to 65535", self.0)
    }
}

impl std::error::Error for UnknownRole {}

/// The roles that have names: a constant of each, and the table of names.
macro_rules! roles {
    ($($constant:ident = $number:literal $name:literal)*) => {
        impl Role {
            $(pub const $constant: Role = Role($number);)*
        }

        const ROLE_NAMES: &[(Role, &str)] = &[$((Role::$constant, $name),)*];
    };
}

roles! {
    UNKNOWN = 0 "Unknown"
    WINDOW = 1 "Window"
    SCROLL_VIEW = 2 "ScrollView"
    PARAGRAPH = 3 "Paragraph"
    GENERIC_CONTAINER = 4 "GenericContainer"
    TEXT_RUN = 5 "TextRun"
    LABEL = 6 "Label"
    IMAGE = 7 "Image"
    DOCUMENT = 8 "Document"
    TERMINAL = 9 "Terminal"
    TEXT_INPUT = 10 "TextInput"
    MULTILINE_TEXT_INPUT = 11 "MultilineTextInput"
    SEARCH_INPUT = 12 "SearchInput"
    DATE_INPUT = 13 "DateInput"
    DATE_TIME_INPUT = 14 "DateTimeInput"
    WEEK_INPUT = 15 "WeekInput"
    MONTH_INPUT = 16 "MonthInput"
    TIME_INPUT = 17 "TimeInput"
    EMAIL_INPUT = 18 "EmailInput"
    NUMBER_INPUT = 19 "NumberInput"
    PASSWORD_INPUT = 20 "PasswordInput"
    PHONE_NUMBER_INPUT = 21 "PhoneNumberInput"
    URL_INPUT = 22 "UrlInput"
    EDITABLE_COMBO_BOX = 23 "EditableComboBox"
    SPIN_BUTTON = 24 "SpinButton"
    LIST_BOX = 25 "ListBox"
    TAB_LIST = 26 "TabList"
    ALERT_DIALOG = 27 "AlertDialog"
    DIALOG = 28 "Dialog"
    COMBO_BOX = 29 "ComboBox"
    DISCLOSURE_TRIANGLE = 30 "DisclosureTriangle"
    TREE_ITEM = 31 "TreeItem"
    BUTTON = 32 "Button"
    CHECK_BOX = 33 "CheckBox"
    DEFAULT_BUTTON = 34 "DefaultButton"
    LINK = 35 "Link"
    MENU_ITEM = 36 "MenuItem"
    MENU_ITEM_CHECK_BOX = 37 "MenuItemCheckBox"
    MENU_ITEM_RADIO = 38 "MenuItemRadio"
    RADIO_BUTTON = 39 "RadioButton"
    DOC_BACK_LINK = 40 "DocBackLink"
    DOC_BIBLIO_REF = 41 "DocBiblioRef"
    DOC_GLOSS_REF = 42 "DocGlossRef"
    DOC_NOTE_REF = 43 "DocNoteRef"
    COLOR_WELL = 44 "ColorWell"
    GRID = 45 "Grid"
    MENU_LIST_POPUP = 46 "MenuListPopup"
    RADIO_GROUP = 47 "RadioGroup"
    SLIDER = 48 "Slider"
    SWITCH = 49 "Switch"
    TREE_GRID = 50 "TreeGrid"
    ARTICLE = 51 "Article"
    DEFINITION = 52 "Definition"
    DESCRIPTION_LIST = 53 "DescriptionList"
    GRAPHICS_DOCUMENT = 54 "GraphicsDocument"
    LIST = 55 "List"
    LIST_ITEM = 56 "ListItem"
    PDF_ROOT = 57 "PdfRoot"
    PROGRESS_INDICATOR = 58 "ProgressIndicator"
    ROOT_WEB_AREA = 59 "RootWebArea"
    TERM = 60 "Term"
    TIMER = 61 "Timer"
    TOOLBAR = 62 "Toolbar"
    TOOLTIP = 63 "Tooltip"
    COMMENT = 64 "Comment"
    TAB = 65 "Tab"
    LIST_BOX_OPTION = 66 "ListBoxOption"
    MENU_LIST_OPTION = 67 "MenuListOption"
    LIST_GRID = 68 "ListGrid"
    MENU = 69 "Menu"
    MENU_BAR = 70 "MenuBar"
    TREE = 71 "Tree"
}

impl Role {
    pub(crate) fn numbered(number: u32) -> Role {
        Role(number)
    }

    pub(crate) fn number(self) -> u32 {
        self.0
    }

    /// A role without a name, by its number: that of a heading is 328.
    pub const fn other(number: u16) -> Role {
        Role(OTHER_ROLE + number as u32)
    }

    /// The role's name, if it has one.
    pub fn name(self) -> Option<&'static str> {
        ROLE_NAMES.iter().find(|(role, _)| *role == self).map(|(_, name)| *name)
    }

    /// The role's name in the Rust crate, also of one that is a number, as `Heading`; of a number without one `Other(7)`.
    pub fn full_name(self) -> String {
        let (mut name, mut length) = ([0; 64], 0);
        // SAFETY: the declaration is that of the library, and the pointer goes with its length.
        unsafe { raw::ak_role_name(self.0, name.as_mut_ptr(), name.len(), &mut length) };
        String::from_utf8_lossy(&name[..length.min(name.len())]).into_owned()
    }

    /// The number of a role without a name.
    pub fn as_other(self) -> Option<u16> {
        self.0.checked_sub(OTHER_ROLE).and_then(|number| u16::try_from(number).ok())
    }
}

impl fmt::Display for Role {
    fn fmt(&self, f: &mut fmt::Formatter<'_>) -> fmt::Result {
        match self.name() {
            Some(name) => f.pad(name),
            None => f.pad(&format!("Other({})", self.0.saturating_sub(OTHER_ROLE))),
        }
    }
}

impl FromStr for Role {
    type Err = UnknownRole;

    fn from_str(word: &str) -> Result<Role, UnknownRole> {
        let named = ROLE_NAMES.iter().find(|(_, name)| *name == word).map(|(role, _)| *role);
        let other = || word.strip_prefix("Other(")?.strip_suffix(')')?.parse().ok().map(Role::other);
        named.or_else(other).ok_or_else(|| UnknownRole(word.into()))
    }
}

/// From where actions without a name are numbered.
const OTHER_ACTION: u32 = 256;

/// What a node can be asked to do.
#[derive(Clone, Copy, Debug, PartialEq, Eq, Hash)]
pub struct Action(u32);

impl Action {
    pub const CLICK: Action = Action(0);
    pub const FOCUS: Action = Action(1);
    pub const INCREMENT: Action = Action(2);
    pub const DECREMENT: Action = Action(3);

    pub(crate) fn numbered(number: u32) -> Action {
        Action(number)
    }

    pub(crate) fn number(self) -> u32 {
        self.0
    }

    /// An action without a name, by a number of your own.
    pub const fn other(number: u8) -> Action {
        Action(OTHER_ACTION + number as u32)
    }
}

/// How a line above, through or below text is drawn.
#[derive(Clone, Copy, Debug, PartialEq, Eq, Hash)]
pub enum Style {
    Solid,
    Dotted,
    Dashed,
    Double,
    Wavy,
}

impl Style {
    pub(crate) fn numbered(number: u32) -> Option<Style> {
        [Style::Solid, Style::Dotted, Style::Dashed, Style::Double, Style::Wavy].get(usize::try_from(number).ok()?).copied()
    }
}

/// Whether a check box, a switch or a button is on.
#[derive(Clone, Copy, Debug, PartialEq, Eq, Hash)]
pub enum Toggled {
    True,
    False,
    Mixed,
}

/// How changes are announced.
#[derive(Clone, Copy, Debug, PartialEq, Eq, Hash)]
pub enum Live {
    Off,
    Polite,
    Assertive,
}

/// The axis along which a control lies.
#[derive(Clone, Copy, Debug, PartialEq, Eq, Hash)]
pub enum Orientation {
    Horizontal,
    Vertical,
}

/// How a column or a row is sorted.
#[derive(Clone, Copy, Debug, PartialEq, Eq, Hash)]
pub enum SortDirection {
    Ascending,
    Descending,
    Other,
}

/// As what the node is the current one of its set.
#[derive(Clone, Copy, Debug, PartialEq, Eq, Hash)]
pub enum AriaCurrent {
    False,
    True,
    Page,
    Step,
    Location,
    Date,
    Time,
}

/// What pops up from the node.
#[derive(Clone, Copy, Debug, PartialEq, Eq, Hash)]
pub enum HasPopup {
    Menu,
    Listbox,
    Tree,
    Grid,
    Dialog,
}

/// The direction of a text.
#[derive(Clone, Copy, Debug, PartialEq, Eq, Hash)]
pub enum TextDirection {
    LeftToRight,
    RightToLeft,
    TopToBottom,
    BottomToTop,
}

/// How a text is aligned.
#[derive(Clone, Copy, Debug, PartialEq, Eq, Hash)]
pub enum TextAlign {
    Left,
    Right,
    Center,
    Justify,
}

/// Whether a text is subscript or superscript.
#[derive(Clone, Copy, Debug, PartialEq, Eq, Hash)]
pub enum VerticalOffset {
    Subscript,
    Superscript,
}

/// A value of a field that has few: its type names the field.
pub trait Choice: Copy {
    /// The field that has such a value.
    const FIELD: Field;
    /// The value's number for C.
    fn number(self) -> u32;
    /// The value with this number.
    fn numbered(number: u32) -> Option<Self>;
}

macro_rules! choices {
    ($($name:ident { $($value:ident)* })*) => {
        $(impl Choice for $name {
            const FIELD: Field = Field::$name;
            fn number(self) -> u32 {
                self as u32
            }
            fn numbered(number: u32) -> Option<Self> {
                [$($name::$value),*].get(usize::try_from(number).ok()?).copied()
            }
        })*
    };
}

choices! {
    Toggled { True False Mixed }
    Live { Off Polite Assertive }
    Orientation { Horizontal Vertical }
    SortDirection { Ascending Descending Other }
    AriaCurrent { False True Page Step Location Date Time }
    HasPopup { Menu Listbox Tree Grid Dialog }
    TextDirection { LeftToRight RightToLeft TopToBottom BottomToTop }
    TextAlign { Left Right Center Justify }
    VerticalOffset { Subscript Superscript }
}
