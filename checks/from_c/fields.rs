//! The fields of a node by the calls that set them, for updates.rs: `tools/fields` writes this file.
use accesskit_proved::Field;

pub const TEXTS: &[Field] = &[
    Field::Label, Field::Value, Field::Description, Field::Placeholder, Field::RoleDescription, Field::Url, Field::AuthorId, Field::HtmlId,
    Field::ClassName, Field::BrailleLabel, Field::BrailleRoleDescription, Field::ColumnIndexText, Field::RowIndexText, Field::FontFamily,
    Field::Language,
];

pub const FLAGS: &[Field] = &[
    Field::Hidden, Field::Clips, Field::Disabled, Field::ReadOnly, Field::Required, Field::Modal, Field::Busy, Field::Multiselectable,
    Field::Italic, Field::LiveAtomic, Field::TouchTransparent,
];

pub const NUMBERS: &[Field] = &[
    Field::Number, Field::Min, Field::Max, Field::Step, Field::Jump, Field::ScrollX, Field::ScrollXMin, Field::ScrollXMax, Field::ScrollY,
    Field::ScrollYMin, Field::ScrollYMax,
];

pub const COUNTS: &[Field] = &[
    Field::FontSize, Field::FontWeight, Field::Level, Field::SetSize, Field::Position,
];

pub const BOOLS: &[Field] = &[
    Field::Expanded, Field::Selected,
];

pub const COLORS: &[Field] = &[
    Field::BackgroundColor, Field::ForegroundColor,
];

pub const DECORATIONS: &[Field] = &[
    Field::Overline, Field::Strikethrough, Field::Underline,
];

/// Each field with its name in a script.
#[allow(dead_code)]
pub const FIELDS: &[(&str, Field)] = &[
    ("children", Field::Children),
    ("labelled", Field::Labelled),
    ("controls", Field::Controls),
    ("tree", Field::Tree),
    ("active", Field::Active),
    ("label", Field::Label),
    ("value", Field::Value),
    ("description", Field::Description),
    ("placeholder", Field::Placeholder),
    ("role_description", Field::RoleDescription),
    ("url", Field::Url),
    ("author_id", Field::AuthorId),
    ("html_id", Field::HtmlId),
    ("class_name", Field::ClassName),
    ("braille_label", Field::BrailleLabel),
    ("braille_role_description", Field::BrailleRoleDescription),
    ("column_index_text", Field::ColumnIndexText),
    ("row_index_text", Field::RowIndexText),
    ("font_family", Field::FontFamily),
    ("language", Field::Language),
    ("hidden", Field::Hidden),
    ("clips", Field::Clips),
    ("disabled", Field::Disabled),
    ("read_only", Field::ReadOnly),
    ("required", Field::Required),
    ("modal", Field::Modal),
    ("busy", Field::Busy),
    ("multiselectable", Field::Multiselectable),
    ("italic", Field::Italic),
    ("live_atomic", Field::LiveAtomic),
    ("touch_transparent", Field::TouchTransparent),
    ("bounds", Field::Bounds),
    ("move", Field::Move),
    ("selection", Field::Selection),
    ("chars", Field::Chars),
    ("words", Field::Words),
    ("character_positions", Field::CharacterPositions),
    ("character_widths", Field::CharacterWidths),
    ("prev", Field::Prev),
    ("next", Field::Next),
    ("toggled", Field::Toggled),
    ("expanded", Field::Expanded),
    ("selected", Field::Selected),
    ("live", Field::Live),
    ("orientation", Field::Orientation),
    ("sort_direction", Field::SortDirection),
    ("aria_current", Field::AriaCurrent),
    ("has_popup", Field::HasPopup),
    ("font_size", Field::FontSize),
    ("font_weight", Field::FontWeight),
    ("background_color", Field::BackgroundColor),
    ("foreground_color", Field::ForegroundColor),
    ("overline", Field::Overline),
    ("strikethrough", Field::Strikethrough),
    ("underline", Field::Underline),
    ("text_direction", Field::TextDirection),
    ("text_align", Field::TextAlign),
    ("vertical_offset", Field::VerticalOffset),
    ("number", Field::Number),
    ("min", Field::Min),
    ("max", Field::Max),
    ("step", Field::Step),
    ("jump", Field::Jump),
    ("level", Field::Level),
    ("set_size", Field::SetSize),
    ("position", Field::Position),
    ("scroll_x", Field::ScrollX),
    ("scroll_x_min", Field::ScrollXMin),
    ("scroll_x_max", Field::ScrollXMax),
    ("scroll_y", Field::ScrollY),
    ("scroll_y_min", Field::ScrollYMin),
    ("scroll_y_max", Field::ScrollYMax),
    ("actions", Field::Actions),
    ("child_actions", Field::ChildActions),
];
