//! Reads what the library computes by the calls of the crate for Rust: `computed SCRIPT` prints computed.told.
use accesskit_proved::{
    Action, Bounds, Choice, Color, Defect, Error, Filter, Flag, Id, Move, Point, Position, Role, Span, Spot, Style, StyleValue, Test, TextStyle, Tree, TreeName,
    Unit, Wanted,
};
use std::fmt::Debug;

const GRAFTED: [u8; 16] = [0, 0, 0, 0, 0, 0, 0, 0, 0, 0, 0, 0, 0, 0, 0, 7];
const OTHER: [u8; 16] = [0, 0, 0, 0, 0, 0, 0, 0, 0, 0, 0, 0, 0, 0, 0, 8];
const TEXT: Id = node(30);
const FLAGS: [Flag; 34] = [
    Flag::Hidden, Flag::Disabled, Flag::Busy, Flag::Modal, Flag::Required, Flag::Multiselectable, Flag::LiveAtomic, Flag::TouchTransparent,
    Flag::ClipsChildren, Flag::Italic, Flag::ReadOnly, Flag::ReadOnlySupported, Flag::TextInput, Flag::Multiline, Flag::PasswordInput,
    Flag::Dialog, Flag::ItemLike, Flag::Graft, Flag::Selectable, Flag::SupportsToggle, Flag::SupportsExpandCollapse, Flag::SupportsUrl,
    Flag::SupportsTextRanges, Flag::Focusable, Flag::Clickable, Flag::SupportsIncrement, Flag::SupportsDecrement, Flag::Invocable,
    Flag::LabelComesFromValue, Flag::ContainerWithSelectableChildren, Flag::ReadOnlyByDefault, Flag::ReadOnlyOrDisabled, Flag::HasLabel,
    Flag::HasValue,
];
const TESTS: [Test; 11] = [
    Test::CharacterAfter, Test::CharacterBefore, Test::FormatStart, Test::WordStart, Test::LineStart, Test::LineEnd, Test::ParagraphStart,
    Test::ParagraphEnd, Test::ParagraphSeparator, Test::DocumentStart, Test::DocumentEnd,
];
const STYLES: [TextStyle; 13] = [
    TextStyle::TextDirection, TextStyle::FontFamily, TextStyle::Language, TextStyle::FontSize, TextStyle::FontWeight, TextStyle::BackgroundColor,
    TextStyle::ForegroundColor, TextStyle::Overline, TextStyle::Strikethrough, TextStyle::Underline, TextStyle::TextAlign,
    TextStyle::VerticalOffset, TextStyle::Italic,
];
const INDEX: Wanted = Wanted { index: true, ..Wanted::NONE };

const fn node(number: u64) -> Id {
    Id { node: number, tree: 0 }
}

fn nodes() -> Vec<Id> {
    let inner = [1, 3].map(|number| Id { node: number, tree: 1 });
    [1, 2, 3, 4, 5, 6, 10, 20, 21, 22, 23, 24, 30, 32, 50].map(node).into_iter().chain(inner).collect()
}

/// What a script has for a name of the crate: `WordStart` is `word_start`.
fn snake(value: impl Debug) -> String {
    let mut word = String::new();
    for letter in format!("{value:?}").chars() {
        if letter.is_uppercase() && !word.is_empty() {
            word.push('_');
        }
        word.extend(letter.to_lowercase());
    }
    word
}

fn name(id: Id) -> String {
    if id.tree == 0 { id.node.to_string() } else { format!("{}:{}", id.tree, id.node) }
}

fn or_none(said: Option<String>) -> String {
    said.unwrap_or("none".into())
}

fn named(id: Option<Id>) -> String {
    or_none(id.map(name))
}

fn names(ids: Vec<Id>) -> String {
    if ids.is_empty() { "-".into() } else { joined(ids.into_iter().map(name)) }
}

fn joined(words: impl IntoIterator<Item = String>) -> String {
    words.into_iter().collect::<Vec<_>>().join(" ")
}

fn yes(said: bool) -> String {
    if said { "yes" } else { "no" }.into()
}

fn place(at: Position) -> String {
    format!("{}:{}{} ({} {} {})", at.run, at.character, if at.is_end { " end" } else { "" }, at.index, at.utf16_index, at.line)
}

fn point(at: Point) -> String {
    format!("{} {}", at.x, at.y)
}

fn defect(found: Defect) -> String {
    format!("{} {} {}", snake(found.rule), name(found.run), found.link)
}

/// A property of how text looks, by the numbers that C has: of a choice or of a line's style its place, and a colour.
fn looks(value: Option<StyleValue>) -> String {
    let record = |number: u32, it: Color| format!("{number} {} {} {} {}", it.red, it.green, it.blue, it.alpha);
    let number = |number: u32| record(number, Color::default());
    let line = |style: Style, color: Color| record(style as u32, color);
    or_none(value.map(|value| match value {
        StyleValue::TextDirection(it) => number(it.number()),
        StyleValue::TextAlign(it) => number(it.number()),
        StyleValue::VerticalOffset(it) => number(it.number()),
        StyleValue::FontFamily(text) | StyleValue::Language(text) => text,
        StyleValue::FontSize(it) | StyleValue::FontWeight(it) => number(it),
        StyleValue::Italic(it) => number(it.into()),
        StyleValue::BackgroundColor(color) | StyleValue::ForegroundColor(color) => record(0, color),
        StyleValue::Overline(style, color) | StyleValue::Strikethrough(style, color) | StyleValue::Underline(style, color) => line(style, color),
    }))
}

/// What each node has for an answer, if it has one.
fn values(what: &str, mut call: impl FnMut(Id) -> Result<Option<String>, Error>) -> Result<(), Error> {
    let mut words = String::new();
    for id in nodes() {
        if let Some(value) = call(id)? {
            words += &format!(" {}={value}", name(id));
        }
    }
    println!("{what}:{words}");
    Ok(())
}

fn of_nodes(tree: &mut Tree) -> Result<(), Error> {
    let common = Filter::Common;
    values("toggled", |id| Ok(tree.toggled(id)?.map(snake)))?;
    values("selected", |id| Ok(tree.is_selected(id)?.map(yes)))?;
    values("orientation", |id| Ok(tree.orientation(id)?.map(snake)))?;
    values("live", |id| Ok(Some(snake(tree.live(id)?))))?;
    values("children", |id| Ok(Some(tree.child_count(id)?.to_string())))?;
    values("index", |id| Ok(tree.index_in_parent(id)?.map(|it| it.to_string())))?;
    values("filtered_children", |id| Ok(Some(tree.filtered_child_count(id, common)?.to_string())))?;
    values("filtered_index", |id| Ok(tree.filtered_index(id, common)?.map(|it| it.to_string())))?;
    values("set_size", |id| Ok(tree.set_size(id, common)?.map(|it| it.to_string())))?;
    values("set_position", |id| Ok(tree.position_in_set(id, common)?.map(|it| it.to_string())))?;
    values("container_set_size", |id| Ok(tree.size_of_set_from_container(id, common)?.map(|it| it.to_string())))?;
    let all = (tree.filtered_child_count(node(2), Filter::All)?, tree.filtered_index(node(6), Filter::All)?.unwrap_or_default());
    println!("filtered children of 2, all: {}  index of 6, all: {}", all.0, all.1);
    let shown: Result<Vec<_>, Error> = (0..4).map(|at| tree.child_at(node(2), at, common).map(named)).collect();
    println!("children of 2: {} all: {}", shown?.join(" "), named(tree.child_at(node(2), 3, Filter::All)?));
    values("active_descendant", |id| Ok(tree.active_descendant(id)?.map(name)))?;
    values("deepest_first_child", |id| Ok(tree.deepest_first_child(id)?.map(name)))?;
    values("deepest_last_child", |id| Ok(tree.deepest_last_child(id)?.map(name)))?;
    values("selection_container", |id| Ok(tree.selection_container(id, common)?.map(name)))
}

fn of_lists(tree: &mut Tree) -> Result<(), Error> {
    let common = Filter::Common;
    for it in [10, 22, 21] {
        println!("labelled_by {it}: {}", names(tree.labelled_by(node(it))?));
    }
    println!("controls 10: {}", names(tree.controls(node(10))?));
    println!("items 2: {}", names(tree.items(node(2), common)?));
    println!("preceding_siblings 5: {}", names(tree.preceding_siblings(node(5))?));
    println!("following_siblings 3: {}", names(tree.following_siblings(node(3))?));
    println!("preceding_filtered_siblings 5: {}", names(tree.preceding_filtered_siblings(node(5), common)?));
    println!("following_filtered_siblings 3: {}", names(tree.following_filtered_siblings(node(3), common)?));
    println!("descendants 20: {}", names(tree.descendants(node(20))?));
    println!("filtered_descendants 20: {}", names(tree.filtered_descendants(node(20), common)?));
    let absent = match tree.descendants(node(99)) {
        Err(Error::NoNode) => "none".into(),
        other => names(other?),
    };
    println!("items 2, all: {}  descendants of 99: {absent}", names(tree.items(node(2), Filter::All)?));
    let mut words = String::new();
    for (it, word, action) in [
        (10, "Click", Action::CLICK),
        (22, "Focus", Action::FOCUS),
        (22, "7", Action::other(7)),
        (22, "8", Action::other(8)),
        (22, "Click", Action::CLICK),
    ] {
        words += &format!(" {it} {word} {}", yes(tree.supports_action(node(it), action, common)?));
    }
    println!("actions:{words}");
    let shifts: Result<Vec<_>, Error> = [1, 20, 24].iter().map(|it| Ok(format!("{it}={}", point(tree.transform(node(*it))?)))).collect();
    println!("transform: {}  point: {}", shifts?.join(" "), point(tree.own_point(node(24), 110, -40)?));
    Ok(())
}

fn of_flags(tree: &mut Tree) -> Result<(), Error> {
    let mut each = |id, flags: &[Flag]| -> Result<Vec<Flag>, Error> {
        let mut set = Vec::new();
        for flag in flags {
            set.extend(tree.flag(id, *flag)?.then_some(*flag));
        }
        Ok(set)
    };
    let words = |flags: &[Flag]| joined(flags.iter().map(snake));
    let (shown, new, list) = (each(node(10), &FLAGS)?, each(node(11), &FLAGS[28..])?, each(node(2), &FLAGS[28..])?);
    println!("flags of 10: {}  the same at once: {}", words(&shown), yes(tree.flags(node(10), &FLAGS)? == shown));
    let two = tree.flags(node(10), &[Flag::ReadOnly, Flag::Hidden])?;
    println!("of these two: {}  none of none: {}", words(&two), yes(tree.flags(node(10), &[])?.is_empty()));
    println!("flags of 11: {}  of 2: {}", words(&new), words(&list));
    Ok(())
}

fn focus(tree: &mut Tree) -> Result<(), Error> {
    let (now, declared) = (named(tree.focus()?), named(tree.declared_focus()?));
    println!("focus: {now}  declared: {declared}  host: {}  dialog: {}", or_none(tree.is_host_focused()?.map(yes)), named(tree.active_dialog()?));
    Ok(())
}

fn of_the_tree(tree: &mut Tree) -> Result<(), Error> {
    focus(tree)?;
    let inner = tree.tree_id(Id { node: 3, tree: 1 })?;
    let is_root = yes(tree.tree_id(node(1))? == [0; 16]);
    let mut roots = Vec::new();
    for it in [TreeName::Uuid(GRAFTED), TreeName::Root, TreeName::Uuid(OTHER)] {
        roots.push(named(tree.subtree_root(it)?));
    }
    let toolkit = format!("{} {}", or_none(tree.toolkit_name()?), or_none(tree.toolkit_version()?));
    println!("toolkit: {toolkit}  trees: {:02x}{:02x} {is_root} {}", inner[14], inner[15], roots.join(" "));
    let roles = [tree.role(node(2))?, Role::UNKNOWN, tree.role(node(50))?];
    println!("roles: {}", joined(roles.into_iter().map(Role::full_name)));
    tree.set_host_focus(false)?;
    focus(tree)?;
    tree.set_host_focus(true)
}

fn of_positions(tree: &mut Tree) -> Result<(), Error> {
    let length = |it: Option<usize>| or_none(it.map(|it| it.to_string()));
    let lengths = format!("{} {}", length(tree.text_length(TEXT)?), length(tree.text_length(node(40))?));
    let mut defects = Vec::new();
    for it in [30, 40, 50] {
        defects.push(or_none(tree.text_defect(node(it))?.map(defect)));
    }
    println!("length: {lengths}  defects: {}", defects.join(" "));
    let mut at = |spot: Spot, wanted| Ok::<_, Error>(or_none(tree.text_place(TEXT, spot, wanted)?.map(place)));
    for it in [0, 1, 4, 7, 8] {
        println!("at {it}: {}  end side: {}", at(it.into(), Wanted::ALL)?, at(Spot::Index(it, true), Wanted::ALL)?);
    }
    let line = Wanted { line: true, ..Wanted::NONE };
    println!("at 9: {}  only its line: {}", at(9.into(), Wanted::ALL)?, at(7.into(), line)?);
    for it in [8, 9, 10] {
        println!("utf16 {it}: {}", at(Spot::Utf16Index(it), Wanted::ALL)?);
    }
    for (run, character) in [(32, 1), (32, 3), (34, 0)] {
        println!("run {run}:{character}: {}", at(Spot::Run(run, character), Wanted::ALL)?);
    }
    for (x, y) in [(250, 50), (10, 150), (900, 50)] {
        println!("point {x} {y}: {}", at(Spot::Point(x, y), Wanted::ALL)?);
    }
    for (what, spot) in [("end", Spot::End), ("anchor", Spot::SelectionAnchor), ("focus", Spot::SelectionFocus)] {
        println!("{what}: {}", at(spot, Wanted::ALL)?);
    }
    Ok(())
}

fn span(found: Option<Span>) -> String {
    or_none(found.map(|it| format!("{} to {}", place(it.start), place(it.end))))
}

fn of_units(tree: &mut Tree) -> Result<(), Error> {
    for unit in [Unit::Character, Unit::Format, Unit::Word, Unit::Line, Unit::Paragraph, Unit::Page] {
        let mut words = Vec::new();
        for at in 0..9 {
            words.push(or_none(tree.text_unit(TEXT, at, unit, INDEX)?.map(|it| format!("{}-{}", it.start.index, it.end.index))));
        }
        println!("{}: {}", snake(unit), words.join(" "));
    }
    println!("format before 4: {}", span(tree.text_unit(TEXT, Spot::Index(4, true), Unit::Format, INDEX)?));
    for line in 0..4 {
        println!("line {line}: {}", span(tree.text_line(TEXT, line, Wanted::ALL)?));
    }
    let caret = tree.text_place(TEXT, Spot::SelectionFocus, Wanted::ALL)?.unwrap_or_default();
    println!("next word from the caret: {}", or_none(tree.text_moved(TEXT, caret, Move::ForwardToWordStart, Wanted::ALL)?.map(place)));
    for test in TESTS {
        let mut words = String::new();
        for at in 0..9 {
            if tree.text_test(TEXT, at, test)? == Some(true) {
                words += &format!(" {at}");
            }
        }
        println!("{}:{words}", snake(test));
    }
    for (from, to) in [(1, 5), (2, 2), (6, 8), (5, 1)] {
        let boxes = tree.text_boxes(TEXT, from, to)?.unwrap_or_default();
        let words: Vec<_> = boxes.iter().map(|Bounds { x0, y0, x1, y1 }| format!("{x0} {y0} {x1} {y1}")).collect();
        println!("boxes {from} {to}: {}", words.join(", "));
    }
    Ok(())
}

fn of_styles(tree: &mut Tree) -> Result<(), Error> {
    for style in STYLES {
        let mut values = Vec::new();
        for at in [0, 4, 7] {
            values.push(looks(tree.text_style(TEXT, at, style)?));
        }
        let mut mixed = Vec::new();
        for end in [3, 8] {
            mixed.push(or_none(tree.text_differs(TEXT, 0, end, style)?.map(yes)));
        }
        println!("{}: {}  of the node: {}  differs: {}", snake(style), values.join(" | "), looks(tree.style(TEXT, style)?), mixed.join(" "));
    }
    Ok(())
}

fn main() -> Result<(), Box<dyn std::error::Error>> {
    let script = std::env::args().nth(1).ok_or("computed SCRIPT")?;
    let mut tree = Tree::new()?;
    tree.feed(&std::fs::read_to_string(script)?)?;
    for part in [of_nodes, of_lists, of_flags, of_the_tree, of_positions, of_units, of_styles] {
        part(&mut tree)?;
    }
    Ok(())
}
