//! Reads every field of the nodes of a script: `read_fields SCRIPT` prints what read_fields.py prints.
mod fields;

use accesskit_proved::{
    Action, AriaCurrent, Error, Field, HasPopup, Id, Live, Orientation, Place, SortDirection, Style, TextAlign, TextDirection, Toggled, Tree, VerticalOffset,
};

fn quoted(text: &str) -> String {
    format!("\"{}\"", text.replace('\\', "\\\\").replace('"', "\\\"").replace('\n', "\\n"))
}

fn list<T: ToString>(values: Vec<T>) -> Option<String> {
    let words = values.iter().map(T::to_string).collect::<Vec<_>>().join(",");
    (!words.is_empty()).then_some(words)
}

/// The name of a value, as a script has it.
fn snake<T: std::fmt::Debug>(value: T) -> String {
    let mut word = String::new();
    for letter in format!("{value:?}").chars() {
        if letter.is_uppercase() && !word.is_empty() {
            word.push('_');
        }
        word.extend(letter.to_lowercase());
    }
    word
}

fn action(action: Action) -> String {
    match [Action::CLICK, Action::FOCUS, Action::INCREMENT, Action::DECREMENT].iter().position(|it| *it == action) {
        Some(at) => ["Click", "Focus", "Increment", "Decrement"][at].into(),
        None => (0..=255).find(|it| Action::other(*it) == action).map_or("none".into(), |it| format!("Other({it})")),
    }
}

fn place(place: Place) -> String {
    format!("{}:{}", place.run, place.character)
}

fn uuid(bytes: [u8; 16]) -> String {
    let digits: String = bytes.iter().map(|byte| format!("{byte:02x}")).collect();
    [&digits[..8], &digits[8..12], &digits[12..16], &digits[16..20], &digits[20..]].join("-")
}

fn style(line: (Style, accesskit_proved::Color)) -> String {
    format!("{},{},{},{},{}", snake(line.0), line.1.red, line.1.green, line.1.blue, line.1.alpha)
}

/// The value of a field, as a line has it; the call for its kind is the one that answers.
fn value(tree: &mut Tree, id: Id, field: Field) -> Result<Option<String>, Error> {
    Ok(match field {
        Field::Toggled => tree.field_choice::<Toggled>(id)?.map(snake),
        Field::Live => tree.field_choice::<Live>(id)?.map(snake),
        Field::Orientation => tree.field_choice::<Orientation>(id)?.map(snake),
        Field::SortDirection => tree.field_choice::<SortDirection>(id)?.map(snake),
        Field::AriaCurrent => tree.field_choice::<AriaCurrent>(id)?.map(snake),
        Field::HasPopup => tree.field_choice::<HasPopup>(id)?.map(snake),
        Field::TextDirection => tree.field_choice::<TextDirection>(id)?.map(snake),
        Field::TextAlign => tree.field_choice::<TextAlign>(id)?.map(snake),
        Field::VerticalOffset => tree.field_choice::<VerticalOffset>(id)?.map(snake),
        Field::Tree => tree.field_graft(id)?.map(uuid),
        Field::Bounds => tree.field_bounds(id)?.map(|it| format!("{},{},{},{}", it.x0, it.y0, it.x1, it.y1)),
        Field::Move => tree.field_shift(id)?.map(|it| format!("{},{}", it.x, it.y)),
        Field::Selection => tree.field_selection(id)?.map(|(anchor, focus)| format!("{},{}", place(anchor), place(focus))),
        Field::CharacterPositions | Field::CharacterWidths => {
            tree.field_units(id, field)?.map(|units| list(units).unwrap_or("-".into()))
        }
        Field::Children | Field::Labelled | Field::Controls => list(tree.field_ids(id, field)?),
        Field::Chars | Field::Words => list(tree.field_numbers(id, field)?),
        Field::Actions | Field::ChildActions => list(tree.field_actions(id, field)?.into_iter().map(action).collect()),
        Field::Active | Field::Prev | Field::Next => tree.field_id(id, field)?.map(|it| it.to_string()),
        _ if fields::TEXTS.contains(&field) => tree.field_text(id, field)?.map(|it| quoted(&it)),
        _ if fields::NUMBERS.contains(&field) => tree.field_number(id, field)?.map(|it| it.to_string()),
        _ if fields::COUNTS.contains(&field) => tree.field_count(id, field)?.map(|it| it.to_string()),
        _ if fields::BOOLS.contains(&field) => tree.field_flag(id, field)?.map(|it| it.to_string()),
        _ if fields::COLORS.contains(&field) => tree.field_color(id, field)?.map(|it| format!("{},{},{},{}", it.red, it.green, it.blue, it.alpha)),
        _ if fields::DECORATIONS.contains(&field) => tree.field_decoration(id, field)?.map(style),
        _ => None,
    })
}

fn line(tree: &mut Tree, id: Id) -> Result<String, Error> {
    let mut words = vec![format!("node {} {}", id.node, tree.role(id)?)];
    for (name, field) in fields::FIELDS {
        if fields::FLAGS.contains(field) {
            words.extend((tree.field_flag(id, *field)? == Some(true)).then(|| name.to_string()));
        } else {
            words.extend(value(tree, id, *field)?.map(|value| format!("{name}={value}")));
        }
    }
    Ok(words.join(" "))
}

fn all(script: &str) -> Result<(), Error> {
    let mut tree = Tree::new()?;
    tree.feed(script)?;
    for id in (1..7).map(|node| Id { node, tree: 0 }).chain([Id { node: 1, tree: 1 }]) {
        println!("{}", line(&mut tree, id)?);
    }
    Ok(())
}

fn main() -> Result<(), Box<dyn std::error::Error>> {
    let script = std::env::args().nth(1).ok_or("read_fields SCRIPT")?;
    Ok(all(&std::fs::read_to_string(script)?)?)
}
