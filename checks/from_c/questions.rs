//! Answers the questions of a script by the calls of the crate, as `atree` does: `questions SCRIPT`.
use accesskit_proved::{Error, Filter, Id, Move, Position, Tree};

fn named(id: Option<Id>) -> String {
    id.map_or("none".to_string(), |id| format!("{}:{}", id.tree, id.node))
}

fn names(ids: Vec<Id>) -> String {
    let words: Vec<String> = ids.into_iter().map(|id| named(Some(id))).collect();
    if words.is_empty() { "-".to_string() } else { words.join(" ") }
}

fn quoted(text: Option<String>) -> String {
    text.map_or("none".to_string(), |text| format!("\"{}\"", text.replace('\\', "\\\\").replace('"', "\\\"").replace('\n', "\\n")))
}

fn number(number: Option<usize>) -> String {
    number.map_or("-".to_string(), |number| number.to_string())
}

fn filter(words: &[&str]) -> Filter {
    match words {
        ["all"] => Filter::All,
        ["common_with_root"] => Filter::CommonWithRoot,
        _ => Filter::Common,
    }
}

/// The movement, whose name in a script is that in Rust, in another case.
fn movement(word: &str) -> Move {
    let said = |movement: &&Move| {
        let name = format!("{movement:?}");
        let mut snake = String::new();
        for letter in name.chars() {
            if letter.is_uppercase() && !snake.is_empty() {
                snake.push('_');
            }
            snake.extend(letter.to_lowercase());
        }
        snake == word
    };
    *MOVES.iter().find(said).expect("a movement")
}

const MOVES: [Move; 20] = [
    Move::ForwardToCharacterStart,
    Move::ForwardToCharacterEnd,
    Move::BackwardToCharacterStart,
    Move::ForwardToFormatStart,
    Move::ForwardToFormatEnd,
    Move::BackwardToFormatStart,
    Move::ForwardToWordStart,
    Move::ForwardToWordEnd,
    Move::BackwardToWordStart,
    Move::ForwardToLineStart,
    Move::ForwardToLineEnd,
    Move::BackwardToLineStart,
    Move::ForwardToParagraphStart,
    Move::ForwardToParagraphEnd,
    Move::BackwardToParagraphStart,
    Move::ForwardToPageStart,
    Move::ForwardToPageEnd,
    Move::DocumentEnd,
    Move::BackwardToPageStart,
    Move::DocumentStart,
];

fn place(tree: &mut Tree, id: Id, index: &str, side: &str) -> Result<Option<Position>, Error> {
    tree.text_position(id, index.parse().expect("an index"), side == "end")
}

fn moved(tree: &mut Tree, id: Id, index: &str, side: &str, by: &str) -> Result<String, Error> {
    if place(tree, id, index, side)?.is_none() {
        return Ok("no text".to_string());
    }
    let to = tree.text_move(id, index.parse().expect("an index"), side == "end", movement(by))?;
    Ok(to.map_or("none".to_string(), |to| format!("{} {}", to.run, to.character)))
}

fn between(tree: &mut Tree, id: Id, words: [&str; 4]) -> Result<String, Error> {
    let [index, side, to, to_side] = words;
    if place(tree, id, index, side)?.is_none() || place(tree, id, to, to_side)?.is_none() {
        return Ok("no text".to_string());
    }
    let (from, to): (usize, usize) = (index.parse().expect("an index"), to.parse().expect("an index"));
    Ok(quoted(tree.text_between(id, from, to.max(from))?))
}

fn answer(tree: &mut Tree, question: &str, id: Id, words: &[&str]) -> Result<String, Error> {
    Ok(match (question, words) {
        ("children", _) => names(tree.children(id)?),
        ("following", _) => names(tree.following_siblings(id)?),
        ("preceding", _) => names(tree.preceding_siblings(id)?),
        ("filtered", by) => names(tree.filtered_children(id, filter(by))?),
        ("following_filtered", by) => names(tree.following_filtered_siblings(id, filter(by))?),
        ("preceding_filtered", by) => names(tree.preceding_filtered_siblings(id, filter(by))?),
        ("set", by) => format!("{} {}", number(tree.set_size(id, filter(by))?), number(tree.position_in_set(id, filter(by))?)),
        ("hit", [x, y, by @ ..]) => named(tree.hit(id, x.parse().expect("a number"), y.parse().expect("a number"), filter(by))?),
        ("label", _) => quoted(tree.label(id)?),
        ("value", _) => quoted(tree.value(id)?),
        ("text", _) => quoted(tree.text(id)?),
        ("move", [index, side, by]) => moved(tree, id, index, side, by)?,
        ("indexes", [index, side]) => {
            let at = place(tree, id, index, side)?;
            at.map_or("no text".to_string(), |at| format!("{} {} {}", at.index, at.utf16_index, at.line))
        }
        ("between", [index, side, to, to_side]) => between(tree, id, [index, side, to, to_side])?,
        _ => panic!("no question: {question} {words:?}"),
    })
}

const QUESTIONS: [&str; 14] = [
    "children", "following", "preceding", "filtered", "following_filtered", "preceding_filtered", "set", "hit", "label", "value", "text", "move",
    "indexes", "between",
];

fn main() -> Result<(), Error> {
    let path = std::env::args().nth(1).expect("a script");
    let script = std::fs::read_to_string(path).expect("the script can be read");
    let mut tree = Tree::new()?;
    tree.feed(&script)?;
    for line in script.lines() {
        let words: Vec<&str> = line.split(' ').collect();
        if !QUESTIONS.contains(&words[0]) {
            continue;
        }
        // (questions are asked of the root tree, or of the one with the index 1)
        let id = Id { node: words[1].parse().expect("a node"), tree: u32::from(words[2] != "root") };
        match answer(&mut tree, words[0], id, &words[3..]) {
            Err(Error::NoNode) => println!("no node"),
            answer => println!("{}", answer?),
        }
    }
    Ok(())
}
