//! Readings of a text, which has so many runs of so many characters each; each run is a line, and a word starts with it.
//!
//! `support` asks whether it is a text, and so does each of the others first, but for `label`. `words` goes from word start to
//! word start through the text; `text` makes the text of the whole document; `lines` goes over the ranges of all lines;
//! `lines-by-index` asks for the range of each line by its number, and `lines-onwards` does so of lines where each search
//! goes on from the one that was found last; `units` asks for a hundred positions by their indexes in
//! UTF-16; `label` makes a label of ten parts. `pieces` passes the pieces of the whole document to a function, and
//! `masked-pieces` those of a password; `boxes` asks for the document's boxes, and `properties` for the size of its font. With
//! the shape `images` as many images follow the runs, with `chain` the runs stand at the end of a chain of as many groups; such
//! runs have rectangles, places and widths of characters, and a size.

use accesskit_consumer::{
    NodeRef, NodeText, TextIndexes, TextPlaces, TextRangePropertyValue, TextRoot, Tree,
};
use schema::{Node, NodeId, Rect, Role, TextDirection, TreeId, TreeInfo, TreeUpdate};
use std::alloc::{AllocError, Global};

/// How many parts the label has.
const PARTS: u64 = 10;

/// The size of the font of runs that are laid out, in hundredths of a pixel.
const SIZE: u32 = 1600;

/// What stands beside the runs.
#[derive(Clone, Copy)]
pub enum Shape {
    Alone,
    /// As many images follow them.
    Images,
    /// They stand at the end of a chain of as many groups.
    Chain,
}

/// A text, or a password, of so many runs of so many characters each.
#[derive(Clone, Copy)]
pub struct Text {
    pub runs: u64,
    pub characters: usize,
    pub shape: Shape,
}

/// A run of so many characters of one byte.
fn run(alloc: Global, characters: usize) -> Result<Node, AllocError> {
    let mut value = String::new(alloc);
    let mut lengths = Vec::new(alloc);
    for index in 0..characters {
        value.push(if index.saturating_add(1) == characters {
            ' '
        } else {
            'a'
        })?;
        lengths.push(1u16)?;
    }
    let mut node = Node::new(alloc, Role::TextRun);
    node.set_value(&value)?;
    node.set_character_lengths(&lengths)?;
    node.set_word_starts(&[0])?;
    node.set_text_direction(TextDirection::LeftToRight);
    Ok(node)
}

/// The same, with a place for each character.
fn laid_out(alloc: Global, characters: usize) -> Result<Node, AllocError> {
    let mut node = run(alloc, characters)?;
    let mut places = Vec::new(alloc);
    let mut widths = Vec::new(alloc);
    for index in 0..characters {
        places.push(i32::try_from(index).unwrap_or(0))?;
        widths.push(1i32)?;
    }
    node.set_character_positions(&places)?;
    node.set_character_widths(&widths)?;
    node.set_bounds(Rect::new(0, 0, 100, 10));
    node.set_font_size(SIZE);
    Ok(node)
}

/// A node of the role with these children.
fn parent(alloc: Global, role: Role, children: &[NodeId]) -> Result<Node, AllocError> {
    let mut node = Node::new(alloc, role);
    node.set_children(children)?;
    Ok(node)
}

/// A label of one word.
fn part(alloc: Global) -> Result<Node, AllocError> {
    let mut node = Node::new(alloc, Role::Label);
    node.set_value("part")?;
    Ok(node)
}

/// A tree whose focus is on its root.
fn tree_of(alloc: Global, mut nodes: Vec<(NodeId, Node)>, root: Node) -> anyhow::Result<Tree> {
    nodes.push((NodeId(0), root))?;
    let update = TreeUpdate {
        nodes,
        tree: Some(TreeInfo::new(NodeId(0))),
        tree_id: TreeId::root(),
        focus: NodeId(0),
    };
    Ok(Tree::new(alloc, update, true)?)
}

/// The tree of a check box that labels name.
fn named(alloc: Global) -> anyhow::Result<Tree> {
    let mut nodes = Vec::new(alloc);
    let mut labels = Vec::new(alloc);
    for number in 1..=PARTS {
        labels.push(NodeId(number))?;
        nodes.push((NodeId(number), part(alloc)?))?;
    }
    let mut root = parent(alloc, Role::CheckBox, &labels)?;
    root.set_labelled_by(&labels)?;
    tree_of(alloc, nodes, root)
}

/// The tree of a text.
fn text_tree(alloc: Global, role: Role, text: Text) -> anyhow::Result<Tree> {
    let Text {
        runs: count,
        characters,
        shape,
    } = text;
    let mut nodes = Vec::new(alloc);
    let mut runs = Vec::new(alloc);
    let mut images = Vec::new(alloc);
    for number in 1..=count {
        runs.push(NodeId(number))?;
        let node = match shape {
            Shape::Alone => run(alloc, characters)?,
            Shape::Images | Shape::Chain => laid_out(alloc, characters)?,
        };
        nodes.push((NodeId(number), node))?;
    }
    for number in 1..=count {
        let id = NodeId(count.saturating_add(number));
        match shape {
            Shape::Alone => {}
            Shape::Images => {
                images.push(id)?;
                nodes.push((id, Node::new(alloc, Role::Image)))?;
            }
            Shape::Chain => {
                let below = [NodeId(id.0.saturating_add(1))];
                let below = if number == count {
                    &runs
                } else {
                    below.as_slice()
                };
                nodes.push((id, parent(alloc, Role::GenericContainer, below)?))?;
            }
        }
    }
    let root = match shape {
        Shape::Chain => parent(alloc, role, &[NodeId(count.saturating_add(1))])?,
        Shape::Alone | Shape::Images => {
            runs.append(&mut images)?;
            parent(alloc, role, &runs)?
        }
    };
    tree_of(alloc, nodes, root)
}

/// How many word starts there are past the first.
fn words(root: &NodeRef) -> u64 {
    if !root.supports_text_ranges() {
        return 0;
    }
    let end = root.document_end();
    let mut position = root.document_start();
    let mut count = 0u64;
    for _ in 0..u64::MAX {
        position = position.forward_to_word_start();
        if position == end {
            break;
        }
        count = count.saturating_add(1);
    }
    count
}

/// How many bytes the text of the document has.
fn whole_text(alloc: Global, root: &NodeRef) -> Result<u64, AllocError> {
    if !root.supports_text_ranges() {
        return Ok(0);
    }
    let text = root.document_range().text(alloc)?;
    Ok(text.len() as u64)
}

/// How many bytes the pieces of the document have that are passed to a function.
fn pieces(alloc: Global, root: &NodeRef) -> Result<u64, AllocError> {
    if !root.supports_text_ranges() {
        return Ok(0);
    }
    let mut sum = 0u64;
    root.document_range()
        .traverse_text(alloc, |_: &NodeRef<'_>, piece: &str| {
            sum = sum.saturating_add(piece.len() as u64);
            None::<u64>
        })?;
    Ok(sum)
}

/// How many boxes the document has.
fn boxes(alloc: Global, root: &NodeRef) -> Result<u64, AllocError> {
    if !root.supports_text_ranges() {
        return Ok(0);
    }
    let boxes = root.document_range().bounding_boxes(alloc)?;
    Ok(boxes.len() as u64)
}

/// The size of the document's font, if there is one.
fn properties(root: &NodeRef) -> u64 {
    if !root.supports_text_ranges() {
        return 0;
    }
    match root.document_range().font_size() {
        TextRangePropertyValue::Single(Some(size)) => u64::from(size),
        _ => 0,
    }
}

/// How many lines there are, by their ends.
fn lines(root: &NodeRef) -> u64 {
    if !root.supports_text_ranges() {
        return 0;
    }
    let end = root.document_end();
    let mut start = root.document_start();
    let mut count = 0u64;
    for _ in 0..u64::MAX {
        let mut range = start.to_degenerate_range();
        let line_end = start.forward_to_line_end();
        range.set_end(line_end);
        if range.is_degenerate() {
            break;
        }
        count = count.saturating_add(1);
        if line_end == end {
            break;
        }
        start = line_end.forward_to_line_start();
    }
    count
}

/// How many lines there are, by their numbers.
fn lines_by_index(root: &NodeRef) -> u64 {
    if !root.supports_text_ranges() {
        return 0;
    }
    let mut count = 0u64;
    for index in 0..usize::MAX {
        match root.line_range_from_index(index) {
            Some(range) if !range.is_degenerate() => count = count.saturating_add(1),
            _ => break,
        }
    }
    count
}

/// The same, where each search goes on from the line that was found last.
fn lines_onwards(root: &NodeRef) -> u64 {
    let Some(text) = root.text() else {
        return 0;
    };
    let mut lines = text.lines();
    let mut count = 0u64;
    for index in 0..usize::MAX {
        match lines.line(index) {
            Some(range) if !range.is_degenerate() => count = count.saturating_add(1),
            _ => break,
        }
    }
    count
}

/// The sum of the indexes, in their runs, of a hundred positions.
fn units(root: &NodeRef, total: usize) -> u64 {
    if !root.supports_text_ranges() {
        return 0;
    }
    let mut sum = 0u64;
    for part in 0..100usize {
        let unit = (total.saturating_mul(part) / 100).saturating_add(7);
        if let Some(position) = root.text_position_from_global_utf16_index(unit) {
            sum = sum.saturating_add(position.to_raw().character_index as u64);
        }
    }
    sum
}

/// How many bytes the label has.
fn label(alloc: Global, root: &NodeRef) -> Result<u64, AllocError> {
    let label = root.label(alloc)?;
    Ok(label.map_or(0, |label| label.len() as u64))
}

/// The shape that a word of the command line names: the runs stand alone where there is none.
pub fn shape_of(word: Option<String>) -> anyhow::Result<Shape> {
    let Some(word) = word else {
        return Ok(Shape::Alone);
    };
    match word.as_str() {
        "images" => Ok(Shape::Images),
        "chain" => Ok(Shape::Chain),
        _ => anyhow::bail!("the shape is images or chain"),
    }
}

/// Makes the tree of the work, and reads it so many times.
pub fn sum(alloc: Global, work: &str, text: Text, count: u64) -> anyhow::Result<u64> {
    let tree = match work {
        "label" => named(alloc)?,
        "masked-pieces" => text_tree(alloc, Role::PasswordInput, text)?,
        _ => text_tree(alloc, Role::Document, text)?,
    };
    let root = tree.state().view().root();
    let total = text.characters.saturating_mul(text.runs as usize);
    let mut sum: u64 = 0;
    for _ in 0..count {
        let met = match work {
            "support" => u64::from(root.supports_text_ranges()),
            "words" => words(&root),
            "text" => whole_text(alloc, &root)?,
            "pieces" | "masked-pieces" => pieces(alloc, &root)?,
            "boxes" => boxes(alloc, &root)?,
            "properties" => properties(&root),
            "lines" => lines(&root),
            "lines-by-index" => lines_by_index(&root),
            "lines-onwards" => lines_onwards(&root),
            "units" => units(&root, total),
            "label" => label(alloc, &root)?,
            _ => anyhow::bail!("there is no such work"),
        };
        sum = sum.saturating_add(met);
    }
    Ok(sum)
}
