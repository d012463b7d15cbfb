//! The updates that an application sends of its interface, whichever ids its nodes have.
//!
//! Of a window of buttons: `flat` makes it, and `relabelled` gives one of them another label. Of a window with a group that
//! changes its place: `with_group` makes it, and `regrouped` moves the group. `frame` sends a whole tree, of which a hundredth
//! has changed. Of a list that scrolls: `list` makes it, and `scrolled` has it go on. Of a text: `text` makes it, and `typed`
//! types a letter in it, or takes that away.

use crate::ids::Ids;
use schema::{
    Node, NodeId, Rect, Role, TextDirection, TextPosition, TextSelection, TreeId, TreeInfo,
    TreeUpdate,
};
use std::alloc::{AllocError, Global};

/// How many nodes a group has that changes its place, itself included.
const GROUP: u64 = 1000;

/// How many children each node of a frame has.
const FAN_OUT: u64 = 10;

/// How many cells a row of the list has, and by how many rows the list goes on.
const CELLS: u64 = 2;

const ROW: u64 = CELLS + 1;

const SCROLLED: u64 = 20;

/// How many characters a run of the text has, and where in it the caret is.
const CHARACTERS: usize = 50;

const CARET: usize = 25;

/// An update of the root tree, in which the root has the focus.
fn update(ids: Ids, nodes: Vec<(NodeId, Node)>, is_first: bool) -> TreeUpdate {
    let root = ids.id(0);
    TreeUpdate {
        nodes,
        tree: if is_first {
            Some(TreeInfo::new(root))
        } else {
            None
        },
        tree_id: TreeId::root(),
        focus: root,
    }
}

/// The label of a turn.
fn label(turn: u64) -> &'static str {
    if turn & 1 == 0 {
        "an even label"
    } else {
        "an odd label"
    }
}

fn labelled(alloc: Global, role: Role, turn: u64) -> Result<Node, AllocError> {
    let mut node = Node::new(alloc, role);
    node.set_label(label(turn))?;
    Ok(node)
}

/// A node whose children have the numbers from `first` on, without `past`.
fn parent(alloc: Global, ids: Ids, role: Role, first: u64, past: u64) -> Result<Node, AllocError> {
    let mut node = Node::new(alloc, role);
    node.take_children(ids.range(alloc, first, past)?);
    Ok(node)
}

/// A group of the nodes from `first` on, without `past`.
fn group(alloc: Global, ids: Ids, first: u64, past: u64) -> Result<Node, AllocError> {
    parent(alloc, ids, Role::GenericContainer, first, past)
}

/// Adds the buttons with the numbers from `first` on, without `past`.
fn push_buttons(
    alloc: Global,
    ids: Ids,
    first: u64,
    past: u64,
    nodes: &mut Vec<(NodeId, Node)>,
) -> Result<(), AllocError> {
    for number in first..past {
        nodes.push((ids.id(number), labelled(alloc, Role::Button, 0)?))?;
    }
    Ok(())
}

/// A root with so many buttons.
pub fn flat(alloc: Global, ids: Ids, buttons: u64) -> Result<TreeUpdate, AllocError> {
    let past = buttons.saturating_add(1);
    let mut nodes = Vec::with_capacity(alloc, past as usize)?;
    nodes.push((ids.id(0), group(alloc, ids, 1, past)?))?;
    push_buttons(alloc, ids, 1, past, &mut nodes)?;
    Ok(update(ids, nodes, true))
}

/// The same, each button with fields that few nodes have: a level, a place in a set, and how many that has.
pub fn flat_with_places(alloc: Global, ids: Ids, buttons: u64) -> Result<TreeUpdate, AllocError> {
    let mut update = flat(alloc, ids, buttons)?;
    for (index, (_, node)) in update.nodes.iter_mut().enumerate().skip(1) {
        node.set_level(1);
        node.set_position_in_set(index);
        node.set_size_of_set(buttons as usize);
    }
    Ok(update)
}

/// The button in the middle gets the label of the turn.
pub fn relabelled(
    alloc: Global,
    ids: Ids,
    buttons: u64,
    turn: u64,
) -> Result<TreeUpdate, AllocError> {
    let mut nodes = Vec::with_capacity(alloc, 1)?;
    nodes.push((ids.id(buttons >> 1), labelled(alloc, Role::Button, turn)?))?;
    Ok(update(ids, nodes, false))
}

/// A root with so many buttons and, numbered after them, two parents, of which the first has a group of 1,000 nodes.
pub fn with_group(alloc: Global, ids: Ids, buttons: u64) -> Result<TreeUpdate, AllocError> {
    let first = buttons.saturating_add(1);
    let moved = first.saturating_add(2);
    let past = moved.saturating_add(GROUP);
    let mut nodes = Vec::new(alloc);
    nodes.push((ids.id(0), group(alloc, ids, 1, moved)?))?;
    nodes.push((
        ids.id(first),
        group(alloc, ids, moved, moved.saturating_add(1))?,
    ))?;
    nodes.push((
        ids.id(first.saturating_add(1)),
        group(alloc, ids, moved, moved)?,
    ))?;
    nodes.push((
        ids.id(moved),
        group(alloc, ids, moved.saturating_add(1), past)?,
    ))?;
    push_buttons(alloc, ids, moved.saturating_add(1), past, &mut nodes)?;
    push_buttons(alloc, ids, 1, first, &mut nodes)?;
    Ok(update(ids, nodes, true))
}

/// The group goes from one parent to the other.
pub fn regrouped(
    alloc: Global,
    ids: Ids,
    buttons: u64,
    turn: u64,
) -> Result<TreeUpdate, AllocError> {
    let first = buttons.saturating_add(1);
    let moved = first.saturating_add(2);
    let taken = turn & 1;
    let mut nodes = Vec::with_capacity(alloc, 2)?;
    let left = moved.saturating_add(1).saturating_sub(taken);
    nodes.push((ids.id(first), group(alloc, ids, moved, left)?))?;
    let entered = moved.saturating_add(taken);
    nodes.push((
        ids.id(first.saturating_add(1)),
        group(alloc, ids, moved, entered)?,
    ))?;
    Ok(update(ids, nodes, false))
}

/// A node of a frame: with ten children, a rectangle, and a label that changes in each turn for one node in a hundred.
fn framed(alloc: Global, ids: Ids, number: u64, count: u64, turn: u64) -> Result<Node, AllocError> {
    let role = if number == 0 {
        Role::Window
    } else {
        Role::Button
    };
    let mut node = labelled(alloc, role, if number % 100 == 7 { turn } else { 0 })?;
    let top = i32::try_from(number & 0xffff).unwrap_or(0);
    node.set_bounds(Rect::new(0, top, 10, top.saturating_add(1)));
    let first = number.saturating_mul(FAN_OUT).saturating_add(1).min(count);
    let past = first.saturating_add(FAN_OUT).min(count);
    node.take_children(ids.range(alloc, first, past)?);
    Ok(node)
}

/// All nodes of a tree of so many, as they are in a turn.
pub fn frame(alloc: Global, ids: Ids, count: u64, turn: u64) -> Result<TreeUpdate, AllocError> {
    let mut nodes = Vec::with_capacity(alloc, count as usize)?;
    for number in 0..count {
        nodes.push((ids.id(number), framed(alloc, ids, number, count, turn)?))?;
    }
    Ok(update(ids, nodes, true))
}

/// The number of a row of the list, after which its cells come.
fn row_number(row: u64) -> u64 {
    row.saturating_mul(ROW).saturating_add(2)
}

/// Adds the rows from `first` on, without `past`, each with its cells.
fn push_rows(
    alloc: Global,
    ids: Ids,
    first: u64,
    past: u64,
    nodes: &mut Vec<(NodeId, Node)>,
) -> Result<(), AllocError> {
    for row in first..past {
        let number = row_number(row);
        let cells = number.saturating_add(1);
        let end = cells.saturating_add(CELLS);
        nodes.push((
            ids.id(number),
            parent(alloc, ids, Role::ListItem, cells, end)?,
        ))?;
        for cell in cells..end {
            nodes.push((ids.id(cell), labelled(alloc, Role::Label, row)?))?;
        }
    }
    Ok(())
}

/// The list, of which the rows from `first` on are shown, without `past`.
fn shown_list(alloc: Global, ids: Ids, first: u64, past: u64) -> Result<Node, AllocError> {
    let rows = ids.steps(alloc, row_number(first), past.saturating_sub(first), ROW)?;
    let mut node = Node::new(alloc, Role::List);
    node.take_children(rows);
    Ok(node)
}

/// A root with a list of so many rows.
pub fn list(alloc: Global, ids: Ids, rows: u64) -> Result<TreeUpdate, AllocError> {
    let mut nodes = Vec::new(alloc);
    nodes.push((ids.id(0), group(alloc, ids, 1, 2)?))?;
    nodes.push((ids.id(1), shown_list(alloc, ids, 0, rows)?))?;
    push_rows(alloc, ids, 0, rows, &mut nodes)?;
    Ok(update(ids, nodes, true))
}

/// The list goes on: as many rows come in at its end as go out at its start.
pub fn scrolled(alloc: Global, ids: Ids, rows: u64, turn: u64) -> Result<TreeUpdate, AllocError> {
    let first = turn.saturating_mul(SCROLLED);
    let past = first.saturating_add(rows);
    let mut nodes = Vec::new(alloc);
    nodes.push((ids.id(1), shown_list(alloc, ids, first, past)?))?;
    push_rows(alloc, ids, past.saturating_sub(SCROLLED), past, &mut nodes)?;
    Ok(update(ids, nodes, false))
}

/// A run of the text: a line of characters of one byte, the last a space, with one word.
fn run(alloc: Global, characters: usize) -> Result<Node, AllocError> {
    let mut value = String::new(alloc);
    let mut lengths = Vec::with_capacity(alloc, characters)?;
    for _ in 1..characters {
        value.push('a')?;
        lengths.push(1u16)?;
    }
    value.push(' ')?;
    lengths.push(1u16)?;
    let mut node = Node::new(alloc, Role::TextRun);
    node.take_value(value)?;
    node.take_character_lengths(lengths)?;
    node.set_word_starts(&[0])?;
    node.set_text_direction(TextDirection::LeftToRight);
    Ok(node)
}

/// The number of the run in the middle of a text, in which the caret is.
fn middle(runs: u64) -> u64 {
    (runs >> 1).saturating_add(2)
}

/// A field of so many runs, with the caret in the middle one.
fn field(alloc: Global, ids: Ids, runs: u64, caret: usize) -> Result<Node, AllocError> {
    let mut node = parent(
        alloc,
        ids,
        Role::MultilineTextInput,
        2,
        runs.saturating_add(2),
    )?;
    let at = TextPosition {
        node: ids.id(middle(runs)),
        character_index: caret,
    };
    node.set_text_selection(TextSelection {
        anchor: at,
        focus: at,
    });
    Ok(node)
}

/// A root with a field of so many runs.
pub fn text(alloc: Global, ids: Ids, runs: u64) -> Result<TreeUpdate, AllocError> {
    let mut nodes = Vec::new(alloc);
    nodes.push((ids.id(0), group(alloc, ids, 1, 2)?))?;
    nodes.push((ids.id(1), field(alloc, ids, runs, CARET)?))?;
    for number in 2..runs.saturating_add(2) {
        nodes.push((ids.id(number), run(alloc, CHARACTERS)?))?;
    }
    Ok(update(ids, nodes, true))
}

/// A letter is typed where the caret is, and in the next turn it is taken away. The field is sent for the caret's sake.
pub fn typed(alloc: Global, ids: Ids, runs: u64, turn: u64) -> Result<TreeUpdate, AllocError> {
    let more = (turn & 1) as usize;
    let mut nodes = Vec::with_capacity(alloc, 2)?;
    nodes.push((
        ids.id(middle(runs)),
        run(alloc, CHARACTERS.saturating_add(more))?,
    ))?;
    nodes.push((
        ids.id(1),
        field(alloc, ids, runs, CARET.saturating_add(more))?,
    ))?;
    Ok(update(ids, nodes, false))
}
