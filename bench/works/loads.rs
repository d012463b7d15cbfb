//! Loads as real interfaces send them, whichever ids their nodes have: what is sent stands in `interfaces`.
//!
//! `build` makes a flat tree of its update, and drops it; in that of `build-placed` each button has a place in a set. `relabel` gives a leaf of such a tree another label, and `move` moves
//! a group of 1,000 nodes to and fro between two parents. `frame` sends all nodes again, of which a hundredth has changed.
//! `scroll` has a list go on by 20 rows. `type` types a letter into a text, and takes it away; `type-line` then asks for the
//! line around the caret, by the field, and `type-line-once` by its text. How many events there were, and what was read, is
//! the sum. Each of these with `-made` only makes and drops the updates. `preorder` goes over all nodes of a frame, `way-up` also
//! goes up from each of them to the root, `filtered` goes over what the common filter shows, and `hit` looks for what is at a
//! point. `find` asks for each node of a flat tree by its id. How many nodes were met is the sum.

use crate::ids::Ids;
use crate::interfaces::{
    flat, flat_with_places, frame, list, regrouped, relabelled, scrolled, text, typed, with_group,
};
use crate::updates::Events;
use crate::walks::{preorder, shown};
use accesskit_consumer::filters::common_filter;
use accesskit_consumer::{
    NodeRef, NodeText, TextPlaces, TextPosition, TextRoot, TextSelections, Tree,
};
use schema::{NodeId, Point, TreeId, TreeUpdate};
use std::alloc::{AllocError, Global};

/// What is sent again and again.
#[derive(Clone, Copy)]
enum Sent {
    Relabelled,
    Moved,
    Frame,
    Scrolled,
    Typed,
}

impl Sent {
    fn first(self, alloc: Global, ids: Ids, nodes: u64) -> Result<TreeUpdate, AllocError> {
        match self {
            Sent::Relabelled => flat(alloc, ids, nodes),
            Sent::Moved => with_group(alloc, ids, nodes),
            Sent::Frame => frame(alloc, ids, nodes, 0),
            Sent::Scrolled => list(alloc, ids, nodes),
            Sent::Typed => text(alloc, ids, nodes),
        }
    }

    /// The update of a turn, of which the first is 1.
    fn update(
        self,
        alloc: Global,
        ids: Ids,
        nodes: u64,
        turn: u64,
    ) -> Result<TreeUpdate, AllocError> {
        match self {
            Sent::Relabelled => relabelled(alloc, ids, nodes, turn),
            Sent::Moved => regrouped(alloc, ids, nodes, turn),
            Sent::Frame => frame(alloc, ids, nodes, turn),
            Sent::Scrolled => scrolled(alloc, ids, nodes, turn),
            Sent::Typed => typed(alloc, ids, nodes, turn),
        }
    }
}

/// What is read after each update.
#[derive(Clone, Copy)]
enum Read {
    Nothing,
    /// The line around the caret, by the field, which asks twice whether it is a text.
    Line,
    /// The line around the caret, by the text, which asks once.
    LineOnce,
}

/// How long the line around the caret is, and which of its characters the caret is before.
fn line_around(alloc: Global, caret: TextPosition<'_>) -> Result<u64, AllocError> {
    let mut range = caret.backward_to_line_start().to_degenerate_range();
    range.set_end(caret.forward_to_line_end());
    let length = range.text(alloc)?.len() as u64;
    Ok(length.saturating_add(caret.to_raw().character_index as u64))
}

impl Read {
    fn sum(self, alloc: Global, tree: &Tree) -> Result<u64, AllocError> {
        let Some(field) = tree.state().view().root().children().next() else {
            return Ok(0);
        };
        let caret = match self {
            Read::Nothing => None,
            Read::Line => {
                if field.supports_text_ranges() {
                    field.text_selection_focus()
                } else {
                    None
                }
            }
            Read::LineOnce => match field.text() {
                Some(text) => text.selection_focus(),
                None => None,
            },
        };
        match caret {
            Some(caret) => line_around(alloc, caret),
            None => Ok(0),
        }
    }
}

/// Makes the tree, sends its updates, reads after each, and says how many events were told and what was read.
fn send(
    alloc: Global,
    sent: Sent,
    read: Read,
    ids: Ids,
    nodes: u64,
    count: u64,
) -> anyhow::Result<u64> {
    let mut tree = Tree::new(alloc, sent.first(alloc, ids, nodes)?, true)?;
    let mut events = Events { count: 0 };
    let mut sum: u64 = 0;
    for turn in 1..=count {
        let update = sent.update(alloc, ids, nodes, turn)?;
        tree.update_and_process_changes(update, &mut events)?;
        sum = sum.saturating_add(read.sum(alloc, &tree)?);
    }
    Ok(sum.saturating_add(events.count))
}

/// Makes the updates alone.
fn make(alloc: Global, sent: Sent, ids: Ids, nodes: u64, count: u64) -> Result<u64, AllocError> {
    for turn in 1..=count {
        drop(sent.update(alloc, ids, nodes, turn)?);
    }
    Ok(0)
}

/// A flat tree: with buttons that have a label alone, or with places in a set too.
#[derive(Clone, Copy)]
enum Flat {
    Plain,
    WithPlaces,
}

impl Flat {
    fn update(self, alloc: Global, ids: Ids, nodes: u64) -> Result<TreeUpdate, AllocError> {
        match self {
            Flat::Plain => flat(alloc, ids, nodes),
            Flat::WithPlaces => flat_with_places(alloc, ids, nodes),
        }
    }

    /// Makes the tree so many times.
    fn build(self, alloc: Global, ids: Ids, nodes: u64, count: u64) -> anyhow::Result<u64> {
        for _ in 0..count {
            drop(Tree::new(alloc, self.update(alloc, ids, nodes)?, true)?);
        }
        Ok(0)
    }

    /// Makes only its update, so many times.
    fn make(self, alloc: Global, ids: Ids, nodes: u64, count: u64) -> anyhow::Result<u64> {
        for _ in 0..count {
            drop(self.update(alloc, ids, nodes)?);
        }
        Ok(0)
    }
}

/// How many nodes are above all nodes, each counted from each of those below it.
fn ways_up(alloc: Global, tree: &Tree, nodes: u64) -> Result<u64, AllocError> {
    let mut left = Vec::new(alloc);
    left.push(tree.state().view().root())?;
    let mut count: u64 = 0;
    for _ in 0..nodes {
        let Some(node) = left.pop() else {
            break;
        };
        let mut above = node.parent();
        for _ in 0..nodes {
            let Some(parent) = above else {
                break;
            };
            count = count.saturating_add(1);
            above = parent.parent();
        }
        for child in node.children().rev() {
            left.push(child)?;
        }
    }
    Ok(count)
}

/// Whether a node is at the point, which is in the rectangle of one node alone.
fn hit(tree: &Tree) -> u64 {
    let point = Point { x: 0, y: 3 };
    let filter = |node: &NodeRef<'_>| common_filter(node);
    u64::from(
        tree.state()
            .view()
            .root()
            .node_at_point(point, &filter)
            .is_some(),
    )
}

/// How many nodes are found by these ids.
fn found(tree: &Tree, sought: &[NodeId]) -> u64 {
    let view = tree.state().view();
    let mut count: u64 = 0;
    for id in sought {
        if view.node_by_tree_local_id(*id, TreeId::root()).is_some() {
            count = count.saturating_add(1);
        }
    }
    count
}

/// Makes the tree of a walk, and walks over it so many times.
fn walk(alloc: Global, work: &str, ids: Ids, nodes: u64, count: u64) -> anyhow::Result<u64> {
    let first = if work == "find" {
        flat(alloc, ids, nodes)?
    } else {
        frame(alloc, ids, nodes, 0)?
    };
    let tree = Tree::new(alloc, first, true)?;
    // the ids are made before, so that only the look-ups are counted
    let sought = ids.range(alloc, 0, nodes)?;
    let mut sum: u64 = 0;
    for _ in 0..count {
        let met = match work {
            "preorder" => preorder(alloc, &tree, nodes)?,
            "filtered" => shown(alloc, &tree, nodes)?,
            "way-up" => ways_up(alloc, &tree, nodes)?,
            "hit" => hit(&tree),
            "find" => found(&tree, &sought),
            _ => anyhow::bail!("there is no such work"),
        };
        sum = sum.saturating_add(met);
    }
    Ok(sum)
}

/// Does the work so many times.
pub fn sum(alloc: Global, work: &str, ids: Ids, nodes: u64, count: u64) -> anyhow::Result<u64> {
    match work {
        "build" => Flat::Plain.build(alloc, ids, nodes, count),
        "build-made" => Flat::Plain.make(alloc, ids, nodes, count),
        "build-placed" => Flat::WithPlaces.build(alloc, ids, nodes, count),
        "build-placed-made" => Flat::WithPlaces.make(alloc, ids, nodes, count),
        "relabel" => send(alloc, Sent::Relabelled, Read::Nothing, ids, nodes, count),
        "relabel-made" => Ok(make(alloc, Sent::Relabelled, ids, nodes, count)?),
        "move" => send(alloc, Sent::Moved, Read::Nothing, ids, nodes, count),
        "move-made" => Ok(make(alloc, Sent::Moved, ids, nodes, count)?),
        "frame" => send(alloc, Sent::Frame, Read::Nothing, ids, nodes, count),
        "frame-made" => Ok(make(alloc, Sent::Frame, ids, nodes, count)?),
        "scroll" => send(alloc, Sent::Scrolled, Read::Nothing, ids, nodes, count),
        "scroll-made" => Ok(make(alloc, Sent::Scrolled, ids, nodes, count)?),
        "type" => send(alloc, Sent::Typed, Read::Nothing, ids, nodes, count),
        "type-made" => Ok(make(alloc, Sent::Typed, ids, nodes, count)?),
        "type-line" => send(alloc, Sent::Typed, Read::Line, ids, nodes, count),
        "type-line-once" => send(alloc, Sent::Typed, Read::LineOnce, ids, nodes, count),
        _ => walk(alloc, work, ids, nodes, count),
    }
}
