//! What an adapter does in a turn: it hears the events of an update, and reads the label of each node that is told; where the
//! focus moves, it asks for its label, for what the common filter shows beside it, and for the way up.
//!
//! The tree is a window in which each node has ten children. In turn a node is labelled anew, each fourth time the focus goes
//! to it, and each sixteenth time the root's first child gets a child more, or loses it.

ghost use Rattle.std.specs.Prelude.{⊤};

use accesskit_consumer::filters::common_filter;
use accesskit_consumer::{NodeRef, Tree, TreeChangeHandler};
use schema::{Node, NodeId, Role, TreeId, TreeInfo, TreeUpdate};
use std::alloc::{AllocError, Global};

const ROOT: NodeId = NodeId(0);

const FAN_OUT: u64 = 10;

/// By how much the number of the node that is labelled goes on from turn to turn.
const STRIDE: u64 = 7919;

/// Counts the events that it is told, and what it reads then.
#[derive(Drop)]
struct Adapter {
    alloc: Global,
    events: u64,
    heard: u64,
}

impl Adapter {
    fn tell(&mut self) {
        self.events = self.events.saturating_add(1);
    }

    fn hear(&mut self, count: u64) {
        self.heard = self.heard.saturating_add(count);
    }

    fn hear_label(&mut self, node: &NodeRef) {
        if let Ok(Some(label)) = node.label(self.alloc) {
            self.hear(label.len() as u64);
        }
    }

    /// What the common filter shows beside the node, and how many nodes are above it.
    fn look_around(&mut self, node: &NodeRef) {
        for _ in node.preceding_filtered_siblings(|node: &NodeRef<'_>| common_filter(node)) {
            self.hear(1);
        }
        for _ in node.following_filtered_siblings(|node: &NodeRef<'_>| common_filter(node)) {
            self.hear(1);
        }
        let filter = |node: &NodeRef<'_>| common_filter(node);
        let mut above = node.filtered_parent(&filter);
        for _ in 0..u64::MAX {
            let Some(parent) = above else {
                break;
            };
            self.hear(1);
            above = parent.filtered_parent(&filter);
        }
    }
}

impl TreeChangeHandler for Adapter {
    ghost steps = { λ _ _ _. ⊤ };

    fn node_added(&mut self, node: &NodeRef) {
        self.tell();
        self.hear_label(node);
    }

    fn node_updated(&mut self, _old_node: &NodeRef, new_node: &NodeRef) {
        self.tell();
        self.hear_label(new_node);
    }

    fn focus_moved(&mut self, _old_node: Option<&NodeRef>, new_node: Option<&NodeRef>) {
        self.tell();
        if let Some(node) = new_node {
            self.hear_label(node);
            self.look_around(node);
        }
    }

    fn node_removed(&mut self, _node: &NodeRef) {
        self.tell();
    }
}

/// The ids of a node's children, of which none is past the tree's nodes.
fn children(alloc: Global, id: u64, nodes: u64) -> Result<Vec<NodeId>, AllocError> {
    let first = id.saturating_mul(FAN_OUT).saturating_add(1);
    let past = first.saturating_add(FAN_OUT).min(nodes);
    let mut children = Vec::with_capacity(alloc, past.saturating_sub(first) as usize)?;
    for child in first..past {
        children.push(NodeId(child))?;
    }
    Ok(children)
}

/// A node of the tree, with the label of the turn.
fn labelled(alloc: Global, id: u64, nodes: u64, turn: u64) -> Result<Node, AllocError> {
    let mut node = Node::new(alloc, if id == 0 { Role::Window } else { Role::Button });
    node.set_label(if turn & 1 == 0 {
        "an even label"
    } else {
        "an odd label"
    })?;
    node.set_children(&children(alloc, id, nodes)?)?;
    Ok(node)
}

fn first(alloc: Global, nodes: u64) -> Result<TreeUpdate, AllocError> {
    let mut all = Vec::with_capacity(alloc, nodes as usize)?;
    for id in 0..nodes {
        all.push((NodeId(id), labelled(alloc, id, nodes, 0)?))?;
    }
    Ok(TreeUpdate {
        nodes: all,
        tree: Some(TreeInfo::new(ROOT)),
        tree_id: TreeId::root(),
        focus: ROOT,
    })
}

/// The nodes that a turn sends.
fn sent(alloc: Global, id: u64, nodes: u64, turn: u64) -> Result<Vec<(NodeId, Node)>, AllocError> {
    let mut sent = vec![in alloc; (NodeId(id), labelled(alloc, id, nodes, turn)?)]?;
    if turn & 15 == 0 {
        let mut first = labelled(alloc, 1, nodes, turn)?;
        if turn & 16 == 0 {
            first.push_child(NodeId(nodes))?;
            sent.push((NodeId(nodes), labelled(alloc, nodes, nodes, turn)?))?;
        }
        sent.push((NodeId(1), first))?;
    }
    Ok(sent)
}

/// Makes the tree, sends the updates of so many turns, and says how many events were told and how much was heard.
pub fn sum(alloc: Global, nodes: u64, count: u64) -> anyhow::Result<u64> {
    let mut tree = Tree::new(alloc, first(alloc, nodes)?, true)?;
    let mut adapter = Adapter {
        alloc,
        events: 0,
        heard: 0,
    };
    let mut focus = ROOT;
    for turn in 1..=count {
        let place = turn.saturating_mul(STRIDE) % nodes.saturating_sub(2).max(1);
        let id = place.saturating_add(2);
        if turn & 3 == 0 {
            focus = NodeId(id);
        }
        let update = TreeUpdate {
            nodes: sent(alloc, id, nodes, turn)?,
            tree: None,
            tree_id: TreeId::root(),
            focus,
        };
        tree.update_and_process_changes(update, &mut adapter)?;
    }
    Ok(adapter.events.saturating_add(adapter.heard))
}
