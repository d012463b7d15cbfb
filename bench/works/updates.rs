//! Updates of a tree. `relabel` gives a leaf of a flat tree another label, and `move` moves a subtree of 1,000 nodes to and fro
//! between two parents: how many events there were is the sum. `look-ups` relabels, and its sum is the look-ups. `build` makes
//! a flat tree of its update, and drops it. `relabel-made`, `move-made` and `build-made` only make and drop those updates. The
//! host is focused, and the focus is on the root.

ghost use Rattle.std.specs.Prelude.{⊤};

use accesskit_consumer::node::NodeRef;
use accesskit_consumer::tree::{Steps, Tree, TreeChangeHandler};
use schema::{Node, NodeId, Role, TreeId, TreeInfo, TreeUpdate};
use std::alloc::{AllocError, Global};

const ROOT: NodeId = NodeId(0);

/// The ids of the parents between which a subtree moves, and of the subtree's root and its first child. Leaves of the
/// root have the lower ids, from 1 on.
const PARENTS: [u64; 2] = [1_000_000, 1_000_001];

const MOVED: u64 = 1_000_002;

const BELOW_MOVED: u64 = 999;

/// Counts what it is told.
#[derive(Clone, Copy)]
pub struct Events {
    pub count: u64,
}

impl Events {
    fn add(&mut self) {
        self.count = self.count.saturating_add(1);
    }
}

impl TreeChangeHandler for Events {
    ghost steps = { λ _ _ _. ⊤ };

    fn node_added(&mut self, _node: &NodeRef) {
        self.add();
    }

    fn node_updated(&mut self, _old_node: &NodeRef, _new_node: &NodeRef) {
        self.add();
    }

    fn focus_moved(&mut self, _old_node: Option<&NodeRef>, _new_node: Option<&NodeRef>) {
        self.add();
    }

    fn node_removed(&mut self, _node: &NodeRef) {
        self.add();
    }
}

/// An update of the root tree. The focus is on the root.
fn root_update(nodes: Vec<(NodeId, Node)>, tree: Option<TreeInfo>) -> TreeUpdate {
    TreeUpdate {
        nodes,
        tree,
        tree_id: TreeId::root(),
        focus: ROOT,
    }
}

/// A button with a label that the number chooses.
fn button(alloc: Global, number: u64) -> Result<Node, AllocError> {
    let mut node = Node::new(alloc, Role::Button);
    node.set_label(if number & 1 == 0 {
        "an even label"
    } else {
        "an odd label"
    })?;
    Ok(node)
}

/// A container with these children: as many as `count`, from `first` on.
fn container(alloc: Global, first: u64, count: u64) -> Result<Node, AllocError> {
    let mut children = Vec::with_capacity(alloc, count as usize)?;
    for index in 0..count {
        children.push(NodeId(first.saturating_add(index)))?;
    }
    let mut node = Node::new(alloc, Role::GenericContainer);
    node.set_children(&children)?;
    Ok(node)
}

/// The first update of a flat tree: a root with so many buttons.
fn flat(alloc: Global, leaves: u64) -> Result<TreeUpdate, AllocError> {
    let mut nodes = Vec::with_capacity(alloc, (leaves as usize).saturating_add(1))?;
    nodes.push((ROOT, container(alloc, 1, leaves)?))?;
    for id in 1..leaves.saturating_add(1) {
        nodes.push((NodeId(id), button(alloc, 0)?))?;
    }
    Ok(root_update(nodes, Some(TreeInfo::new(ROOT))))
}

/// The first update of a tree with a subtree that can move: its root lists so many buttons and two parents, of which the
/// first has the subtree.
fn with_subtree(alloc: Global, leaves: u64) -> Result<TreeUpdate, AllocError> {
    let mut nodes = Vec::new(alloc);
    let mut root = container(alloc, 1, leaves)?;
    for parent in PARENTS {
        root.push_child(NodeId(parent))?;
    }
    nodes.push((ROOT, root))?;
    nodes.push((NodeId(PARENTS[0]), container(alloc, MOVED, 1)?))?;
    nodes.push((NodeId(PARENTS[1]), container(alloc, MOVED, 0)?))?;
    nodes.push((NodeId(MOVED), container(alloc, MOVED + 1, BELOW_MOVED)?))?;
    for index in 0..BELOW_MOVED {
        nodes.push((NodeId(MOVED + 1 + index), button(alloc, 0)?))?;
    }
    for id in 1..leaves.saturating_add(1) {
        nodes.push((NodeId(id), button(alloc, 0)?))?;
    }
    Ok(root_update(nodes, Some(TreeInfo::new(ROOT))))
}

/// An update that gives the leaf in the middle another label.
fn relabelled(alloc: Global, leaves: u64, turn: u64) -> Result<TreeUpdate, AllocError> {
    let mut nodes = Vec::with_capacity(alloc, 1)?;
    nodes.push((NodeId(leaves >> 1), button(alloc, turn)?))?;
    Ok(root_update(nodes, None))
}

/// An update that takes the subtree from one parent to the other.
fn moved(alloc: Global, turn: u64) -> Result<TreeUpdate, AllocError> {
    let is_back = turn & 1 == 0;
    let mut nodes = Vec::with_capacity(alloc, 2)?;
    nodes.push((
        NodeId(PARENTS[0]),
        container(alloc, MOVED, u64::from(is_back))?,
    ))?;
    nodes.push((
        NodeId(PARENTS[1]),
        container(alloc, MOVED, u64::from(!is_back))?,
    ))?;
    Ok(root_update(nodes, None))
}

/// What is done again and again.
#[derive(Clone, Copy)]
enum Work {
    Relabel,
    Move,
}

impl Work {
    fn first(self, alloc: Global, leaves: u64) -> Result<TreeUpdate, AllocError> {
        match self {
            Work::Relabel => flat(alloc, leaves),
            Work::Move => with_subtree(alloc, leaves),
        }
    }

    /// The update of a turn, of which the first is 1.
    fn update(self, alloc: Global, leaves: u64, turn: u64) -> Result<TreeUpdate, AllocError> {
        match self {
            Work::Relabel => relabelled(alloc, leaves, turn),
            Work::Move => moved(alloc, turn),
        }
    }
}

/// Makes the tree, sends its updates, and says how many events were told.
fn send(alloc: Global, work: Work, leaves: u64, count: u64) -> anyhow::Result<u64> {
    let mut tree = Tree::new(alloc, work.first(alloc, leaves)?, true)?;
    let mut events = Events { count: 0 };
    for turn in 1..=count {
        let update = work.update(alloc, leaves, turn)?;
        tree.update_and_process_changes(update, &mut events)?;
    }
    Ok(events.count)
}

/// Makes the updates alone.
fn make(alloc: Global, work: Work, leaves: u64, count: u64) -> Result<u64, AllocError> {
    for turn in 1..=count {
        drop(work.update(alloc, leaves, turn)?);
    }
    Ok(0)
}

/// How many look-ups the updates take.
fn look_ups(alloc: Global, leaves: u64, count: u64) -> anyhow::Result<u64> {
    let mut tree = Tree::new(alloc, flat(alloc, leaves)?, true)?;
    let mut events = Events { count: 0 };
    let mut steps = Steps::new();
    for turn in 1..=count {
        let update = relabelled(alloc, leaves, turn)?;
        tree.update_and_process_changes_counted(update, &mut events, &mut steps)?;
    }
    Ok(u64::try_from(steps.count()).unwrap_or(u64::MAX))
}

/// Makes the tree so many times, or only its update.
fn build(alloc: Global, leaves: u64, count: u64, is_sent: bool) -> anyhow::Result<u64> {
    for _ in 0..count {
        let update = flat(alloc, leaves)?;
        if is_sent {
            let tree = Tree::new(alloc, update, true)?;
            drop(tree);
        }
    }
    Ok(0)
}

/// Does the work so many times.
pub fn sum(alloc: Global, work: &str, leaves: u64, count: u64) -> anyhow::Result<u64> {
    match work {
        "relabel" => send(alloc, Work::Relabel, leaves, count),
        "relabel-made" => Ok(make(alloc, Work::Relabel, leaves, count)?),
        "move" => send(alloc, Work::Move, leaves, count),
        "move-made" => Ok(make(alloc, Work::Move, leaves, count)?),
        "look-ups" => look_ups(alloc, leaves, count),
        "build" => build(alloc, leaves, count, true),
        "build-made" => build(alloc, leaves, count, false),
        _ => anyhow::bail!("there is no such work"),
    }
}
