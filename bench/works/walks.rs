//! Walks over a tree. `filtered` walks over what the common filter shows of a tree in which each node has ten children.
//! `clipped` does so of a list whose root clips all but the first ten children. `hit` looks for what lies at a point of a
//! list, of which only the first child is there, and `hit-tree` of a tree of ten children each. `preorder` goes over all nodes
//! of a tree of ten children each, and `chain` over a tree in which each node has one. How many nodes were met is the sum.

use accesskit_consumer::filters::common_filter;
use accesskit_consumer::{NodeRef, Tree};
use schema::{Node, NodeId, Point, Rect, Role, TreeId, TreeInfo, TreeUpdate};
use std::alloc::{AllocError, Global};

const FAN_OUT: u64 = 10;

/// How many children of the list are within the root's rectangle, each of height 1.
const SHOWN: i32 = 10;

/// A shape of a tree.
#[derive(Clone, Copy)]
enum Shape {
    Fan,
    List,
    Chain,
}

impl Shape {
    /// The ids of the children of a node, of which the first is `first`: there are at most `count`.
    fn child_count(self, id: u64, nodes: u64) -> u64 {
        match self {
            Shape::Fan => FAN_OUT,
            Shape::List => { if id == 0 { nodes } else { 0 } }
            Shape::Chain => 1,
        }
    }
}

/// The rectangle of a node of the list: the first ones lie in the root's.
fn rectangle(id: u64) -> Rect {
    let top = i32::try_from(id).unwrap_or(0).saturating_sub(1);
    Rect {
        x0: 0,
        y0: top,
        x1: 10,
        y1: top.saturating_add(1),
    }
}

/// The root's rectangle.
fn frame() -> Rect {
    Rect {
        x0: 0,
        y0: 0,
        x1: 10,
        y1: SHOWN,
    }
}

/// A node with the children that its shape gives it. Nodes are numbered level by level.
fn node(alloc: Global, shape: Shape, id: u64, nodes: u64) -> Result<Node, AllocError> {
    let mut node = Node::new(alloc, if id == 0 { Role::Window } else { Role::Button });
    let count = shape.child_count(id, nodes);
    let first = id.saturating_mul(count).saturating_add(1);
    let mut children = Vec::new(alloc);
    for child in first..first.saturating_add(count).min(nodes) {
        children.push(NodeId(child))?;
    }
    node.set_children(&children)?;
    match shape {
        Shape::List => node.set_bounds(if id == 0 { frame() } else { rectangle(id) }),
        Shape::Fan => {
            if id == 1 {
                node.set_bounds(frame());
            }
        }
        Shape::Chain => {}
    }
    Ok(node)
}

/// A tree of so many nodes. The root has the focus, and the host doesn't.
fn tree(alloc: Global, shape: Shape, nodes: u64, is_clipping: bool) -> anyhow::Result<Tree> {
    let mut list = Vec::with_capacity(alloc, nodes as usize)?;
    for id in 0..nodes {
        let mut node = node(alloc, shape, id, nodes)?;
        if is_clipping && id == 0 {
            node.set_clips_children();
        }
        list.push((NodeId(id), node))?;
    }
    let update = TreeUpdate {
        nodes: list,
        tree: Some(TreeInfo::new(NodeId(0))),
        tree_id: TreeId::root(),
        focus: NodeId(0),
    };
    Ok(Tree::new(alloc, update, true)?)
}

/// How many nodes the common filter shows below the root.
pub fn shown(alloc: Global, tree: &Tree, nodes: u64) -> Result<u64, AllocError> {
    let mut left = Vec::new(alloc);
    left.push(tree.state().view().root())?;
    let mut count: u64 = 0;
    for _ in 0..nodes {
        let Some(node) = left.pop() else {
            break;
        };
        for child in node.filtered_children(|node: &NodeRef<'_>| common_filter(node)) {
            left.push(child)?;
            count = count.saturating_add(1);
        }
    }
    Ok(count)
}

/// How many nodes there are, in pre-order.
pub fn preorder(alloc: Global, tree: &Tree, nodes: u64) -> Result<u64, AllocError> {
    let mut left = Vec::new(alloc);
    left.push(tree.state().view().root())?;
    let mut count: u64 = 0;
    for _ in 0..nodes {
        let Some(node) = left.pop() else {
            break;
        };
        count = count.saturating_add(1);
        for child in node.children().rev() {
            left.push(child)?;
        }
    }
    Ok(count)
}

/// The number of the node that lies at the upper left, if one does.
fn hit(tree: &Tree) -> u64 {
    let point = Point { x: 0, y: 0 };
    match tree
        .state()
        .view()
        .root()
        .node_at_point(point, &|node: &NodeRef<'_>| common_filter(node))
    {
        Some(node) => node.id().node.0,
        None => u64::MAX,
    }
}

/// Makes the tree of the work, and walks over it so many times.
pub fn sum(alloc: Global, work: &str, nodes: u64, count: u64) -> anyhow::Result<u64> {
    let (shape, is_clipping) = match work {
        "clipped" => (Shape::List, true),
        "hit" => (Shape::List, false),
        "chain" => (Shape::Chain, false),
        _ => (Shape::Fan, false),
    };
    let tree = tree(alloc, shape, nodes, is_clipping)?;
    let mut sum: u64 = 0;
    for _ in 0..count {
        let met = match work {
            "filtered" | "clipped" => shown(alloc, &tree, nodes)?,
            "hit" | "hit-tree" => hit(&tree),
            "preorder" | "chain" => preorder(alloc, &tree, nodes)?,
            _ => anyhow::bail!("there is no such work"),
        };
        sum = sum.saturating_add(met);
    }
    Ok(sum)
}
