//! Why a call hasn't done what it was asked for.
use crate::raw;
use std::fmt;

/// Why not all lines were carried out, an update wasn't, or a question has no answer.
#[derive(Clone, Copy, Debug, PartialEq, Eq, Hash)]
pub enum Error {
    /// Memory ran out, after so many commands.
    NoMemory { done: u64 },
    /// The tree has changed, and memory ran out for the events: it is to be read anew.
    EventsLost,
    /// The line with this number, counted from 1, is bad. Nothing was carried out.
    BadLine(u64),
    /// An update was refused, after so many commands.
    Refused { done: u64, why: Refusal },
    /// The tree hasn't the node.
    NoNode,
    /// The field has no such value, or is of another kind. Nothing has changed.
    NoSuch,
    /// A field was said before a node was begun, or a toolkit before the root. Nothing has changed.
    OutOfPlace,
}

impl fmt::Display for Error {
    fn fmt(&self, f: &mut fmt::Formatter<'_>) -> fmt::Result {
        match self {
            Error::NoMemory { done } => write!(f, "memory ran out, after {done} commands"),
            Error::EventsLost => f.write_str("memory for an event ran out: the tree is to be read anew"),
            Error::BadLine(line) => write!(f, "line {line} is bad"),
            Error::Refused { done, why } => write!(f, "after {done} commands an update was refused: it {why}"),
            Error::NoNode => f.write_str("there is no such node"),
            Error::NoSuch => f.write_str("the field has no such value"),
            Error::OutOfPlace => f.write_str("a field comes before a node, or a toolkit before the root"),
        }
    }
}

impl std::error::Error for Error {}

pub(crate) const DONE: u8 = 0;
const NO_MEMORY: u8 = 1;
const NOTHING: u8 = 3;
const BAD_LINE: u8 = 4;
const REFUSED: u8 = 5;
const NO_NODE: u8 = 7;
const NO_SUCH: u8 = 8;
const LOST: u8 = 9;

impl Error {
    /// What an answer means that isn't `DONE`.
    fn of(status: u8, stop: &raw::Stop) -> Error {
        match status {
            NO_MEMORY => Error::NoMemory { done: stop.done },
            LOST => Error::EventsLost,
            NO_NODE => Error::NoNode,
            NO_SUCH => Error::NoSuch,
            BAD_LINE => Error::BadLine(stop.line),
            REFUSED => Error::Refused { done: stop.done, why: Refusal::numbered(stop.rule, stop.node, stop.tree_id) },
            _ => Error::OutOfPlace,
        }
    }

    /// What an answer to lines or to an update that is sent means.
    pub(crate) fn check(status: u8, stop: &raw::Stop) -> Result<(), Error> {
        match status {
            DONE => Ok(()),
            other => Err(Error::of(other, stop)),
        }
    }

    /// What an answer to a part of an update means.
    pub(crate) fn answered(status: u8) -> Result<(), Error> {
        Error::check(status, &raw::Stop::default())
    }

    /// Whether what was asked for is there.
    pub(crate) fn is_there(status: u8) -> Result<bool, Error> {
        match status {
            DONE => Ok(true),
            NOTHING => Ok(false),
            other => Err(Error::of(other, &raw::Stop::default())),
        }
    }
}

/// The rule that a refused update breaks, with the node or the UUID of the tree that it is about. If the update breaks several, this is one of
/// them. An update that is refused has changed nothing.
#[derive(Clone, Copy, Debug, PartialEq, Eq, Hash)]
pub enum Refusal {
    /// It is the first one, and says no root.
    MissingTreeInfo,
    /// It is the first one, and for another tree than the root tree.
    NotRootTree,
    /// It leads to a node that has no data, new or old.
    MissingData(u64),
    /// It sends a node that the root doesn't lead to afterwards.
    NotReached(u64),
    /// It sends a node twice.
    NamedTwice(u64),
    /// It leaves a node listed twice, by one parent or by two, or the root listed by a node.
    ListedTwice(u64),
    /// It grafts the root tree.
    RootTreeGrafted(u64),
    /// It has a graft that lists children.
    GraftWithChildren(u64),
    /// It leaves two grafts of one tree.
    GraftedTwice([u8; 16]),
    /// It is for a tree that no node grafts, and that isn't the root tree.
    NoGraft([u8; 16]),
    /// It is the first one for its tree, and says no root.
    NoFirstTreeInfo([u8; 16]),
    /// It puts the focus on a node that isn't reached.
    FocusMissing(u64),
    /// It puts the focus on a graft of a tree that isn't present.
    FocusOnEmptyGraft([u8; 16]),
    /// It would need a tree index past 32 bits.
    IndexesUsedUp,
}

impl Refusal {
    /// The refusal by the number of its rule.
    fn numbered(rule: u8, node: u64, tree: [u8; 16]) -> Refusal {
        match rule {
            1 => Refusal::MissingTreeInfo,
            2 => Refusal::NotRootTree,
            3 => Refusal::MissingData(node),
            4 => Refusal::NotReached(node),
            5 => Refusal::NamedTwice(node),
            6 => Refusal::ListedTwice(node),
            7 => Refusal::RootTreeGrafted(node),
            8 => Refusal::GraftWithChildren(node),
            9 => Refusal::GraftedTwice(tree),
            10 => Refusal::NoGraft(tree),
            11 => Refusal::NoFirstTreeInfo(tree),
            12 => Refusal::FocusMissing(node),
            13 => Refusal::FocusOnEmptyGraft(tree),
            14 => Refusal::IndexesUsedUp,
            other => unreachable!("the library has no rule {other}"),
        }
    }

    /// The node that the rule is about.
    pub fn node(self) -> Option<u64> {
        match self {
            Refusal::MissingData(node)
            | Refusal::NotReached(node)
            | Refusal::NamedTwice(node)
            | Refusal::ListedTwice(node)
            | Refusal::RootTreeGrafted(node)
            | Refusal::GraftWithChildren(node)
            | Refusal::FocusMissing(node) => Some(node),
            _ => None,
        }
    }

    /// The UUID of the tree that the rule is about.
    pub fn tree(self) -> Option<[u8; 16]> {
        match self {
            Refusal::GraftedTwice(tree)
            | Refusal::NoGraft(tree)
            | Refusal::NoFirstTreeInfo(tree)
            | Refusal::FocusOnEmptyGraft(tree) => Some(tree),
            _ => None,
        }
    }
}

/// The name of the rule with this number, as `MissingData`, if there is one.
pub fn rule_name(rule: u8) -> Option<String> {
    let (mut name, mut length) = ([0; 64], 0);
    // SAFETY: the declaration is that of the library, and the pointer goes with its length.
    let status = unsafe { raw::ak_rule_name(u32::from(rule), name.as_mut_ptr(), name.len(), &mut length) };
    (status == DONE).then(|| String::from_utf8_lossy(&name[..length.min(name.len())]).into_owned())
}

/// A UUID as it is written.
struct Hyphens<'a>(&'a [u8; 16]);

impl fmt::Display for Hyphens<'_> {
    fn fmt(&self, f: &mut fmt::Formatter<'_>) -> fmt::Result {
        for (at, byte) in self.0.iter().enumerate() {
            write!(f, "{}{byte:02x}", if [4, 6, 8, 10].contains(&at) { "-" } else { "" })?;
        }
        Ok(())
    }
}

/// What the refused update does.
impl fmt::Display for Refusal {
    fn fmt(&self, f: &mut fmt::Formatter<'_>) -> fmt::Result {
        match self {
            Refusal::MissingTreeInfo => f.write_str("is the first one, and says no root"),
            Refusal::NotRootTree => f.write_str("is the first one, and for another tree than the root tree"),
            Refusal::MissingData(node) => write!(f, "leads to node {node}, which has no data"),
            Refusal::NotReached(node) => write!(f, "sends node {node}, to which the root doesn't lead"),
            Refusal::NamedTwice(node) => write!(f, "sends node {node} twice"),
            Refusal::ListedTwice(node) => write!(f, "leaves node {node} listed twice, or the root listed"),
            Refusal::RootTreeGrafted(node) => write!(f, "grafts the root tree at node {node}"),
            Refusal::GraftWithChildren(node) => write!(f, "has a graft, node {node}, that lists children"),
            Refusal::GraftedTwice(tree) => write!(f, "leaves two grafts of the tree {}", Hyphens(tree)),
            Refusal::NoGraft(tree) => write!(f, "is for the tree {}, which no node grafts", Hyphens(tree)),
            Refusal::NoFirstTreeInfo(tree) => write!(f, "is the first one for the tree {}, and says no root", Hyphens(tree)),
            Refusal::FocusMissing(node) => write!(f, "puts the focus on node {node}, which isn't reached"),
            Refusal::FocusOnEmptyGraft(tree) => write!(f, "puts the focus on a graft of the tree {}, which isn't present", Hyphens(tree)),
            Refusal::IndexesUsedUp => f.write_str("would need a tree index past 32 bits"),
        }
    }
}
