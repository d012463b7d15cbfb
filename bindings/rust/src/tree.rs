//! A tree, which is fed and read.
use crate::errors::{Error, DONE};
use crate::raw;
use crate::TreeName;
use std::fmt;
use std::sync::{Arc, Mutex, MutexGuard, PoisonError};

/// A node's id in its tree, and the index of that tree: 0 is the root tree.
#[derive(Clone, Copy, Debug, PartialEq, Eq, PartialOrd, Ord, Hash)]
pub struct Id {
    pub node: u64,
    pub tree: u32,
}

/// A change.
#[derive(Clone, Copy, Debug, PartialEq, Eq, Hash)]
pub enum Event {
    Added(Id),
    Updated(Id),
    Removed(Id),
    FocusMoved { old: Option<Id>, new: Option<Id> },
}

/// A tree, which has nothing until it is fed. What reads it takes `&mut self`, as the library does. Threads share one as a [`SharedTree`].
pub struct Tree {
    // (boxed, since the library's handle is to stay where it is)
    pub(crate) raw: Box<raw::Tree>,
}

// SAFETY: nothing in the library belongs to a thread: a tree is its handle and what lies in the heap behind it, which malloc gave and any
// thread may free.
unsafe impl Send for Tree {}

impl fmt::Debug for Tree {
    fn fmt(&self, f: &mut fmt::Formatter<'_>) -> fmt::Result {
        f.debug_struct("Tree").finish_non_exhaustive()
    }
}

impl Tree {
    /// A tree without nodes. It fails only if memory runs out.
    pub fn new() -> Result<Tree, Error> {
        let mut raw = Box::new(raw::Tree { at: std::ptr::null_mut(), is_there: false });
        // SAFETY (of each call below): the declarations are those of the library, references are valid and apart, a pointer goes with
        // the length of what it points to, and the handle began closed and is changed by the library alone.
        if unsafe { raw::ak_tree_open(&mut raw) } == DONE {
            Ok(Tree { raw })
        } else {
            Err(Error::NoMemory { done: 0 })
        }
    }

    /// Carries out whole commands.
    pub fn feed(&mut self, lines: &str) -> Result<(), Error> {
        let mut stop = raw::Stop::default();
        let status = unsafe { raw::ak_tree_feed(&mut self.raw, lines.as_ptr(), lines.len(), &mut stop) };
        Error::check(status, &stop)
    }

    /// Says whether the host window has the focus.
    pub fn set_host_focus(&mut self, is_focused: bool) -> Result<(), Error> {
        match unsafe { raw::ak_tree_host_focus(&mut self.raw, is_focused) } {
            DONE => Ok(()),
            _ => Err(Error::EventsLost),
        }
    }

    /// What the last lines, the last update or the last change of the host's focus has changed, in order.
    pub fn events(&mut self) -> Result<Vec<Event>, Error> {
        let count = self.one(|tree, count| unsafe { raw::ak_tree_event_count(tree, count) })?.unwrap_or_default();
        let mut events = Vec::new();
        events.try_reserve_exact(count).map_err(|_| Error::NoMemory { done: 0 })?;
        for index in 0..count {
            let event = self.one(|tree, event| unsafe { raw::ak_tree_event(tree, index, event) })?;
            events.extend(event.and_then(Event::of));
        }
        Ok(events)
    }

    /// The root tree's root.
    pub fn root(&mut self) -> Result<Option<Id>, Error> {
        self.id(|tree, id| unsafe { raw::ak_tree_root(tree, id) })
    }

    /// What has the focus, while the host has it.
    pub fn focus(&mut self) -> Result<Option<Id>, Error> {
        self.id(|tree, id| unsafe { raw::ak_tree_focus(tree, id) })
    }

    /// The node that the trees declare focused, across grafts, whether or not the host has the focus.
    pub fn declared_focus(&mut self) -> Result<Option<Id>, Error> {
        self.id(|tree, id| unsafe { raw::ak_tree_declared_focus(tree, id) })
    }

    /// Whether the host window has the focus; `None` before there is a tree.
    pub fn is_host_focused(&mut self) -> Result<Option<bool>, Error> {
        self.one(|tree, is_focused| unsafe { raw::ak_tree_is_host_focused(tree, is_focused) })
    }

    /// The nearest dialog among what has the focus and its ancestors.
    pub fn active_dialog(&mut self) -> Result<Option<Id>, Error> {
        self.id(|tree, id| unsafe { raw::ak_tree_active_dialog(tree, id) })
    }

    /// The root of a tree.
    pub fn subtree_root(&mut self, of: TreeName) -> Result<Option<Id>, Error> {
        let name = of.bytes();
        self.id(|tree, id| unsafe { raw::ak_tree_subtree_root(tree, name.as_ptr(), name.len(), id) })
    }

    /// The name of the toolkit: `AccessKit` if none was sent; `None` before there is a tree.
    pub fn toolkit_name(&mut self) -> Result<Option<String>, Error> {
        self.text_in(|tree, buffer, length| unsafe { raw::ak_tree_toolkit_name(tree, buffer.as_mut_ptr(), buffer.len(), length) })
    }

    /// The version of the toolkit, if it was sent with a name.
    pub fn toolkit_version(&mut self) -> Result<Option<String>, Error> {
        self.text_in(|tree, buffer, length| unsafe { raw::ak_tree_toolkit_version(tree, buffer.as_mut_ptr(), buffer.len(), length) })
    }

    /// One value, if there is one.
    pub(crate) fn one<T: Default>(&mut self, call: impl FnOnce(&mut raw::Tree, &mut T) -> u8) -> Result<Option<T>, Error> {
        let mut found = T::default();
        Ok(Error::is_there(call(&mut self.raw, &mut found))?.then_some(found))
    }

    /// One value, which each node has.
    pub(crate) fn each<T: Default>(&mut self, call: impl FnOnce(&mut raw::Tree, &mut T) -> u8) -> Result<T, Error> {
        self.one(call)?.ok_or(Error::NoNode)
    }

    pub(crate) fn id(&mut self, call: impl FnOnce(&mut raw::Tree, &mut raw::Id) -> u8) -> Result<Option<Id>, Error> {
        Ok(self.one(call)?.map(Id::from))
    }

    /// A list of any length, if there is one: asked for again with room for all of it where there wasn't enough.
    pub(crate) fn list<T: Clone + Default>(&mut self, call: impl Fn(&mut raw::Tree, &mut [T], &mut usize) -> u8) -> Result<Option<Vec<T>>, Error> {
        let (mut buffer, mut length) = (Vec::new(), 64);
        while length > buffer.len() {
            buffer.try_reserve_exact(length - buffer.len()).map_err(|_| Error::NoMemory { done: 0 })?;
            buffer.resize(length, T::default());
            if !Error::is_there(call(&mut self.raw, &mut buffer, &mut length))? {
                return Ok(None);
            }
        }
        buffer.truncate(length);
        Ok(Some(buffer))
    }

    /// A list, which each node has.
    pub(crate) fn all<T: Clone + Default>(&mut self, call: impl Fn(&mut raw::Tree, &mut [T], &mut usize) -> u8) -> Result<Vec<T>, Error> {
        self.list(call)?.ok_or(Error::NoNode)
    }

    pub(crate) fn ids(&mut self, call: impl Fn(&mut raw::Tree, &mut [raw::Id], &mut usize) -> u8) -> Result<Vec<Id>, Error> {
        Ok(self.all(call)?.into_iter().map(Id::from).collect())
    }

    pub(crate) fn text_in(&mut self, call: impl Fn(&mut raw::Tree, &mut [u8], &mut usize) -> u8) -> Result<Option<String>, Error> {
        let bytes = self.list(call)?;
        Ok(bytes.and_then(|bytes| String::from_utf8(bytes).ok()))
    }

    pub(crate) fn text_by(&mut self, call: TextCall, of: Id) -> Result<Option<String>, Error> {
        self.text_in(|tree, buffer, length| unsafe { call(tree, of.node, of.tree, buffer.as_mut_ptr(), buffer.len(), length) })
    }
}

pub(crate) type TextCall = unsafe extern "C" fn(&mut raw::Tree, u64, u32, *mut u8, usize, &mut usize) -> u8;

impl From<raw::Id> for Id {
    fn from(id: raw::Id) -> Id {
        Id { node: id.node, tree: id.tree }
    }
}

impl Event {
    fn of(event: raw::Event) -> Option<Event> {
        let old = event.has_old.then_some(Id { node: event.old_node, tree: event.old_tree });
        let new = event.has_new.then_some(Id { node: event.new_node, tree: event.new_tree });
        match event.kind {
            0 => new.map(Event::Added),
            1 => new.map(Event::Updated),
            2 => old.map(Event::Removed),
            _ => Some(Event::FocusMoved { old, new }),
        }
    }
}

/// A tree that threads share: each has it for itself for a while, by a lock. A clone is the same tree.
///
/// ```no_run
/// # use accesskit_proved::{Id, Error, SharedTree};
/// # fn main() -> Result<(), Error> {
/// let tree = SharedTree::new()?;
/// let other = tree.clone();
/// std::thread::spawn(move || other.lock().feed("host on\n"));
/// let root = tree.lock().root()?;
/// # Ok(()) }
/// ```
#[derive(Clone, Debug)]
pub struct SharedTree {
    tree: Arc<Mutex<Tree>>,
}

impl SharedTree {
    /// A tree without nodes. It fails only if memory runs out.
    pub fn new() -> Result<SharedTree, Error> {
        Ok(SharedTree::from(Tree::new()?))
    }

    /// Waits until no other thread has the tree, and has it until what is returned goes out of use: its calls are then about one state.
    /// A thread that panicked meanwhile has left the tree as its last call did.
    pub fn lock(&self) -> MutexGuard<'_, Tree> {
        self.tree.lock().unwrap_or_else(PoisonError::into_inner)
    }
}

impl From<Tree> for SharedTree {
    fn from(tree: Tree) -> SharedTree {
        SharedTree { tree: Arc::new(Mutex::new(tree)) }
    }
}

impl Drop for Tree {
    fn drop(&mut self) {
        unsafe { raw::ak_tree_close(&mut self.raw) }
    }
}
