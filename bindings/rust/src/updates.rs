//! Updates that are built call by call, without lines: [`Update`], and what it takes.
use crate::names::{Action, Choice, Field, Role, Style};
use crate::raw::{self, Color};
use crate::{Error, Tree};

/// The name of a tree, in an update.
#[derive(Clone, Copy, Debug, PartialEq, Eq, Hash)]
pub enum TreeName {
    /// The root tree.
    Root,
    /// A tree with this id, which is grafted at a node that has it as `Field::Tree`.
    Uuid([u8; 16]),
}

impl TreeName {
    pub(crate) fn bytes(&self) -> &[u8] {
        match self {
            TreeName::Root => &[],
            TreeName::Uuid(bytes) => bytes,
        }
    }
}

/// A place in a text run: the run's id, and how many of its characters are before it.
#[derive(Clone, Copy, Debug, PartialEq, Eq, Hash)]
pub struct Place {
    pub run: u64,
    pub character: usize,
}

/// An update that is being built, by [`Tree::update`]. Each call returns it again, so that calls follow one another; a call that answers
/// with an error has changed nothing. A field that is set twice has what it was set to last.
#[derive(Debug)]
pub struct Update<'a> {
    tree: &'a mut Tree,
}

impl Tree {
    /// Builds an update of a tree, with the node that has the focus there, and carries it out as [`Tree::feed`] carries out one. If
    /// `build` fails, nothing is carried out.
    pub fn update<F>(&mut self, of: TreeName, focus: u64, build: F) -> Result<(), Error>
    where
        F: FnOnce(&mut Update<'_>) -> Result<(), Error>,
    {
        let name = of.bytes();
        Error::answered(unsafe { raw::ak_update_begin(&mut self.raw, name.as_ptr(), name.len(), focus) })?;
        build(&mut Update { tree: self })?;
        let mut stop = raw::Stop::default();
        let status = unsafe { raw::ak_update_send(&mut self.raw, &mut stop) };
        Error::check(status, &stop)
    }
}

impl Update<'_> {
    fn says(&mut self, call: impl FnOnce(&mut raw::Tree) -> u8) -> Result<&mut Self, Error> {
        Error::answered(call(&mut self.tree.raw))?;
        Ok(self)
    }

    /// The tree's root, without a toolkit. A tree's first update needs it.
    pub fn root(&mut self, root: u64) -> Result<&mut Self, Error> {
        self.says(|tree| unsafe { raw::ak_update_root(tree, root) })
    }

    /// The name of the toolkit, after the root.
    pub fn toolkit_name(&mut self, text: &str) -> Result<&mut Self, Error> {
        self.says(|tree| unsafe { raw::ak_update_toolkit_name(tree, text.as_ptr(), text.len()) })
    }

    /// The version of the toolkit, after the root.
    pub fn toolkit_version(&mut self, text: &str) -> Result<&mut Self, Error> {
        self.says(|tree| unsafe { raw::ak_update_toolkit_version(tree, text.as_ptr(), text.len()) })
    }

    /// The next node, with a role alone. The calls below are about the node that was begun last.
    pub fn node(&mut self, node: u64, role: Role) -> Result<&mut Self, Error> {
        self.says(|tree| unsafe { raw::ak_update_node(tree, node, role.number()) })
    }

    /// `Field::Children`, `Field::Labelled` or `Field::Controls`.
    pub fn ids(&mut self, field: Field, ids: &[u64]) -> Result<&mut Self, Error> {
        self.says(|tree| unsafe { raw::ak_update_ids(tree, field as u32, ids.as_ptr(), ids.len()) })
    }

    /// `Field::Active`, `Field::Prev` or `Field::Next`.
    pub fn id(&mut self, field: Field, id: u64) -> Result<&mut Self, Error> {
        self.says(|tree| unsafe { raw::ak_update_id(tree, field as u32, id) })
    }

    /// A text, as `Field::Label`.
    pub fn text(&mut self, field: Field, text: &str) -> Result<&mut Self, Error> {
        self.says(|tree| unsafe { raw::ak_update_text(tree, field as u32, text.as_ptr(), text.len()) })
    }

    /// Sets a flag that has no value, as `Field::Disabled`.
    pub fn flag(&mut self, field: Field) -> Result<&mut Self, Error> {
        self.says(|tree| unsafe { raw::ak_update_flag(tree, field as u32) })
    }

    /// `Field::Expanded` or `Field::Selected`.
    pub fn bool(&mut self, field: Field, is_so: bool) -> Result<&mut Self, Error> {
        self.says(|tree| unsafe { raw::ak_update_bool(tree, field as u32, is_so) })
    }

    /// One of the values of a field that has few, as `Toggled::Mixed`.
    pub fn choose<C: Choice>(&mut self, choice: C) -> Result<&mut Self, Error> {
        self.says(|tree| unsafe { raw::ak_update_choice(tree, C::FIELD as u32, choice.number()) })
    }

    /// A number, as `Field::Min`, in the field's unit.
    pub fn number(&mut self, field: Field, number: i64) -> Result<&mut Self, Error> {
        self.says(|tree| unsafe { raw::ak_update_number(tree, field as u32, number) })
    }

    /// A count, or `Field::FontSize` or `Field::FontWeight`.
    pub fn count(&mut self, field: Field, count: usize) -> Result<&mut Self, Error> {
        self.says(|tree| unsafe { raw::ak_update_count(tree, field as u32, count) })
    }

    /// `Field::Chars` or `Field::Words`.
    pub fn numbers(&mut self, field: Field, numbers: &[u16]) -> Result<&mut Self, Error> {
        self.says(|tree| unsafe { raw::ak_update_numbers(tree, field as u32, numbers.as_ptr(), numbers.len()) })
    }

    /// `Field::CharacterPositions` or `Field::CharacterWidths`, in units of 1/64 pixel.
    pub fn units(&mut self, field: Field, units: &[i32]) -> Result<&mut Self, Error> {
        self.says(|tree| unsafe { raw::ak_update_units(tree, field as u32, units.as_ptr(), units.len()) })
    }

    /// Adds an action to `Field::Actions` or `Field::ChildActions`.
    pub fn action(&mut self, field: Field, action: Action) -> Result<&mut Self, Error> {
        self.says(|tree| unsafe { raw::ak_update_action(tree, field as u32, action.number()) })
    }

    /// The tree that is grafted at the node.
    pub fn graft(&mut self, uuid: &[u8; 16]) -> Result<&mut Self, Error> {
        self.says(|tree| unsafe { raw::ak_update_tree(tree, Field::Tree as u32, uuid.as_ptr(), uuid.len()) })
    }

    /// The node's rectangle, in units of 1/64 pixel.
    pub fn bounds(&mut self, x0: i32, y0: i32, x1: i32, y1: i32) -> Result<&mut Self, Error> {
        self.says(|tree| unsafe { raw::ak_update_rect(tree, Field::Bounds as u32, x0, y0, x1, y1) })
    }

    /// By how much the node and its subtree are shifted, in units of 1/64 pixel.
    pub fn shift(&mut self, x: i32, y: i32) -> Result<&mut Self, Error> {
        self.says(|tree| unsafe { raw::ak_update_translation(tree, Field::Move as u32, x, y) })
    }

    /// The selection in the node's text: its fixed end, and the end that moves.
    pub fn selection(&mut self, anchor: Place, focus: Place) -> Result<&mut Self, Error> {
        let field = Field::Selection as u32;
        self.says(|tree| unsafe { raw::ak_update_selection(tree, field, anchor.run, anchor.character, focus.run, focus.character) })
    }

    /// `Field::BackgroundColor` or `Field::ForegroundColor`.
    pub fn color(&mut self, field: Field, color: Color) -> Result<&mut Self, Error> {
        self.says(|tree| unsafe { raw::ak_update_color(tree, field as u32, color.red, color.green, color.blue, color.alpha) })
    }

    /// `Field::Overline`, `Field::Strikethrough` or `Field::Underline`.
    pub fn decoration(&mut self, field: Field, style: Style, color: Color) -> Result<&mut Self, Error> {
        let Color { red, green, blue, alpha } = color;
        self.says(|tree| unsafe { raw::ak_update_decoration(tree, field as u32, style as u32, red, green, blue, alpha) })
    }
}
