//! The fields of nodes, each as the last update of its node set it.
use crate::names::{Action, Choice, Field, Style};
use crate::raw::{self, Color, Rect, Translation};
use crate::{Error, Id, Place, Tree};

impl Tree {
    /// A text, as it was sent. Of `Field::Value` of a password, and of its text runs, that is what is typed into it: [`Tree::value`] and
    /// [`Tree::text`] mask it.
    pub fn field_text(&mut self, of: Id, field: Field) -> Result<Option<String>, Error> {
        self.text_in(|tree, buffer, length| unsafe { raw::ak_field_text(tree, of.node, of.tree, field as u32, buffer.as_mut_ptr(), buffer.len(), length) })
    }

    /// A list of nodes, by their ids in the node's tree. One that isn't set is empty.
    pub fn field_ids(&mut self, of: Id, field: Field) -> Result<Vec<u64>, Error> {
        self.all(|tree, buffer, count| unsafe { raw::ak_field_ids(tree, of.node, of.tree, field as u32, buffer.as_mut_ptr(), buffer.len(), count) })
    }

    /// `Field::Chars` or `Field::Words`. One that isn't set is empty.
    pub fn field_numbers(&mut self, of: Id, field: Field) -> Result<Vec<u16>, Error> {
        self.all(|tree, buffer, count| unsafe { raw::ak_field_numbers(tree, of.node, of.tree, field as u32, buffer.as_mut_ptr(), buffer.len(), count) })
    }

    /// `Field::CharacterPositions` or `Field::CharacterWidths`, in units of 1/64 pixel.
    pub fn field_units(&mut self, of: Id, field: Field) -> Result<Option<Vec<i32>>, Error> {
        self.list(|tree, buffer, count| unsafe { raw::ak_field_units(tree, of.node, of.tree, field as u32, buffer.as_mut_ptr(), buffer.len(), count) })
    }

    /// `Field::Actions` or `Field::ChildActions`. A set that isn't set is empty.
    pub fn field_actions(&mut self, of: Id, field: Field) -> Result<Vec<Action>, Error> {
        let found: Vec<u32> =
            self.all(|tree, buffer, count| unsafe { raw::ak_field_actions(tree, of.node, of.tree, field as u32, buffer.as_mut_ptr(), buffer.len(), count) })?;
        Ok(found.into_iter().map(Action::numbered).collect())
    }

    /// The UUID of the tree that is grafted at the node.
    pub fn field_graft(&mut self, of: Id) -> Result<Option<[u8; 16]>, Error> {
        let field = Field::Tree as u32;
        let found: Option<Vec<u8>> =
            self.list(|tree, buffer, length| unsafe { raw::ak_field_tree(tree, of.node, of.tree, field, buffer.as_mut_ptr(), buffer.len(), length) })?;
        Ok(found.and_then(|bytes| bytes.try_into().ok()))
    }

    /// A node, by its id in the node's tree.
    pub fn field_id(&mut self, of: Id, field: Field) -> Result<Option<u64>, Error> {
        self.one(|tree, id| unsafe { raw::ak_field_id(tree, of.node, of.tree, field as u32, id) })
    }

    /// A flag, or one that may be unset, as `Field::Expanded`.
    pub fn field_flag(&mut self, of: Id, field: Field) -> Result<Option<bool>, Error> {
        self.one(|tree, is_set| unsafe { raw::ak_field_flag(tree, of.node, of.tree, field as u32, is_set) })
    }

    /// The value of a field that has few, which its type names.
    pub fn field_choice<C: Choice>(&mut self, of: Id) -> Result<Option<C>, Error> {
        let found = self.one(|tree, choice| unsafe { raw::ak_field_choice(tree, of.node, of.tree, C::FIELD as u32, choice) })?;
        Ok(found.and_then(C::numbered))
    }

    /// A number, as `Field::Min`, in the field's unit.
    pub fn field_number(&mut self, of: Id, field: Field) -> Result<Option<i64>, Error> {
        self.one(|tree, number| unsafe { raw::ak_field_number(tree, of.node, of.tree, field as u32, number) })
    }

    /// A count, or `Field::FontSize` or `Field::FontWeight`.
    pub fn field_count(&mut self, of: Id, field: Field) -> Result<Option<usize>, Error> {
        self.one(|tree, count| unsafe { raw::ak_field_count(tree, of.node, of.tree, field as u32, count) })
    }

    /// The node's rectangle before any translation, in units of 1/64 pixel.
    pub fn field_bounds(&mut self, of: Id) -> Result<Option<Rect>, Error> {
        self.one(|tree, rect| unsafe { raw::ak_field_rect(tree, of.node, of.tree, Field::Bounds as u32, rect) })
    }

    /// By how much the node and its subtree are shifted, in units of 1/64 pixel.
    pub fn field_shift(&mut self, of: Id) -> Result<Option<Translation>, Error> {
        self.one(|tree, by| unsafe { raw::ak_field_translation(tree, of.node, of.tree, Field::Move as u32, by) })
    }

    /// The selection in the node's text: its fixed end, and the end that moves.
    pub fn field_selection(&mut self, of: Id) -> Result<Option<(Place, Place)>, Error> {
        let found = self.one(|tree, it| unsafe { raw::ak_field_selection(tree, of.node, of.tree, Field::Selection as u32, it) })?;
        Ok(found.map(|raw::Selection { anchor, anchor_character, focus, focus_character }| {
            (Place { run: anchor, character: anchor_character }, Place { run: focus, character: focus_character })
        }))
    }

    /// `Field::BackgroundColor` or `Field::ForegroundColor`.
    pub fn field_color(&mut self, of: Id, field: Field) -> Result<Option<Color>, Error> {
        self.one(|tree, color| unsafe { raw::ak_field_color(tree, of.node, of.tree, field as u32, color) })
    }

    /// `Field::Overline`, `Field::Strikethrough` or `Field::Underline`.
    pub fn field_decoration(&mut self, of: Id, field: Field) -> Result<Option<(Style, Color)>, Error> {
        let found = self.one(|tree, line| unsafe { raw::ak_field_decoration(tree, of.node, of.tree, field as u32, line) })?;
        Ok(found.and_then(|raw::Decoration { style, color }| Some((Style::numbered(style)?, color))))
    }
}
