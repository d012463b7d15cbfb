//! Questions about the texts of nodes.
use crate::names::{DefectRule, Move, Test, Unit};
use crate::raw::{self, Bounds, Position, Span};
use crate::{Error, Id, Tree};

/// A position in a text by one of its names. Where one is expected, a number is an index, and a [`Position`] is itself.
#[derive(Clone, Copy, Debug, PartialEq, Eq, Hash)]
pub enum Spot {
    /// By how many scalars are before it, and whether, where two runs meet, the end of the first is meant.
    Index(usize, bool),
    /// By how many UTF-16 code units are before it.
    Utf16Index(usize),
    /// By its run, and how many of the run's characters are before it.
    Run(u64, usize),
    /// At a point, in the node's coordinates and in units of 1/64 pixel.
    Point(i64, i64),
    /// The end of the text.
    End,
    /// The fixed end of the selection.
    SelectionAnchor,
    /// The moving end of the selection, where the caret is.
    SelectionFocus,
}

impl Spot {
    pub(crate) fn raw(self) -> raw::Spot {
        let none = raw::Spot::default();
        match self {
            Spot::Index(index, is_end) => raw::Spot { kind: 0, index, is_end, ..none },
            Spot::Utf16Index(index) => raw::Spot { kind: 1, index, ..none },
            Spot::Run(run, index) => raw::Spot { kind: 2, run, index, ..none },
            Spot::Point(x, y) => raw::Spot { kind: 3, x, y, ..none },
            Spot::End => raw::Spot { kind: 4, ..none },
            Spot::SelectionAnchor => raw::Spot { kind: 5, ..none },
            Spot::SelectionFocus => raw::Spot { kind: 6, ..none },
        }
    }
}

impl From<usize> for Spot {
    fn from(index: usize) -> Spot {
        Spot::Index(index, false)
    }
}

impl From<Position> for Spot {
    fn from(position: Position) -> Spot {
        Spot::Run(position.run, position.character)
    }
}

/// The numbers of a position that are counted if they are wanted, and cost as much as there is text before it.
#[derive(Clone, Copy, Debug, PartialEq, Eq, Hash)]
pub struct Wanted {
    pub index: bool,
    pub utf16_index: bool,
    pub line: bool,
}

impl Wanted {
    /// All of them.
    pub const ALL: Wanted = Wanted { index: true, utf16_index: true, line: true };
    /// None of them.
    pub const NONE: Wanted = Wanted { index: false, utf16_index: false, line: false };

    fn bits(self) -> u32 {
        u32::from(self.index) | u32::from(self.utf16_index) << 1 | u32::from(self.line) << 2
    }
}

/// Why the runs of a node make no text: the first run that breaks a rule, with the rule, and the node to which a link leads, if the rule is
/// about one.
#[derive(Clone, Copy, Debug, PartialEq, Eq, Hash)]
pub struct Defect {
    pub run: Id,
    pub rule: DefectRule,
    pub link: u64,
}

impl Tree {
    /// The whole text of the node's runs.
    pub fn text(&mut self, of: Id) -> Result<Option<String>, Error> {
        self.text_by(raw::ak_node_text, of)
    }

    /// The position in the node's text before which it has so many scalars: where two runs meet, the end of the first, or the start of
    /// the second.
    pub fn text_position(&mut self, of: Id, index: usize, is_end: bool) -> Result<Option<Position>, Error> {
        self.one(|tree, position| unsafe { raw::ak_text_position(tree, of.node, of.tree, index, is_end, position) })
    }

    /// Where a movement of the caret from there ends.
    pub fn text_move(&mut self, of: Id, index: usize, is_end: bool, by: Move) -> Result<Option<Position>, Error> {
        self.one(|tree, position| unsafe { raw::ak_text_move(tree, of.node, of.tree, index, is_end, by as u32, position) })
    }

    /// The fixed end of the selection in the node's text.
    pub fn text_selection_anchor(&mut self, of: Id) -> Result<Option<Position>, Error> {
        self.one(|tree, position| unsafe { raw::ak_text_selection_anchor(tree, of.node, of.tree, position) })
    }

    /// The moving end of the selection in the node's text, where the caret is.
    pub fn text_selection_focus(&mut self, of: Id) -> Result<Option<Position>, Error> {
        self.one(|tree, position| unsafe { raw::ak_text_selection_focus(tree, of.node, of.tree, position) })
    }

    /// The node's text from one index up to another, which count its scalars.
    pub fn text_between(&mut self, of: Id, from: usize, to: usize) -> Result<Option<String>, Error> {
        self.text_in(|tree, buffer, length| unsafe {
            raw::ak_text_between(tree, of.node, of.tree, from, to, buffer.as_mut_ptr(), buffer.len(), length)
        })
    }

    /// How many scalars the node's text has.
    pub fn text_length(&mut self, of: Id) -> Result<Option<usize>, Error> {
        self.one(|tree, length| unsafe { raw::ak_text_length(tree, of.node, of.tree, length) })
    }

    /// A position in the node's text, by any of its names, with the numbers that are wanted.
    pub fn text_place(&mut self, of: Id, spot: impl Into<Spot>, wanted: Wanted) -> Result<Option<Position>, Error> {
        let spot = spot.into().raw();
        self.one(|tree, position| unsafe { raw::ak_text_place(tree, of.node, of.tree, &spot, wanted.bits(), position) })
    }

    /// Where a movement of the caret from there ends, with the numbers that are wanted.
    pub fn text_moved(&mut self, of: Id, spot: impl Into<Spot>, by: Move, wanted: Wanted) -> Result<Option<Position>, Error> {
        let spot = spot.into().raw();
        self.one(|tree, position| unsafe { raw::ak_text_moved(tree, of.node, of.tree, &spot, by as u32, wanted.bits(), position) })
    }

    /// Whether something holds of a position, as that a word starts there.
    pub fn text_test(&mut self, of: Id, spot: impl Into<Spot>, test: Test) -> Result<Option<bool>, Error> {
        let spot = spot.into().raw();
        self.one(|tree, holds| unsafe { raw::ak_text_test(tree, of.node, of.tree, &spot, test as u32, holds) })
    }

    /// The unit of text that a position is in: from it, or else from the nearest start of one before it, to where a movement to the end of
    /// the unit ends. At the end of the text a character is empty.
    pub fn text_unit(&mut self, of: Id, spot: impl Into<Spot>, unit: Unit, wanted: Wanted) -> Result<Option<Span>, Error> {
        let spot = spot.into().raw();
        self.one(|tree, span| unsafe { raw::ak_text_unit(tree, of.node, of.tree, &spot, unit as u32, wanted.bits(), span) })
    }

    /// A line of the node's text by its number, from 0. After the last one, if it isn't empty or the only one, comes an empty one, for the
    /// caret at the end.
    pub fn text_line(&mut self, of: Id, line: usize, wanted: Wanted) -> Result<Option<Span>, Error> {
        self.one(|tree, span| unsafe { raw::ak_text_line(tree, of.node, of.tree, line, wanted.bits(), span) })
    }

    /// The boxes of the node's text from one spot up to another, one for each run, after all translations; at one position that of a caret.
    /// Empty if a run hasn't what that takes.
    pub fn text_boxes(&mut self, of: Id, from: impl Into<Spot>, to: impl Into<Spot>) -> Result<Option<Vec<Bounds>>, Error> {
        let (from, to) = (from.into().raw(), to.into().raw());
        self.list(|tree, buffer, count| unsafe { raw::ak_text_boxes(tree, of.node, of.tree, &from, &to, buffer.as_mut_ptr(), buffer.len(), count) })
    }

    /// Why the node's runs make no text; `None` if they do, or if there are no runs.
    pub fn text_defect(&mut self, of: Id) -> Result<Option<Defect>, Error> {
        let found: Option<raw::Defect> = self.one(|tree, defect| unsafe { raw::ak_text_defect(tree, of.node, of.tree, defect) })?;
        Ok(found.and_then(|it| {
            let rule = DefectRule::numbered(it.rule)?;
            Some(Defect { run: Id { node: it.run, tree: it.run_tree }, rule, link: it.link })
        }))
    }
}
