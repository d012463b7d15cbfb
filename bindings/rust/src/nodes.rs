//! Questions about nodes: where they are in the tree, what they are, and what a filter shows.
use crate::names::{Action, Choice, Count, Filter, FilterResult, Flag, Listed, Live, Orientation, Relative, Role, State, Toggled};
use crate::raw::{self, Bounds, Point};
use crate::{Error, Id, Tree};

impl Tree {
    /// The node's parent; of the root of a grafted tree, the node that grafts it.
    pub fn parent(&mut self, of: Id) -> Result<Option<Id>, Error> {
        self.id(|tree, id| unsafe { raw::ak_node_parent(tree, of.node, of.tree, id) })
    }

    /// The node's children.
    pub fn children(&mut self, of: Id) -> Result<Vec<Id>, Error> {
        self.ids(|tree, buffer, count| unsafe { raw::ak_node_children(tree, of.node, of.tree, buffer.as_mut_ptr(), buffer.len(), count) })
    }

    /// The node's role.
    pub fn role(&mut self, of: Id) -> Result<Role, Error> {
        self.each(|tree, number| unsafe { raw::ak_node_role_number(tree, of.node, of.tree, number) }).map(Role::numbered)
    }

    /// The node's role as a script has it: of one that is a number `Other(328)`.
    pub fn role_word(&mut self, of: Id) -> Result<String, Error> {
        self.text_by(raw::ak_node_role, of)?.ok_or(Error::NoNode)
    }

    /// The node's label, its own or that of the nodes that label it.
    pub fn label(&mut self, of: Id) -> Result<Option<String>, Error> {
        self.text_by(raw::ak_node_label, of)
    }

    /// The node's value; of a password one bullet for each character.
    pub fn value(&mut self, of: Id) -> Result<Option<String>, Error> {
        self.text_by(raw::ak_node_value, of)
    }

    /// The node's rectangle after all translations.
    pub fn bounds(&mut self, of: Id) -> Result<Option<Bounds>, Error> {
        self.one(|tree, bounds| unsafe { raw::ak_node_bounds(tree, of.node, of.tree, bounds) })
    }

    /// Whether the node is what the flag says.
    pub fn flag(&mut self, of: Id, flag: Flag) -> Result<bool, Error> {
        self.each(|tree, is_set| unsafe { raw::ak_node_flag(tree, of.node, of.tree, flag as u32, is_set) })
    }

    /// The filter's answer for the node.
    pub fn filter(&mut self, of: Id, filter: Filter) -> Result<FilterResult, Error> {
        let answer: u32 = self.each(|tree, answer| unsafe { raw::ak_node_filter(tree, of.node, of.tree, filter as u32, answer) })?;
        Ok(match answer {
            0 => FilterResult::Include,
            1 => FilterResult::ExcludeNode,
            _ => FilterResult::ExcludeSubtree,
        })
    }

    /// The node at a point in the coordinates of a node, among this one and those below it.
    pub fn hit(&mut self, within: Id, x: i64, y: i64, filter: Filter) -> Result<Option<Id>, Error> {
        self.id(|tree, id| unsafe { raw::ak_node_hit(tree, within.node, within.tree, x, y, filter as u32, id) })
    }

    /// The nearest ancestor that the filter includes.
    pub fn filtered_parent(&mut self, of: Id, filter: Filter) -> Result<Option<Id>, Error> {
        self.id(|tree, id| unsafe { raw::ak_node_filtered_parent(tree, of.node, of.tree, filter as u32, id) })
    }

    /// The nodes that the filter shows in place of the children.
    pub fn filtered_children(&mut self, of: Id, filter: Filter) -> Result<Vec<Id>, Error> {
        self.ids(|tree, buffer, count| unsafe {
            raw::ak_node_filtered_children(tree, of.node, of.tree, filter as u32, buffer.as_mut_ptr(), buffer.len(), count)
        })
    }

    fn state(&mut self, of: Id, state: State) -> Result<Option<u32>, Error> {
        self.one(|tree, value| unsafe { raw::ak_node_state(tree, of.node, of.tree, state as u32, value) })
    }

    /// Whether it is on, of what can be.
    pub fn toggled(&mut self, of: Id) -> Result<Option<Toggled>, Error> {
        Ok(self.state(of, State::Toggled)?.and_then(Toggled::numbered))
    }

    /// Whether it is selected, of what can be.
    pub fn is_selected(&mut self, of: Id) -> Result<Option<bool>, Error> {
        Ok(self.state(of, State::Selected)?.map(|number| number == 1))
    }

    /// The axis along which it lies: its own, or that of its role.
    pub fn orientation(&mut self, of: Id) -> Result<Option<Orientation>, Error> {
        Ok(self.state(of, State::Orientation)?.and_then(Orientation::numbered))
    }

    /// How changes of it are announced, as it or the nearest ancestor that says so has it.
    pub fn live(&mut self, of: Id) -> Result<Live, Error> {
        Ok(self.state(of, State::Live)?.and_then(Live::numbered).unwrap_or(Live::Off))
    }

    /// Which of these flags the node is. Only these are computed.
    pub fn flags(&mut self, of: Id, flags: &[Flag]) -> Result<Vec<Flag>, Error> {
        let wanted = flags.iter().fold(0, |bits, flag| bits | 1_u64 << *flag as u32);
        let set: u64 = self.each(|tree, set| unsafe { raw::ak_node_flags(tree, of.node, of.tree, wanted, set) })?;
        Ok(flags.iter().copied().filter(|flag| set >> *flag as u32 & 1 == 1).collect())
    }

    /// Whether the node supports an action.
    pub fn supports_action(&mut self, of: Id, action: Action, filter: Filter) -> Result<bool, Error> {
        let number = action.number();
        self.each(|tree, supports| unsafe { raw::ak_node_supports_action(tree, of.node, of.tree, number, filter as u32, supports) })
    }

    fn count(&mut self, of: Id, count: Count, filter: Filter) -> Result<Option<usize>, Error> {
        self.one(|tree, number| unsafe { raw::ak_node_count(tree, of.node, of.tree, count as u32, filter as u32, number) })
    }

    /// How many children the node has. No list of them is made.
    pub fn child_count(&mut self, of: Id) -> Result<usize, Error> {
        self.count(of, Count::Children, Filter::All).map(Option::unwrap_or_default)
    }

    /// The node's place among the children of its parent, from 0.
    pub fn index_in_parent(&mut self, of: Id) -> Result<Option<usize>, Error> {
        self.count(of, Count::Index, Filter::All)
    }

    /// How many nodes the filter shows in place of the children.
    pub fn filtered_child_count(&mut self, of: Id, filter: Filter) -> Result<usize, Error> {
        self.count(of, Count::FilteredChildren, filter).map(Option::unwrap_or_default)
    }

    /// The node's place among those that the filter shows in place of its filtered parent's children.
    pub fn filtered_index(&mut self, of: Id, filter: Filter) -> Result<Option<usize>, Error> {
        self.count(of, Count::FilteredIndex, filter)
    }

    /// How many items the node's set has: as it says, or else by the items of its container.
    pub fn set_size(&mut self, of: Id, filter: Filter) -> Result<Option<usize>, Error> {
        self.count(of, Count::SetSize, filter)
    }

    /// The node's place in its set, from 0: as it says, or else among the items of its container.
    pub fn position_in_set(&mut self, of: Id, filter: Filter) -> Result<Option<usize>, Error> {
        self.count(of, Count::SetPosition, filter)
    }

    /// How many items the node's set has, by its container alone.
    pub fn size_of_set_from_container(&mut self, of: Id, filter: Filter) -> Result<Option<usize>, Error> {
        self.count(of, Count::ContainerSetSize, filter)
    }

    /// The node at an index among those that the filter shows in place of the children.
    pub fn child_at(&mut self, of: Id, index: usize, filter: Filter) -> Result<Option<Id>, Error> {
        self.id(|tree, id| unsafe { raw::ak_node_child_at(tree, of.node, of.tree, filter as u32, index, id) })
    }

    fn relative(&mut self, of: Id, relative: Relative, filter: Filter) -> Result<Option<Id>, Error> {
        self.id(|tree, id| unsafe { raw::ak_node_relative(tree, of.node, of.tree, relative as u32, filter as u32, id) })
    }

    /// The node below this one that has the focus in its place.
    pub fn active_descendant(&mut self, of: Id) -> Result<Option<Id>, Error> {
        self.relative(of, Relative::ActiveDescendant, Filter::All)
    }

    /// The first leaf below the node.
    pub fn deepest_first_child(&mut self, of: Id) -> Result<Option<Id>, Error> {
        self.relative(of, Relative::DeepestFirstChild, Filter::All)
    }

    /// The last leaf below the node.
    pub fn deepest_last_child(&mut self, of: Id) -> Result<Option<Id>, Error> {
        self.relative(of, Relative::DeepestLastChild, Filter::All)
    }

    /// The nearest ancestor in which the node can be selected.
    pub fn selection_container(&mut self, of: Id, filter: Filter) -> Result<Option<Id>, Error> {
        self.relative(of, Relative::SelectionContainer, filter)
    }

    fn listed(&mut self, of: Id, list: Listed, filter: Filter) -> Result<Vec<Id>, Error> {
        self.ids(|tree, buffer, count| unsafe {
            raw::ak_node_list(tree, of.node, of.tree, list as u32, filter as u32, buffer.as_mut_ptr(), buffer.len(), count)
        })
    }

    /// The nodes whose values are the node's label.
    pub fn labelled_by(&mut self, of: Id) -> Result<Vec<Id>, Error> {
        self.listed(of, Listed::LabelledBy, Filter::All)
    }

    /// The nodes that it controls, and that are there.
    pub fn controls(&mut self, of: Id) -> Result<Vec<Id>, Error> {
        self.listed(of, Listed::Controls, Filter::All)
    }

    /// The siblings before the node, nearest first.
    pub fn preceding_siblings(&mut self, of: Id) -> Result<Vec<Id>, Error> {
        self.listed(of, Listed::PrecedingSiblings, Filter::All)
    }

    /// The siblings after the node.
    pub fn following_siblings(&mut self, of: Id) -> Result<Vec<Id>, Error> {
        self.listed(of, Listed::FollowingSiblings, Filter::All)
    }

    /// All nodes below the node, each before those below it.
    pub fn descendants(&mut self, of: Id) -> Result<Vec<Id>, Error> {
        self.listed(of, Listed::Descendants, Filter::All)
    }

    /// The items of the node's set.
    pub fn items(&mut self, of: Id, filter: Filter) -> Result<Vec<Id>, Error> {
        self.listed(of, Listed::Items, filter)
    }

    /// What the filter shows beside the node and before it, nearest first.
    pub fn preceding_filtered_siblings(&mut self, of: Id, filter: Filter) -> Result<Vec<Id>, Error> {
        self.listed(of, Listed::PrecedingFilteredSiblings, filter)
    }

    /// What the filter shows beside the node and after it.
    pub fn following_filtered_siblings(&mut self, of: Id, filter: Filter) -> Result<Vec<Id>, Error> {
        self.listed(of, Listed::FollowingFilteredSiblings, filter)
    }

    /// What the filter shows below the node.
    pub fn filtered_descendants(&mut self, of: Id, filter: Filter) -> Result<Vec<Id>, Error> {
        self.listed(of, Listed::FilteredDescendants, filter)
    }

    /// By how much the node is shifted, with all its ancestors.
    pub fn transform(&mut self, of: Id) -> Result<Point, Error> {
        self.each(|tree, by| unsafe { raw::ak_node_transform(tree, of.node, of.tree, by) })
    }

    /// A point of the tree's own coordinates in those of the node, as [`Tree::hit`] takes it.
    pub fn own_point(&mut self, of: Id, x: i64, y: i64) -> Result<Point, Error> {
        self.each(|tree, own| unsafe { raw::ak_node_point(tree, of.node, of.tree, x, y, own) })
    }

    /// The UUID of the node's tree; that of the root tree is all zeros.
    pub fn tree_id(&mut self, of: Id) -> Result<[u8; 16], Error> {
        let bytes: Vec<u8> = self.all(|tree, buffer, length| unsafe {
            raw::ak_node_tree_id(tree, of.node, of.tree, buffer.as_mut_ptr(), buffer.len(), length)
        })?;
        bytes.try_into().map_err(|_| Error::NoNode)
    }
}
