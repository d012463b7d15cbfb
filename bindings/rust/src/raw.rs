//! The structures and calls of `accesskit_proved.h`: `checks/header` compares both with the library's.
#[repr(C)]
#[derive(Debug)]
pub struct Tree {
    pub at: *mut u8,
    pub is_there: bool,
}
#[repr(C)]
#[derive(Clone, Copy, Debug, Default)]
pub struct Id {
    pub node: u64,
    pub tree: u32,
}
#[repr(C)]
#[derive(Debug, Default)]
pub struct Event {
    pub old_node: u64,
    pub new_node: u64,
    pub old_tree: u32,
    pub new_tree: u32,
    pub kind: u8,
    pub has_old: bool,
    pub has_new: bool,
}
#[repr(C)]
#[derive(Debug, Default)]
pub struct Stop {
    pub line: u64,
    pub done: u64,
    pub node: u64,
    pub tree_id: [u8; 16],
    pub rule: u8,
}
/// A rectangle, in units of 1/64 pixel. An edge beyond 64 bits is the nearest number within them.
#[repr(C)]
#[derive(Clone, Copy, Debug, Default, PartialEq, Eq, Hash)]
pub struct Bounds {
    pub x0: i64,
    pub y0: i64,
    pub x1: i64,
    pub y1: i64,
}
/// A position in the text of a node: its run, and how many of the run's characters are before it; how many scalars, and how many UTF-16
/// code units, of the text are before it; the number of its line, from 0. Where two runs meet, `is_end` is the end of the first. What isn't
/// [wanted](crate::Wanted) of it is 0.
#[repr(C)]
#[derive(Clone, Copy, Debug, Default, PartialEq, Eq, Hash)]
pub struct Position {
    pub run: u64,
    pub character: usize,
    pub index: usize,
    pub utf16_index: usize,
    pub line: usize,
    pub is_end: bool,
}
/// A rectangle as it was sent, in units of 1/64 pixel.
#[repr(C)]
#[derive(Clone, Copy, Debug, Default, PartialEq, Eq, Hash)]
pub struct Rect {
    pub x0: i32,
    pub y0: i32,
    pub x1: i32,
    pub y1: i32,
}
/// By how much a node and its subtree are shifted, in units of 1/64 pixel.
#[repr(C)]
#[derive(Clone, Copy, Debug, Default, PartialEq, Eq, Hash)]
pub struct Translation {
    pub x: i32,
    pub y: i32,
}
#[repr(C)]
#[derive(Debug, Default)]
pub struct Selection {
    pub anchor: u64,
    pub anchor_character: usize,
    pub focus: u64,
    pub focus_character: usize,
}
/// A colour, each part from 0 to 255; `alpha` is the opacity.
#[repr(C)]
#[derive(Clone, Copy, Debug, Default, PartialEq, Eq, Hash)]
pub struct Color {
    pub red: u8,
    pub green: u8,
    pub blue: u8,
    pub alpha: u8,
}
#[repr(C)]
#[derive(Debug, Default)]
pub struct Decoration {
    pub style: u32,
    pub color: Color,
}
/// A point, or by how much something is shifted, in units of 1/64 pixel. A number beyond 64 bits is the nearest one within them.
#[repr(C)]
#[derive(Clone, Copy, Debug, Default, PartialEq, Eq, Hash)]
pub struct Point {
    pub x: i64,
    pub y: i64,
}
#[repr(C)]
#[derive(Clone, Copy, Debug, Default, PartialEq, Eq, Hash)]
pub struct StyleValue {
    pub number: u32,
    pub red: u8,
    pub green: u8,
    pub blue: u8,
    pub alpha: u8,
}
#[repr(C)]
#[derive(Clone, Copy, Debug, Default)]
pub struct Spot {
    pub kind: u32,
    pub is_end: bool,
    pub run: u64,
    pub index: usize,
    pub x: i64,
    pub y: i64,
}
#[repr(C)]
#[derive(Clone, Copy, Debug, Default)]
pub struct Defect {
    pub run: u64,
    pub link: u64,
    pub run_tree: u32,
    pub rule: u8,
}
/// A part of a text, by its ends.
#[repr(C)]
#[derive(Clone, Copy, Debug, Default, PartialEq, Eq, Hash)]
pub struct Span {
    pub start: Position,
    pub end: Position,
}
extern "C" {
    pub fn ak_version() -> u32;
    pub fn ak_tree_open(tree: &mut Tree) -> u8;
    pub fn ak_tree_close(tree: &mut Tree);
    pub fn ak_tree_feed(tree: &mut Tree, lines: *const u8, length: usize, stop: &mut Stop) -> u8;
    pub fn ak_tree_host_focus(tree: &mut Tree, is_focused: bool) -> u8;
    pub fn ak_update_begin(tree: &mut Tree, tree_id: *const u8, length: usize, focus: u64) -> u8;
    pub fn ak_update_root(tree: &mut Tree, root: u64) -> u8;
    pub fn ak_update_toolkit_name(tree: &mut Tree, text: *const u8, length: usize) -> u8;
    pub fn ak_update_toolkit_version(tree: &mut Tree, text: *const u8, length: usize) -> u8;
    pub fn ak_update_node(tree: &mut Tree, node: u64, role: u32) -> u8;
    pub fn ak_update_ids(tree: &mut Tree, field: u32, ids: *const u64, count: usize) -> u8;
    pub fn ak_update_id(tree: &mut Tree, field: u32, id: u64) -> u8;
    pub fn ak_update_text(tree: &mut Tree, field: u32, text: *const u8, length: usize) -> u8;
    pub fn ak_update_flag(tree: &mut Tree, field: u32) -> u8;
    pub fn ak_update_bool(tree: &mut Tree, field: u32, is_so: bool) -> u8;
    pub fn ak_update_choice(tree: &mut Tree, field: u32, choice: u32) -> u8;
    pub fn ak_update_number(tree: &mut Tree, field: u32, number: i64) -> u8;
    pub fn ak_update_count(tree: &mut Tree, field: u32, count: usize) -> u8;
    pub fn ak_update_numbers(tree: &mut Tree, field: u32, numbers: *const u16, count: usize) -> u8;
    pub fn ak_update_units(tree: &mut Tree, field: u32, units: *const i32, count: usize) -> u8;
    pub fn ak_update_action(tree: &mut Tree, field: u32, action: u32) -> u8;
    pub fn ak_update_tree(tree: &mut Tree, field: u32, tree_id: *const u8, length: usize) -> u8;
    pub fn ak_update_rect(tree: &mut Tree, field: u32, x0: i32, y0: i32, x1: i32, y1: i32) -> u8;
    pub fn ak_update_translation(tree: &mut Tree, field: u32, x: i32, y: i32) -> u8;
    pub fn ak_update_selection(tree: &mut Tree, field: u32, anchor: u64, anchor_character: usize, focus: u64, focus_character: usize) -> u8;
    pub fn ak_update_color(tree: &mut Tree, field: u32, red: u8, green: u8, blue: u8, alpha: u8) -> u8;
    pub fn ak_update_decoration(tree: &mut Tree, field: u32, style: u32, red: u8, green: u8, blue: u8, alpha: u8) -> u8;
    pub fn ak_update_send(tree: &mut Tree, stop: &mut Stop) -> u8;
    pub fn ak_tree_event_count(tree: &mut Tree, count: &mut usize) -> u8;
    pub fn ak_tree_event(tree: &mut Tree, index: usize, event: &mut Event) -> u8;
    pub fn ak_tree_root(tree: &mut Tree, root: &mut Id) -> u8;
    pub fn ak_tree_focus(tree: &mut Tree, focus: &mut Id) -> u8;
    pub fn ak_node_parent(tree: &mut Tree, node: u64, tree_index: u32, parent: &mut Id) -> u8;
    pub fn ak_node_children(tree: &mut Tree, node: u64, tree_index: u32, buffer: *mut Id, room: usize, count: &mut usize) -> u8;
    pub fn ak_node_role(tree: &mut Tree, node: u64, tree_index: u32, buffer: *mut u8, room: usize, length: &mut usize) -> u8;
    pub fn ak_node_label(tree: &mut Tree, node: u64, tree_index: u32, buffer: *mut u8, room: usize, length: &mut usize) -> u8;
    pub fn ak_node_value(tree: &mut Tree, node: u64, tree_index: u32, buffer: *mut u8, room: usize, length: &mut usize) -> u8;
    pub fn ak_node_text(tree: &mut Tree, node: u64, tree_index: u32, buffer: *mut u8, room: usize, length: &mut usize) -> u8;
    pub fn ak_node_role_number(tree: &mut Tree, node: u64, tree_index: u32, number: &mut u32) -> u8;
    pub fn ak_node_bounds(tree: &mut Tree, node: u64, tree_index: u32, bounds: &mut Bounds) -> u8;
    pub fn ak_node_flag(tree: &mut Tree, node: u64, tree_index: u32, flag: u32, is_set: &mut bool) -> u8;
    pub fn ak_node_filter(tree: &mut Tree, node: u64, tree_index: u32, filter: u32, answer: &mut u32) -> u8;
    pub fn ak_node_hit(tree: &mut Tree, node: u64, tree_index: u32, x: i64, y: i64, filter: u32, hit: &mut Id) -> u8;
    pub fn ak_node_filtered_parent(tree: &mut Tree, node: u64, tree_index: u32, filter: u32, parent: &mut Id) -> u8;
    pub fn ak_node_filtered_children(tree: &mut Tree, node: u64, tree_index: u32, filter: u32, buffer: *mut Id, room: usize, count: &mut usize) -> u8;
    pub fn ak_text_position(tree: &mut Tree, node: u64, tree_index: u32, index: usize, is_end: bool, position: &mut Position) -> u8;
    pub fn ak_text_move(tree: &mut Tree, node: u64, tree_index: u32, index: usize, is_end: bool, movement: u32, position: &mut Position) -> u8;
    pub fn ak_text_selection_anchor(tree: &mut Tree, node: u64, tree_index: u32, anchor: &mut Position) -> u8;
    pub fn ak_text_selection_focus(tree: &mut Tree, node: u64, tree_index: u32, focus: &mut Position) -> u8;
    pub fn ak_rule_name(rule: u32, buffer: *mut u8, room: usize, length: &mut usize) -> u8;
    pub fn ak_field_text(tree: &mut Tree, node: u64, tree_index: u32, field: u32, buffer: *mut u8, room: usize, length: &mut usize) -> u8;
    pub fn ak_field_ids(tree: &mut Tree, node: u64, tree_index: u32, field: u32, buffer: *mut u64, room: usize, count: &mut usize) -> u8;
    pub fn ak_field_numbers(tree: &mut Tree, node: u64, tree_index: u32, field: u32, buffer: *mut u16, room: usize, count: &mut usize) -> u8;
    pub fn ak_field_units(tree: &mut Tree, node: u64, tree_index: u32, field: u32, buffer: *mut i32, room: usize, count: &mut usize) -> u8;
    pub fn ak_field_actions(tree: &mut Tree, node: u64, tree_index: u32, field: u32, buffer: *mut u32, room: usize, count: &mut usize) -> u8;
    pub fn ak_field_tree(tree: &mut Tree, node: u64, tree_index: u32, field: u32, buffer: *mut u8, room: usize, length: &mut usize) -> u8;
    pub fn ak_field_id(tree: &mut Tree, node: u64, tree_index: u32, field: u32, id: &mut u64) -> u8;
    pub fn ak_field_flag(tree: &mut Tree, node: u64, tree_index: u32, field: u32, is_set: &mut bool) -> u8;
    pub fn ak_field_choice(tree: &mut Tree, node: u64, tree_index: u32, field: u32, choice: &mut u32) -> u8;
    pub fn ak_field_number(tree: &mut Tree, node: u64, tree_index: u32, field: u32, number: &mut i64) -> u8;
    pub fn ak_field_count(tree: &mut Tree, node: u64, tree_index: u32, field: u32, count: &mut usize) -> u8;
    pub fn ak_field_rect(tree: &mut Tree, node: u64, tree_index: u32, field: u32, rect: &mut Rect) -> u8;
    pub fn ak_field_translation(tree: &mut Tree, node: u64, tree_index: u32, field: u32, translation: &mut Translation) -> u8;
    pub fn ak_field_selection(tree: &mut Tree, node: u64, tree_index: u32, field: u32, selection: &mut Selection) -> u8;
    pub fn ak_field_color(tree: &mut Tree, node: u64, tree_index: u32, field: u32, color: &mut Color) -> u8;
    pub fn ak_field_decoration(tree: &mut Tree, node: u64, tree_index: u32, field: u32, decoration: &mut Decoration) -> u8;
    pub fn ak_text_between(tree: &mut Tree, node: u64, tree_index: u32, from: usize, to: usize, buffer: *mut u8, room: usize, length: &mut usize) -> u8;
    pub fn ak_node_state(tree: &mut Tree, node: u64, tree_index: u32, state: u32, value: &mut u32) -> u8;
    pub fn ak_node_count(tree: &mut Tree, node: u64, tree_index: u32, count: u32, filter: u32, number: &mut usize) -> u8;
    pub fn ak_node_child_at(tree: &mut Tree, node: u64, tree_index: u32, filter: u32, index: usize, child: &mut Id) -> u8;
    pub fn ak_node_relative(tree: &mut Tree, node: u64, tree_index: u32, relative: u32, filter: u32, found: &mut Id) -> u8;
    pub fn ak_node_list(tree: &mut Tree, node: u64, tree_index: u32, list: u32, filter: u32, buffer: *mut Id, room: usize, count: &mut usize) -> u8;
    pub fn ak_node_supports_action(tree: &mut Tree, node: u64, tree_index: u32, action: u32, filter: u32, supports: &mut bool) -> u8;
    pub fn ak_node_flags(tree: &mut Tree, node: u64, tree_index: u32, wanted: u64, set: &mut u64) -> u8;
    pub fn ak_node_transform(tree: &mut Tree, node: u64, tree_index: u32, by: &mut Point) -> u8;
    pub fn ak_node_point(tree: &mut Tree, node: u64, tree_index: u32, x: i64, y: i64, own: &mut Point) -> u8;
    pub fn ak_node_style(tree: &mut Tree, node: u64, tree_index: u32, property: u32, value: &mut StyleValue) -> u8;
    pub fn ak_node_style_text(tree: &mut Tree, node: u64, tree_index: u32, property: u32, buffer: *mut u8, room: usize, length: &mut usize) -> u8;
    pub fn ak_node_tree_id(tree: &mut Tree, node: u64, tree_index: u32, buffer: *mut u8, room: usize, length: &mut usize) -> u8;
    pub fn ak_tree_subtree_root(tree: &mut Tree, tree_id: *const u8, length: usize, root: &mut Id) -> u8;
    pub fn ak_tree_declared_focus(tree: &mut Tree, focus: &mut Id) -> u8;
    pub fn ak_tree_is_host_focused(tree: &mut Tree, is_focused: &mut bool) -> u8;
    pub fn ak_tree_active_dialog(tree: &mut Tree, dialog: &mut Id) -> u8;
    pub fn ak_tree_toolkit_name(tree: &mut Tree, buffer: *mut u8, room: usize, length: &mut usize) -> u8;
    pub fn ak_tree_toolkit_version(tree: &mut Tree, buffer: *mut u8, room: usize, length: &mut usize) -> u8;
    pub fn ak_role_name(role: u32, buffer: *mut u8, room: usize, length: &mut usize) -> u8;
    pub fn ak_text_place(tree: &mut Tree, node: u64, tree_index: u32, spot: &Spot, wanted: u32, position: &mut Position) -> u8;
    pub fn ak_text_moved(tree: &mut Tree, node: u64, tree_index: u32, spot: &Spot, movement: u32, wanted: u32, position: &mut Position) -> u8;
    pub fn ak_text_test(tree: &mut Tree, node: u64, tree_index: u32, spot: &Spot, test: u32, holds: &mut bool) -> u8;
    pub fn ak_text_unit(tree: &mut Tree, node: u64, tree_index: u32, spot: &Spot, unit: u32, wanted: u32, span: &mut Span) -> u8;
    pub fn ak_text_line(tree: &mut Tree, node: u64, tree_index: u32, line: usize, wanted: u32, span: &mut Span) -> u8;
    pub fn ak_text_length(tree: &mut Tree, node: u64, tree_index: u32, length: &mut usize) -> u8;
    pub fn ak_text_boxes(tree: &mut Tree, node: u64, tree_index: u32, from: &Spot, to: &Spot, buffer: *mut Bounds, room: usize, count: &mut usize) -> u8;
    pub fn ak_text_style(tree: &mut Tree, node: u64, tree_index: u32, spot: &Spot, property: u32, value: &mut StyleValue) -> u8;
    pub fn ak_text_style_text(tree: &mut Tree, node: u64, tree_index: u32, spot: &Spot, property: u32, buffer: *mut u8, room: usize, length: &mut usize) -> u8;
    pub fn ak_text_differs(tree: &mut Tree, node: u64, tree_index: u32, from: &Spot, to: &Spot, property: u32, differs: &mut bool) -> u8;
    pub fn ak_text_defect(tree: &mut Tree, node: u64, tree_index: u32, defect: &mut Defect) -> u8;
}
