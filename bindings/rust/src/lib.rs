//! The proved accessibility tree in a Rust process: safe types over the calls of `accesskit_proved.h`.
//!
//! A [`Tree`] is fed with the lines of a script (docs/SCRIPT.md), or sent updates that are built call by call, and read by the ids of its
//! nodes. docs/FROM_C.md says what is proved of the library. The declarations of its calls here are not: `checks/header` compares them
//! with the library's.
#![warn(missing_debug_implementations)]

mod errors;
mod fields;
mod names;
mod nodes;
mod raw;
mod styles;
mod texts;
mod tree;
mod updates;

pub use errors::{rule_name, Error, Refusal};
pub use names::*;
pub use raw::{Bounds, Color, Point, Position, Rect, Span, Translation};
pub use styles::StyleValue;
pub use texts::{Defect, Spot, Wanted};
pub use tree::{Event, Id, SharedTree, Tree};
pub use updates::{Place, TreeName, Update};

/// The version of the library that is linked: its three numbers.
pub fn version() -> (u32, u32, u32) {
    // SAFETY: the call has no precondition.
    let number = unsafe { raw::ak_version() };
    (number / 10_000, number / 100 % 100, number % 100)
}
