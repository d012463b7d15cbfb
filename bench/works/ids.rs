//! Which ids the nodes of a load have. Its nodes are numbered from 0 on, and the kind of ids makes an id of each number.

use schema::NodeId;
use std::alloc::{AllocError, Global};

/// Ids that a toolkit might send, and ids that are chosen to make look-ups expensive.
#[derive(Clone, Copy)]
pub enum Ids {
    /// The numbers themselves.
    Counted,
    /// Hashes of 64 bits.
    Spread,
    /// Hashes in pairs that differ only in the lowest bit.
    AlikeAbove,
    /// Hashes in pairs that differ only in one of the four highest bits.
    AlikeBelow,
    /// The numbers with their bits in the reverse order, so that all are alike in the lower bits.
    Reversed,
    /// Ids that the library mixes alike in the upper bits, so that no guess of a cell is right but one.
    MixedAlike,
}

/// The bits of a hash that the ids of a pair share, where they differ below, and where they differ above.
const ABOVE: u64 = 0xffff_ffff_ffff_fff0;

const BELOW: u64 = 0x0fff_ffff_ffff_ffff;

/// The inverse of the factor by which the library mixes an id.
const UNMIXING: u64 = 0xf1de_83e1_9937_733d;

/// A hash of a number, by splitmix64: other numbers have other hashes.
fn hash_of(number: u64) -> u64 {
    let first = number.wrapping_add(1).wrapping_mul(0x9e37_79b9_7f4a_7c15);
    let second = (first ^ (first >> 30)).wrapping_mul(0xbf58_476d_1ce4_e5b9);
    let third = (second ^ (second >> 27)).wrapping_mul(0x94d0_49bb_1331_11eb);
    third ^ (third >> 31)
}

impl Ids {
    /// The id of the node with this number.
    pub fn id(self, number: u64) -> NodeId {
        let lowest = number & 1;
        NodeId(match self {
            Ids::Counted => number,
            Ids::Spread => hash_of(number),
            Ids::AlikeAbove => (hash_of(number >> 1) & ABOVE) | lowest,
            Ids::AlikeBelow => (hash_of(number >> 1) & BELOW) | (lowest << 60),
            Ids::Reversed => number.reverse_bits(),
            Ids::MixedAlike => number.wrapping_add(1).wrapping_mul(UNMIXING),
        })
    }

    /// The ids of the nodes with the numbers from `first` on, without `past`.
    pub fn range(self, alloc: Global, first: u64, past: u64) -> Result<Vec<NodeId>, AllocError> {
        self.steps(alloc, first, past.saturating_sub(first), 1)
    }

    /// The ids of so many nodes, of which each has a number by `step` greater than the one before. The kind of ids is looked at
    /// once, not for each id: an application has one kind.
    pub fn steps(
        self,
        alloc: Global,
        first: u64,
        count: u64,
        step: u64,
    ) -> Result<Vec<NodeId>, AllocError> {
        let mut ids = Vec::with_capacity(alloc, count as usize)?;
        let mut number = first;
        match self {
            Ids::Counted => {
                for _ in 0..count {
                    ids.push(NodeId(number))?;
                    number = number.wrapping_add(step);
                }
            }
            Ids::Spread => {
                for _ in 0..count {
                    ids.push(NodeId(hash_of(number)))?;
                    number = number.wrapping_add(step);
                }
            }
            _ => {
                for _ in 0..count {
                    ids.push(self.id(number))?;
                    number = number.wrapping_add(step);
                }
            }
        }
        Ok(ids)
    }
}

/// The kind of ids that a word of the command line names, if it does.
pub fn ids_of(word: &str) -> Option<Ids> {
    match word {
        "counted" => Some(Ids::Counted),
        "spread" => Some(Ids::Spread),
        "alike-above" => Some(Ids::AlikeAbove),
        "alike-below" => Some(Ids::AlikeBelow),
        "reversed" => Some(Ids::Reversed),
        "mixed-alike" => Some(Ids::MixedAlike),
        _ => None,
    }
}
