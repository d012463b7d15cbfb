//! Does one of the works that are measured, as often as it is told, with no reading or printing between. What the work costs
//! once is the difference of two runs of other counts, over the difference of the counts.
//!
//!     works WORK NODES COUNT
//!     works WORK RUNS CHARACTERS COUNT [SHAPE]
//!     works IDS WORK NODES COUNT
//!
//! The works on updates stand in `updates`, those on walks in `walks`, an adapter's turn in `adapter`, and those on texts,
//! which take the second form, in `text_works`. The third form is that of `loads`, which say what ids their nodes have: one of
//! `counted`, `spread`, `alike-above`, `alike-below`, `reversed` and `mixed-alike`. It prints a sum of what it met.
#![tactic(auto)]

mod adapter;
mod ids;
mod interfaces;
mod loads;
mod text_works;
mod updates;
mod walks;

use anyhow::Context;
use std::env;

const USAGE: &str =
    "works WORK NODES COUNT, works WORK RUNS CHARACTERS COUNT [SHAPE], or works IDS WORK NODES COUNT";

/// The number that a word of the command line says.
fn number(word: Option<String>) -> anyhow::Result<u64> {
    let word = word.context(USAGE)?;
    Ok(word.parse::<u64>()?)
}

fn main(rt: HostRuntime) -> anyhow::Result<()> {
    let alloc = rt.alloc();
    let mut words = env::args(&rt)?;
    drop(words.next());
    let work = words.next().context(USAGE)?;
    if let Some(ids) = ids::ids_of(work.as_str()) {
        let load = words.next().context(USAGE)?;
        let nodes = number(words.next())?;
        let count = number(words.next())?;
        let sum = loads::sum(alloc, load.as_str(), ids, nodes, count)?;
        println!(rt; "{sum}")?;
        return Ok(());
    }
    let nodes = number(words.next())?;
    let second = number(words.next())?;
    let sum = match work.as_str() {
        "relabel" | "relabel-made" | "move" | "move-made" | "build" | "build-made" | "look-ups" => {
            updates::sum(alloc, work.as_str(), nodes, second)?
        }
        "filtered" | "clipped" | "hit" | "hit-tree" | "preorder" | "chain" => {
            walks::sum(alloc, work.as_str(), nodes, second)?
        }
        "mixed" => adapter::sum(alloc, nodes, second)?,
        _ => {
            let count = number(words.next())?;
            let text = text_works::Text {
                runs: nodes,
                characters: second as usize,
                shape: text_works::shape_of(words.next())?,
            };
            text_works::sum(alloc, work.as_str(), text, count)?
        }
    };
    println!(rt; "{sum}")?;
    Ok(())
}
