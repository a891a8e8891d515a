//! The deepest search on a small stack: a call that needs more than 128 KiB ends the program here.

use super::check;
use crate::compare::{Checked, Compare};
use crate::library::plain_search;
use crate::Check;
use second::reference::numbers::DONE;
use second::reference::sheet::{Module, Partition, Sheet};
use second::write::sheet_bytes;
use std::thread::Builder;

const STACK: usize = 128 * 1024;

/// Sixty-four partitions that are placed one after the other, so 64 searches stand in one another.
fn deepest(_: &mut Compare) -> Checked {
    let sheet = Sheet {
        modules: vec![Module { cabinet: 0, memory: 64, most: 64 }],
        delays: vec![vec![0]],
        partitions: vec![Partition { period: 64, budget: 1, memory: 1 }; 64],
        exclusions: vec![],
        chains: vec![],
    };
    let bytes = sheet_bytes(&sheet);
    let run = move || plain_search(&bytes, u32::MAX, &mut [0; 160]);
    let thread = Builder::new().stack_size(STACK).spawn(run).map_err(|error| error.to_string())?;
    let found = thread.join().map_err(|_| "the search panicked".to_string())?;
    if found.number != DONE || found.tries != 64 * 65 / 2 {
        return Err(format!("sixty-four partitions of one tick on one module: {found:?}"));
    }
    Ok(())
}

pub fn checks() -> Vec<Check> {
    vec![check("a search 64 partitions deep on a stack of 128 KiB", deepest)]
}
