//! What is compared: worked cases, whole small worlds, damaged bytes, random worlds, buffers, positions, long runs; and the stack.

mod buffers;
mod damaged;
mod random;
mod small;
mod stack;
mod tables;
mod worked;

use crate::compare::{Checked, Compare};
use crate::Check;

/// A check under a name.
fn check(name: &str, run: impl FnOnce(&mut Compare) -> Checked + 'static) -> Check {
    (name.to_string(), Box::new(run))
}

/// Every check, once.
pub fn all() -> Vec<Check> {
    let mut list = worked::checks();
    list.extend(small::checks());
    list.extend(stack::checks());
    list.extend(damaged::checks());
    list.extend(buffers::checks());
    list.extend(tables::checks());
    list.extend(random(1));
    list
}

/// The checks on random worlds, for a seed.
pub fn random(seed: u64) -> Vec<Check> {
    random::checks(seed)
}
