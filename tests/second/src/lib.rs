//! The second program: every call of document 01 once more, written from its sentences alone and by other ways
//! than the product's, so that a mistake shared by code and contract has a chance to be seen.
//!
//! - `reference`: the calls, slow and plain.
//! - `fast`: the calls once more, as a Rust programmer would write them for speed; what the benchmark measures.
//! - `write`: from records to bytes, to make sheets.
//! - `worlds`: sheets and plans to compare on, from worked cases to random ones.
//! - `examples`: the cases under examples/ of the repository.
//! - `random`: numbers that are the same in every run.

pub mod examples;
pub mod fast;
pub mod random;
pub mod reference;
pub mod worlds;
pub mod write;
