//! Every call of document 01, from bytes to its answer, by the plainest way that can be held against its sentences.

pub mod bits;
pub mod judge;
pub mod listing;
pub mod numbers;
pub mod search;
pub mod sheet;
pub mod table;
pub mod ticks;

pub use judge::{judge, Answer};
pub use search::{search, Found};
pub use sheet::{read_plan, read_sheet, Chain, Exclusion, Module, Partition, Placement, Sheet};
pub use table::{build, step, table_number, Built, Position, Stepped};

/// The number of a sheet's bytes: 0, or 10 to 17.
pub fn sheet_number(bytes: &[u8]) -> u8 {
    match read_sheet(bytes) {
        Ok(_) => 0,
        Err(number) => number,
    }
}

#[cfg(test)]
mod tests;
