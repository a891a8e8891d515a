//! What the three programs print (docs/LISTINGS.md), for the files in a folder.

use super::judge::{judge, verdict};
use super::numbers::*;
use super::search::{answer, plan_bytes};
use super::sheet::{read_plan, read_sheet};
use super::table::{table_bytes, table_of};
use std::fmt::Write;
use std::path::Path;

/// A missing file reads as empty.
pub fn file(folder: &Path, name: &str) -> Vec<u8> {
    std::fs::read(folder.join(name)).unwrap_or_default()
}

/// budget.bin: 32 bits, most significant first; any other length means 0.
pub fn budget_of(bytes: &[u8]) -> u32 {
    if bytes.len() != 4 {
        return 0;
    }
    bytes.iter().fold(0, |value, byte| value * 256 + *byte as u32)
}

/// One line: number and two places.
pub fn judge_listing(sheet: &[u8], plan: &[u8]) -> String {
    let answer = judge(sheet, plan);
    format!("{} {} {}\n", answer.number, answer.first, answer.second)
}

/// `number tries`, and when found `module start` of each partition; the found plan's bytes beside it.
pub fn search_listing(sheet: &[u8], budget: &[u8]) -> (String, Option<Vec<u8>>) {
    let sheet = match read_sheet(sheet) {
        Ok(sheet) => sheet,
        Err(number) => return (format!("{number} 0\n"), None),
    };
    let (found, plan) = answer(&sheet, budget_of(budget));
    let mut text = format!("{} {}\n", found.number, found.tries);
    for place in plan.iter().flatten() {
        writeln!(text, "{} {}", place.module, place.start).expect("a string grows");
    }
    (text, plan.map(|plan| plan_bytes(&plan)))
}

/// The judge's line; when it is 0 0 0, for every module `module number frame slots` and its slots, `start length
/// partition`. Beside it the built tables with their modules.
pub fn builder_listing(sheet_bytes: &[u8], plan_bytes: &[u8]) -> (String, Vec<(usize, Vec<u8>)>) {
    let mut text = judge_listing(sheet_bytes, plan_bytes);
    let mut tables = vec![];
    let Ok(sheet) = read_sheet(sheet_bytes) else { return (text, tables) };
    let Ok(plan) = read_plan(plan_bytes, sheet.partitions.len()) else { return (text, tables) };
    if verdict(&sheet, &plan).number != DONE {
        return (text, tables);
    }
    for module in 0..sheet.modules.len() {
        match table_of(&sheet, &plan, module) {
            Err(number) => writeln!(text, "{module} {number} 0 0").expect("a string grows"),
            Ok(table) => {
                writeln!(text, "{module} 0 {} {}", table.frame, table.slots.len()).expect("a string grows");
                for slot in &table.slots {
                    writeln!(text, "{} {} {}", slot.start, slot.length, slot.partition).expect("a string grows");
                }
                tables.push((module, table_bytes(&table)));
            }
        }
    }
    (text, tables)
}
