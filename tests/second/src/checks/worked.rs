//! The worked cases of document 01, each a check of its own: the library gives what the document says.

use super::check;
use crate::compare::{Checked, Compare};
use crate::Check;
use second::reference::Position;
use second::worlds::{worked_cases, Asked, Case, Got};

/// The library's answer, in the shape of the cases; compared with reference and fast form on the way.
fn ask(compare: &mut Compare, asked: &Asked) -> Result<Got, String> {
    let bare = |numbers: Vec<u64>| Got { numbers, lent: vec![] };
    Ok(match asked {
        Asked::Judge { sheet, plan } => {
            let got = compare.judge(sheet, plan)?;
            bare(vec![got.number as u64, got.first as u64, got.second as u64])
        }
        Asked::Search { sheet, budget, room } => {
            let (got, lent) = compare.search(sheet, *budget, &vec![0xEE; *room])?;
            Got { numbers: vec![got.number as u64, got.tries as u64], lent }
        }
        Asked::Build { sheet, plan, module, room } => {
            let (got, lent) = compare.build(sheet, plan, *module, &vec![0xEE; *room])?;
            Got { numbers: vec![got.number as u64, got.length as u64], lent }
        }
        Asked::Sheet { sheet } => bare(vec![compare.sheet(sheet)? as u64]),
        Asked::Table { table } => bare(vec![compare.table(table)? as u64]),
        Asked::Steps { table, from, steps } => {
            let mut position: Position = *from;
            let mut numbers = vec![];
            for _ in 0..*steps {
                let (got, after) = compare.step(table, position)?;
                numbers.extend([got.number as u64, got.partition as u64]);
                position = after;
            }
            numbers.extend([position.tick as u64, position.slot as u64]);
            bare(numbers)
        }
    })
}

fn holds(compare: &mut Compare, case: &Case) -> Checked {
    let got = ask(compare, &case.asked)?;
    if got != case.expected {
        return Err(format!("{:?}\n  document 01 says {:?}\n  library         {got:?}", case.asked, case.expected));
    }
    Ok(())
}

pub fn checks() -> Vec<Check> {
    let one = |case: Case| check(&format!("case of 01: {}", case.name), move |compare| holds(compare, &case));
    worked_cases().into_iter().map(one).collect()
}
