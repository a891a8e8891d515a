//! Lent buffers of every length around the needed one, with every byte seen afterwards. They stand between closed pages
//! and guard bytes (fence.rs), and hold random bytes before the call.

use super::check;
use crate::compare::{hex, Checked, Compare};
use crate::Check;
use second::random::Random;
use second::reference::numbers::{BUFFER, DONE, NONE, STOPPED};
use second::reference::search::{answer, plan_bytes};
use second::reference::sheet::plan_length;
use second::worlds::{fitting, searchable};
use second::write::sheet_bytes;

/// Searches of found, none and stopped, each with buffers of every length from 0 to four past the plan's.
fn searches(compare: &mut Compare) -> Checked {
    let mut random = Random::new(41);
    let mut seen = [0; 3];
    for _ in 0..600 {
        let world = searchable(&mut random);
        let bytes = sheet_bytes(&world.sheet);
        let budget = random.below(150) as u32;
        let number = answer(&world.sheet, budget).0.number;
        let kind = [DONE, NONE, STOPPED].iter().position(|n| *n == number).expect("one of three");
        seen[kind] += 1;
        if seen[kind] > 60 {
            continue;
        }
        let needed = plan_length(world.sheet.partitions.len());
        for room in 0..=needed + 4 {
            let before = random.bytes(room);
            let (got, after) = compare.search(&bytes, budget, &before)?;
            let fits = room >= needed;
            let kept = if fits && number == DONE { needed } else { 0 };
            if got.number != (if fits { number } else { BUFFER }) || after[kept..] != before[kept..] {
                return Err(format!("room {room} of {needed}: {got:?}, sheet {}", hex(&bytes)));
            }
            if kept > 0 && compare.judge(&bytes, &after[..kept])?.number != DONE {
                return Err(format!("the found plan is not accepted: sheet {}", hex(&bytes)));
            }
        }
    }
    if seen.iter().any(|count| *count < 20) {
        return Err(format!("found, none, stopped: {seen:?}"));
    }
    Ok(())
}

/// Tables with buffers of every length from 0 to nine past the table's where it is short, else around it.
fn tables(compare: &mut Compare) -> Checked {
    let mut random = Random::new(42);
    let mut built = 0;
    while built < 150 {
        let world = fitting(&mut random, 3, 6);
        let (bytes, plan) = (sheet_bytes(&world.sheet), plan_bytes(&world.plan));
        let module = random.below(world.sheet.modules.len() as u64) as usize;
        let (got, table) = compare.build(&bytes, &plan, module, &[0xEE; 6_149])?;
        if got.number != DONE {
            continue;
        }
        built += 1;
        let from = if got.length < 60 { 0 } else { got.length - 8 };
        for room in from..=got.length + 9 {
            let before = random.bytes(room);
            let (again, after) = compare.build(&bytes, &plan, module, &before)?;
            let kept = if room >= got.length { got.length } else { 0 };
            let number = if room >= got.length { DONE } else { BUFFER };
            if again.number != number || after[..kept] != table[..kept] || after[kept..] != before[kept..] {
                return Err(format!("room {room} of {}: {again:?}, sheet {}", got.length, hex(&bytes)));
            }
        }
    }
    Ok(())
}

/// 20, 21 and 22 come before 23: whatever the buffer, even none at all.
fn before_23(compare: &mut Compare) -> Checked {
    let mut random = Random::new(43);
    for _ in 0..400 {
        let world = fitting(&mut random, 3, 8);
        let (bytes, plan) = (sheet_bytes(&world.sheet), plan_bytes(&world.plan));
        for module in 0..=world.sheet.modules.len() {
            for room in [0, 1, 4, 5, 11, 6_148] {
                compare.build(&bytes, &plan, module, &random.bytes(room))?;
            }
        }
    }
    Ok(())
}

pub fn checks() -> Vec<Check> {
    vec![
        check("searches with buffers of every length around the plan's", searches),
        check("tables with buffers of every length around the table's", tables),
        check("builds with too little room, where another number comes first", before_23),
    ]
}
