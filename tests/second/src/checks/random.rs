//! Random sheets and plans, valid and not; every call on each.

use super::check;
use crate::compare::{Checked, Compare};
use crate::Check;
use second::random::Random;
use second::reference::numbers::{DONE, NONE};
use second::reference::search::{answer, plan_bytes};
use second::reference::sheet::{plan_length, read_sheet};
use second::reference::Position;
use second::worlds::{fitting, loose, loose_plan, searchable, World};
use second::write::{sheet_bytes, with_flip};

/// How many random sheets with plans each check makes; together more than the 200,000 that are asked for.
const FITTING: u64 = 90_000;
const LOOSE: u64 = 60_000;
const FLIPPED: u64 = 40_000;
const RAW: u64 = 30_000;
const SEARCHED: u64 = 12_000;

/// Judges a world, builds one of its modules, tests the table and takes a few steps from anywhere.
fn each_call(compare: &mut Compare, random: &mut Random, sheet: &[u8], plan: &[u8]) -> Checked {
    compare.sheets += 1;
    compare.judge(sheet, plan)?;
    let module = random.below(4) as usize;
    let room = random.one_of(&[0, 5, 40, 600, 6_149]);
    let (built, buffer) = compare.build(sheet, plan, module, &vec![0xEE; room])?;
    if random.once_in(4) {
        compare.sheet(sheet)?;
    }
    if random.once_in(4) {
        compare.search(sheet, random.below(4) as u32, &[0x77; 170])?;
    }
    if built.number == DONE {
        let table = &buffer[..built.length];
        compare.table(table)?;
        let slots = (built.length as u64 - 5) / 6;
        let from = Position { tick: random.below(200) as u32, slot: random.below(slots + 2) as u32 };
        compare.step(table, from)?;
        compare.step(table, Position::fresh())?;
    }
    Ok(())
}

/// Plans that keep C1 to C3, with limits close to what they need.
fn fitting_worlds(compare: &mut Compare, seed: u64) -> Checked {
    let mut random = Random::new(seed);
    for turn in 0..FITTING {
        let World { sheet, plan } = match turn % 100 {
            0 => fitting(&mut random, 16, 64),
            1..=9 => fitting(&mut random, 5, 16),
            _ => fitting(&mut random, 3, 5),
        };
        each_call(compare, &mut random, &sheet_bytes(&sheet), &plan_bytes(&plan))?;
    }
    Ok(())
}

/// Any values that the rules of a sheet allow, and any plan.
fn loose_worlds(compare: &mut Compare, seed: u64) -> Checked {
    let mut random = Random::new(seed);
    for _ in 0..LOOSE {
        let World { sheet, plan } = loose(&mut random);
        each_call(compare, &mut random, &sheet_bytes(&sheet), &plan_bytes(&plan))?;
    }
    Ok(())
}

/// Worlds with a few bits flipped, cut or lengthened, in sheet or plan.
fn flipped_worlds(compare: &mut Compare, seed: u64) -> Checked {
    let mut random = Random::new(seed);
    for _ in 0..FLIPPED {
        let World { sheet, plan } = if random.once_in(2) { fitting(&mut random, 3, 6) } else { loose(&mut random) };
        let (mut sheet, mut plan) = (sheet_bytes(&sheet), plan_bytes(&plan));
        for _ in 0..random.between(1, 3) {
            let bytes = if random.once_in(3) { &mut plan } else { &mut sheet };
            match random.below(8) {
                0 => bytes.truncate(random.below(bytes.len() as u64 + 1) as usize),
                1 => bytes.extend(random.bytes(2)),
                _ if !bytes.is_empty() => *bytes = with_flip(bytes, random.below(8 * bytes.len() as u64) as usize),
                _ => {}
            }
        }
        each_call(compare, &mut random, &sheet, &plan)?;
    }
    Ok(())
}

/// Random bytes behind a head that makes sense, or not even that.
fn raw_bytes(compare: &mut Compare, seed: u64) -> Checked {
    let mut random = Random::new(seed);
    for _ in 0..RAW {
        let length = random.below(80) as usize;
        let mut sheet = random.bytes(length);
        if length >= 4 && !random.once_in(5) {
            let (m, n) = (random.below(3), random.below(4));
            let head = 1 << 28 | m << 23 | n << 16 | random.below(3) << 7 | random.below(3) << 1;
            sheet[..4].copy_from_slice(&(head as u32).to_be_bytes());
        }
        let length = random.below(12) as usize;
        let plan = random.bytes(length);
        each_call(compare, &mut random, &sheet, &plan)?;
    }
    Ok(())
}

/// Searches with budgets around the needed count, or up to some thousands where it is larger.
fn searches(compare: &mut Compare, seed: u64) -> Checked {
    let mut random = Random::new(seed);
    let mut needing = 0;
    for turn in 0..SEARCHED {
        let sheet = searchable(&mut random).sheet;
        let bytes = sheet_bytes(&sheet);
        compare.sheets += 1;
        let cap = if turn % 50 == 0 { 20_000 } else { 400 };
        let cap = cap / (1 + sheet.partitions.len() as u32 / 8);
        let (found, _) = answer(&sheet, cap);
        let room = plan_length(sheet.partitions.len()) + 2;
        let budgets = if found.number == DONE || found.number == NONE {
            needing += 1;
            vec![found.tries - 1, found.tries, random.one_of(&[found.tries + 1, u32::MAX, 1 << 31])]
        } else {
            vec![random.below(cap as u64) as u32]
        };
        for budget in budgets {
            let before = random.bytes(room);
            let (got, after) = compare.search(&bytes, budget, &before)?;
            if got.number == DONE && compare.judge(&bytes, &after[..room - 2])?.number != DONE {
                return Err("the found plan is not accepted".to_string());
            }
        }
    }
    if needing < SEARCHED / 3 {
        return Err(format!("only {needing} searches came to an end"));
    }
    Ok(())
}

/// Many plans for one sheet that is read well: the judge over and over.
fn many_plans(compare: &mut Compare, seed: u64) -> Checked {
    let mut random = Random::new(seed);
    for _ in 0..2_000 {
        let World { sheet, plan } = fitting(&mut random, 4, 8);
        let bytes = sheet_bytes(&sheet);
        assert!(read_sheet(&bytes).is_ok());
        for _ in 0..10 {
            let mut other = plan.clone();
            let i = random.below(plan.len() as u64) as usize;
            other[i] = loose_plan(&mut random, &sheet)[i];
            compare.sheets += 1;
            compare.judge(&bytes, &plan_bytes(&other))?;
        }
    }
    Ok(())
}

pub fn checks(seed: u64) -> Vec<Check> {
    vec![
        check("random worlds whose limits lie close to what the plan needs", move |c| fitting_worlds(c, 100 * seed)),
        check("random worlds of any values", move |c| loose_worlds(c, 100 * seed + 1)),
        check("random worlds, damaged", move |c| flipped_worlds(c, 100 * seed + 2)),
        check("random bytes", move |c| raw_bytes(c, 100 * seed + 3)),
        check("accepted plans with one partition moved", move |c| many_plans(c, 100 * seed + 4)),
        check("random searches with budgets around the needed count", move |c| searches(c, 100 * seed + 5)),
    ]
}
