//! Good bytes, damaged: cut short at every byte, each bit flipped, bytes appended.

use super::check;
use crate::compare::{Checked, Compare};
use crate::Check;
use second::random::Random;
use second::reference::search::plan_bytes;
use second::worlds::{fitting, longest, World};
use second::write::{sheet_bytes, with_flip};

fn sheet_cut(compare: &mut Compare, bytes: &[u8], plan: &[u8]) -> Checked {
    for length in 0..bytes.len() {
        compare.sheet(&bytes[..length])?;
        compare.judge(&bytes[..length], plan)?;
        compare.search(&bytes[..length], 5, &[1; 20])?;
        compare.build(&bytes[..length], plan, 0, &[2; 50])?;
    }
    Ok(())
}

fn sheet_flipped(compare: &mut Compare, bytes: &[u8], plan: &[u8]) -> Checked {
    for bit in 0..8 * bytes.len() {
        let flipped = with_flip(bytes, bit);
        compare.judge(&flipped, plan)?;
        match bit % 3 {
            0 => compare.sheet(&flipped).map(|_| ())?,
            1 => compare.search(&flipped, 3, &[4; 30]).map(|_| ())?,
            _ => compare.build(&flipped, plan, bit % 4, &[5; 80]).map(|_| ())?,
        }
    }
    Ok(())
}

fn appended(compare: &mut Compare, bytes: &[u8], plan: &[u8]) -> Checked {
    for more in [1, 2, 3, 7, 8, 100, 2_142, 60_000] {
        for value in [0, 1, 255] {
            let mut longer = bytes.to_vec();
            longer.resize(bytes.len() + more, value);
            compare.sheet(&longer)?;
            compare.judge(&longer, plan)?;
            let mut longer_plan = plan.to_vec();
            longer_plan.resize(plan.len() + more, value);
            compare.judge(bytes, &longer_plan)?;
            compare.build(bytes, &longer_plan, 0, &[6; 40])?;
        }
    }
    Ok(())
}

fn plan_damaged(compare: &mut Compare, bytes: &[u8], plan: &[u8]) -> Checked {
    for length in 0..plan.len() {
        compare.judge(bytes, &plan[..length])?;
        compare.build(bytes, &plan[..length], 0, &[7; 40])?;
    }
    for bit in 0..8 * plan.len() {
        let flipped = with_flip(plan, bit);
        compare.judge(bytes, &flipped)?;
        compare.build(bytes, &flipped, bit % 3, &[8; 200])?;
    }
    Ok(())
}

fn small_sheets(compare: &mut Compare) -> Checked {
    let mut random = Random::new(31);
    for turn in 0..120 {
        let world = if turn % 10 == 0 { fitting(&mut random, 6, 14) } else { fitting(&mut random, 3, 5) };
        let (bytes, plan) = (sheet_bytes(&world.sheet), plan_bytes(&world.plan));
        if bytes.len() > 300 {
            continue;
        }
        sheet_cut(compare, &bytes, &plan)?;
        sheet_flipped(compare, &bytes, &plan)?;
        plan_damaged(compare, &bytes, &plan)?;
    }
    Ok(())
}

fn with_more(compare: &mut Compare) -> Checked {
    let mut random = Random::new(32);
    for _ in 0..12 {
        let world = fitting(&mut random, 3, 6);
        appended(compare, &sheet_bytes(&world.sheet), &plan_bytes(&world.plan))?;
    }
    Ok(())
}

/// A sheet that is too long in its counts has no bytes that hold it; the longest has 2,142.
fn longest_sheet(compare: &mut Compare) -> Checked {
    let World { sheet, plan } = longest(&mut Random::new(33));
    let (bytes, plan) = (sheet_bytes(&sheet), plan_bytes(&plan));
    let judged = compare.judge(&bytes, &plan)?;
    if bytes.len() != 2_142 || judged.number != 0 {
        return Err(format!("{} bytes, answer {judged:?}", bytes.len()));
    }
    for length in (0..bytes.len()).step_by(3) {
        compare.sheet(&bytes[..length])?;
        compare.judge(&bytes[..length], &plan)?;
    }
    for bit in (0..8 * bytes.len()).step_by(5) {
        compare.judge(&with_flip(&bytes, bit), &plan)?;
    }
    for bit in 0..8 * plan.len() {
        compare.judge(&bytes, &with_flip(&plan, bit))?;
    }
    for budget in [0, 1, 63, 64, 65, 300] {
        compare.search(&bytes, budget, &[9; 160])?;
    }
    for room in [0, 1, 159, 160, 161] {
        compare.search(&bytes, 20, &vec![10; room])?;
    }
    for module in [0, 1, 2, 3, 15, 16, 17, 255, 256, 65_536, 1 << 32, usize::MAX - 1, usize::MAX] {
        compare.build(&bytes, &plan, module, &[11; 6_149])?;
    }
    appended(compare, &bytes, &plan)
}

pub fn checks() -> Vec<Check> {
    vec![
        check("sheets and plans cut short at every byte, each bit flipped", small_sheets),
        check("sheets and plans with bytes appended", with_more),
        check("the longest sheet, 2,142 bytes, whole and damaged", longest_sheet),
    ]
}
