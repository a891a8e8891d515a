//! The judge: C1 to C8, one after the other ("The eight constraints").

use super::sheet::{read_plan, read_sheet, Chain, Placement, Sheet};
use super::ticks::{apart, Run};

/// A constraint or another number, and two places.
#[derive(Clone, Copy, Debug, PartialEq, Eq)]
pub struct Answer {
    pub number: u8,
    pub first: u32,
    pub second: u32,
}

impl Answer {
    /// A number with the places 0 0.
    pub fn of(number: u8) -> Answer {
        Answer { number, first: 0, second: 0 }
    }

    fn at(number: u8, first: usize, second: usize) -> Answer {
        Answer { number, first: first as u32, second: second as u32 }
    }
}

/// The executions of partition i where the plan places it.
pub fn run_of(sheet: &Sheet, plan: &[Placement], i: usize) -> Run {
    Run { start: plan[i].start, period: sheet.partitions[i].period, budget: sheet.partitions[i].budget }
}

/// The placed partitions of a module, ascending.
pub fn held_by(plan: &[Placement], module: usize) -> Vec<usize> {
    (0..plan.len()).filter(|i| plan[*i].module == module).collect()
}

// Each constraint gives its first broken place. All speak of the placed partitions only, 0 to plan.len() - 1, so that
// they serve a whole plan (the judge) and a partial one (the search).

fn c1(sheet: &Sheet, plan: &[Placement]) -> Option<usize> {
    plan.iter().position(|place| place.module >= sheet.modules.len())
}

fn c2(sheet: &Sheet, plan: &[Placement]) -> Option<(usize, usize)> {
    for i in 0..plan.len() {
        for k in i + 1..plan.len() {
            if plan[i].module == plan[k].module && !apart(run_of(sheet, plan, i), run_of(sheet, plan, k)) {
                return Some((i, k));
            }
        }
    }
    None
}

fn c3(sheet: &Sheet, plan: &[Placement]) -> Option<usize> {
    (0..plan.len()).find(|i| plan[*i].start + sheet.partitions[*i].budget > sheet.partitions[*i].period)
}

fn c4(sheet: &Sheet, plan: &[Placement]) -> Option<usize> {
    (0..sheet.modules.len()).find(|module| {
        let used: u64 = held_by(plan, *module).iter().map(|i| sheet.partitions[*i].memory).sum();
        used > sheet.modules[*module].memory
    })
}

fn c5(sheet: &Sheet, plan: &[Placement]) -> Option<usize> {
    (0..sheet.modules.len()).find(|module| held_by(plan, *module).len() as u64 > sheet.modules[*module].most)
}

fn c6(sheet: &Sheet, plan: &[Placement]) -> Option<usize> {
    sheet
        .exclusions
        .iter()
        .position(|e| e.second < plan.len() && !e.cabinet && plan[e.first].module == plan[e.second].module)
}

fn c7(sheet: &Sheet, plan: &[Placement]) -> Option<usize> {
    let cabinet = |i: usize| sheet.modules[plan[i].module].cabinet;
    sheet.exclusions.iter().position(|e| e.second < plan.len() && e.cabinet && cabinet(e.first) == cabinet(e.second))
}

/// The sum over neighbouring members (i, then k) of Bi + Tk + the delay from i's module to k's module.
pub fn chain_delay(sheet: &Sheet, plan: &[Placement], chain: &Chain) -> u64 {
    let step = |i: usize, k: usize| {
        sheet.partitions[i].budget + sheet.partitions[k].period + sheet.delays[plan[i].module][plan[k].module]
    };
    chain.members.windows(2).map(|two| step(two[0], two[1])).sum()
}

fn c8(sheet: &Sheet, plan: &[Placement]) -> Option<usize> {
    sheet.chains.iter().position(|chain| {
        if chain.members.iter().any(|member| *member >= plan.len()) {
            return false;
        }
        chain_delay(sheet, plan, chain) > chain.limit
    })
}

/// The first broken constraint with its places, over the placed partitions.
pub fn verdict(sheet: &Sheet, plan: &[Placement]) -> Answer {
    if let Some(i) = c1(sheet, plan) {
        return Answer::at(1, i, 0);
    }
    if let Some((i, k)) = c2(sheet, plan) {
        return Answer::at(2, i, k);
    }
    if let Some(i) = c3(sheet, plan) {
        return Answer::at(3, i, 0);
    }
    if let Some(module) = c4(sheet, plan) {
        return Answer::at(4, module, 0);
    }
    if let Some(module) = c5(sheet, plan) {
        return Answer::at(5, module, 0);
    }
    if let Some(entry) = c6(sheet, plan) {
        return Answer::at(6, entry, 0);
    }
    if let Some(entry) = c7(sheet, plan) {
        return Answer::at(7, entry, 0);
    }
    if let Some(chain) = c8(sheet, plan) {
        return Answer::at(8, chain, 0);
    }
    Answer::of(0)
}

/// The judge on bytes: sheet, 18, C1 to C8.
pub fn judge(sheet: &[u8], plan: &[u8]) -> Answer {
    let sheet = match read_sheet(sheet) {
        Ok(sheet) => sheet,
        Err(number) => return Answer::of(number),
    };
    match read_plan(plan, sheet.partitions.len()) {
        Ok(plan) => verdict(&sheet, &plan),
        Err(number) => Answer::of(number),
    }
}
