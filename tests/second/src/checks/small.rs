//! Whole small worlds: nothing left out of them.

use super::check;
use crate::compare::{hex, Checked, Compare};
use crate::Check;
use second::random::Random;
use second::reference::numbers::{DONE, NONE, STOPPED};
use second::reference::search::{answer, answer_by_definition, plan_bytes};
use second::reference::table::{covering, table_of};
use second::reference::ticks::{first_meeting, Run};
use second::reference::{judge::run_of, Module, Partition, Placement, Sheet};
use second::worlds::{pair, starts, tiny};
use second::write::{sheet_bytes, sheet_fields, with_field};

/// All pairs of T, B and start with T up to 8 on one module: judged; and where accepted, the table built and stepped over
/// three frames. The verdict on C2 is held to a walk over all ticks once more.
fn all_pairs(compare: &mut Compare) -> Checked {
    let kinds: Vec<(u64, u64)> = (1..=8).flat_map(|t| (1..=t).map(move |b| (t, b))).collect();
    for first in &kinds {
        for second in &kinds {
            let sheet = pair(*first, *second);
            let bytes = sheet_bytes(&sheet);
            for (one, two) in (0..=8).flat_map(|one| (0..=8).map(move |two| (one, two))) {
                pair_at(compare, &sheet, &bytes, &starts(&[one, two]))?;
            }
        }
    }
    Ok(())
}

fn pair_at(compare: &mut Compare, sheet: &Sheet, bytes: &[u8], plan: &[Placement]) -> Checked {
    let plan_bytes = plan_bytes(plan);
    let got = compare.judge(bytes, &plan_bytes)?;
    let (one, two): (Run, Run) = (run_of(sheet, plan, 0), run_of(sheet, plan, 1));
    let meeting = first_meeting(one, two, one.period * two.period);
    if (got.number == 2) != meeting.is_some() {
        return Err(format!("{one:?} and {two:?} meet at {meeting:?}, and the answer is {got:?}"));
    }
    if got.number != DONE {
        return Ok(());
    }
    let (built, buffer) = compare.build(bytes, &plan_bytes, 0, &[0xEE; 110])?;
    if built.number != DONE {
        return Err(format!("an accepted pair is not built: {built:?}, sheet {}", hex(bytes)));
    }
    let table = &buffer[..built.length];
    compare.table(table)?;
    let frame = table_of(sheet, plan, 0).expect("it was built").frame;
    compare.run(table, 3 * frame, |tick| covering(sheet, plan, 0, tick))
}

/// All plans of tiny sheets, module numbers one past the end and starts one past the period included. The first accepted
/// one among them is what the search finds; where there is none, it says so; the tries are those of the definition.
fn all_plans(compare: &mut Compare) -> Checked {
    let mut random = Random::new(21);
    let mut met = [0; 3];
    for _ in 0..400 {
        let sheet = tiny(&mut random).sheet;
        let bytes = sheet_bytes(&sheet);
        let accepted = accepted_plans(compare, &sheet, &bytes)?;
        let (needed, plan) = answer_by_definition(&sheet, u32::MAX);
        let first = accepted.first().cloned();
        if first != plan {
            return Err(format!("the first accepted plan is {first:?}, not {plan:?}: sheet {}", hex(&bytes)));
        }
        let tries = needed.tries;
        let close = [0, 1, tries / 2, tries.saturating_sub(1), tries, tries + 1, u32::MAX];
        for budget in close {
            if answer(&sheet, budget) != answer_by_definition(&sheet, budget) {
                return Err(format!("recursion and definition differ at budget {budget}: sheet {}", hex(&bytes)));
            }
            let (got, _) = compare.search(&bytes, budget, &[0xC3; 9])?;
            met[[DONE, NONE, STOPPED].iter().position(|n| *n == got.number).expect("one of three")] += 1;
        }
    }
    if met.contains(&0) {
        return Err(format!("found, none, stopped: {met:?}"));
    }
    Ok(())
}

/// Judges every plan, and gives the accepted ones in dictionary order.
fn accepted_plans(compare: &mut Compare, sheet: &Sheet, bytes: &[u8]) -> Result<Vec<Vec<Placement>>, String> {
    let mut plans: Vec<Vec<Placement>> = vec![vec![]];
    for partition in &sheet.partitions {
        let mut longer = vec![];
        for plan in &plans {
            for module in 0..=sheet.modules.len() {
                for start in 0..=partition.period {
                    let mut more = plan.clone();
                    more.push(Placement { module, start });
                    longer.push(more);
                }
            }
        }
        plans = longer;
    }
    let mut accepted = vec![];
    for plan in plans {
        if compare.judge(bytes, &plan_bytes(&plan))?.number == DONE {
            accepted.push(plan);
        }
    }
    Ok(accepted)
}

/// Every budget from 0 to two past the needed count, on tiny sheets.
fn all_budgets(compare: &mut Compare) -> Checked {
    let mut random = Random::new(22);
    for _ in 0..500 {
        let sheet = tiny(&mut random).sheet;
        let bytes = sheet_bytes(&sheet);
        let needed = answer(&sheet, u32::MAX).0.tries;
        for budget in 0..=(needed + 2).min(400) {
            compare.search(&bytes, budget, &[0x3C; 8])?;
        }
    }
    Ok(())
}

/// Each field of small sheets at all of its values where they are at most 512, and at both ends of its range where not.
fn all_field_values(compare: &mut Compare) -> Checked {
    let mut random = Random::new(23);
    let mut done = 0;
    while done < 40 {
        let world = second::worlds::fitting(&mut random, 3, 5);
        if world.sheet.exclusions.is_empty() || world.sheet.chains.is_empty() {
            continue;
        }
        done += 1;
        let bytes = sheet_bytes(&world.sheet);
        let plan = plan_bytes(&world.plan);
        for place in sheet_fields(&world.sheet) {
            let values: Vec<u64> = if place.width <= 9 {
                (0..1 << place.width).collect()
            } else {
                let most = (1 << place.width) - 1;
                vec![0, 1, 2, 3, 255, 256, 257, most / 2, most / 2 + 1, most - 1, most]
            };
            for value in values {
                let changed = with_field(&bytes, place, value);
                compare.sheet(&changed)?;
                compare.judge(&changed, &plan)?;
            }
        }
    }
    Ok(())
}

/// Heads of every version and spare with counts at and past the ends of their ranges: alone, and before zero bytes.
fn all_heads(compare: &mut Compare) -> Checked {
    for start in 0..32u32 {
        for modules in [0, 1, 16, 17, 31] {
            for partitions in [0, 1, 64, 65, 127] {
                for exclusions in [0, 400, 401, 511] {
                    for chains in [0, 32, 33, 63] {
                        let counts = modules << 23 | partitions << 16 | exclusions << 7 | chains << 1;
                        let head = ((start >> 1) << 28 | counts | (start & 1)).to_be_bytes();
                        compare.sheet(&head)?;
                        compare.judge(&[&head[..], &[0; 20]].concat(), &[])?;
                    }
                }
            }
        }
    }
    Ok(())
}

/// Many partitions of small periods on two modules: which of several overlapping pairs is named.
fn first_pairs(compare: &mut Compare) -> Checked {
    let mut random = Random::new(24);
    let mut named = std::collections::BTreeSet::new();
    for _ in 0..20_000 {
        let n = random.between(4, 7);
        let period = |random: &mut Random| random.one_of(&[6, 12, 18, 24, 30]);
        let partitions = (0..n).map(|_| Partition { period: period(&mut random), budget: 1, memory: 0 }).collect();
        let modules = vec![Module { cabinet: 0, memory: 0, most: 64 }; 2];
        let delays = vec![vec![0; 2]; 2];
        let sheet = Sheet { modules, delays, partitions, exclusions: vec![], chains: vec![] };
        let place = |random: &mut Random| Placement { module: random.below(2) as usize, start: random.below(6) };
        let plan: Vec<Placement> = (0..n).map(|_| place(&mut random)).collect();
        let got = compare.judge(&sheet_bytes(&sheet), &plan_bytes(&plan))?;
        named.insert((got.first, got.second));
    }
    if named.len() < 18 {
        return Err(format!("only these were named: {named:?}"));
    }
    Ok(())
}

pub fn checks() -> Vec<Check> {
    vec![
        check("all pairs of T, B, start with T up to 8: judged, built, stepped over three frames", all_pairs),
        check("all plans of 400 tiny sheets, and the search by the definition of tries", all_plans),
        check("every budget around the needed count of 500 tiny sheets", all_budgets),
        check("heads of every version and spare, with counts at the ends of their ranges", all_heads),
        check("the first pair of many that overlap", first_pairs),
        check("each field of 40 small sheets at all its values, or at the ends of its range", all_field_values),
    ]
}
