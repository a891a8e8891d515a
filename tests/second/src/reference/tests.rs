//! The references held against every worked case of document 01, and against each other.

use super::judge::verdict;
use super::numbers::*;
use super::search::{answer, answer_by_definition, plan_bytes};
use super::table::{covering, table_bytes, table_of};
use super::ticks::*;
use super::*;
use crate::random::Random;
use crate::worlds;
use crate::write::sheet_bytes;

#[test]
fn every_worked_case_of_document_01() {
    for case in worlds::worked_cases() {
        let got = case.asked.answer();
        assert_eq!(got, case.expected, "{}", case.name);
    }
}

#[test]
fn sheet_a_is_written_as_document_01_prints_it() {
    assert_eq!(sheet_bytes(&worlds::sheet_a()), worlds::SHEET_A);
    assert_eq!(read_sheet(&worlds::SHEET_A), Ok(worlds::sheet_a()));
}

#[test]
fn starts_0_and_2_first_meet_at_tick_8() {
    let four = Run { start: 0, period: 4, budget: 1 };
    let six = Run { start: 2, period: 6, budget: 1 };
    assert_eq!(first_meeting(four, six, 12), Some(8));
}

#[test]
fn the_longest_sheet_has_2142_bytes() {
    let longest = worlds::longest(&mut Random::new(1));
    let bytes = sheet_bytes(&longest.sheet);
    assert_eq!(bytes.len(), 2142);
    assert_eq!(read_sheet(&bytes), Ok(longest.sheet));
}

#[test]
fn the_divisor_is_the_greatest_and_the_multiple_the_least() {
    for a in 1..=80u64 {
        for b in 1..=80u64 {
            let divisor = (1..=a.min(b)).rev().find(|d| a % d == 0 && b % d == 0).unwrap();
            assert_eq!(greatest_common_divisor(a, b), divisor);
            let multiple = (1..=a * b).find(|m| m % a == 0 && m % b == 0).unwrap();
            assert_eq!(least_common_multiple(&[a, b], 10_000), Some(multiple));
            assert!(multiple == 1 || least_common_multiple(&[a, b], multiple - 1).is_none());
        }
    }
    assert_eq!(least_common_multiple(&[], 10), Some(1));
}

#[test]
fn residues_say_what_walking_says() {
    for (t, u) in (1..=9u64).flat_map(|t| (1..=9u64).map(move |u| (t, u))) {
        for (b, c) in (1..=t).flat_map(|b| (1..=u).map(move |c| (b, c))) {
            for (start, later) in (0..=t + 1).flat_map(|s| (0..=u + 1).map(move |l| (s, l))) {
                let one = Run { start, period: t, budget: b };
                let two = Run { start: later, period: u, budget: c };
                let walked = first_meeting(one, two, t * u).is_none();
                assert_eq!(apart_by_residues(one, two), walked, "{one:?} {two:?}");
                assert_eq!(apart(one, two), walked);
            }
        }
    }
}

#[test]
fn residues_say_what_walking_says_on_long_periods() {
    let mut random = Random::new(7);
    for _ in 0..3000 {
        let base = random.between(1, 40);
        let mut run = || {
            let period = base * random.between(1, 25);
            Run { start: random.below(2000), period, budget: random.between(1, period.min(base + 1)) }
        };
        let (one, two) = (run(), run());
        assert_eq!(apart_by_residues(one, two), first_meeting(one, two, one.period * two.period).is_none());
    }
}

#[test]
fn recursion_says_what_the_definition_of_tries_says() {
    let mut random = Random::new(3);
    let mut met = [0; 3];
    for _ in 0..400 {
        let sheet = worlds::tiny(&mut random).sheet;
        let budget = random.below(40) as u32;
        let got = answer(&sheet, budget);
        assert_eq!(got, answer_by_definition(&sheet, budget), "{sheet:?}");
        met[[DONE, NONE, STOPPED].iter().position(|n| *n == got.0.number).unwrap()] += 1;
    }
    assert!(met.iter().all(|count| *count > 20), "{met:?}");
}

#[test]
fn a_built_table_is_sound_and_steps_as_the_plan() {
    let mut random = Random::new(11);
    let mut built = 0;
    for _ in 0..600 {
        let world = worlds::fitting(&mut random, 4, 6);
        if verdict(&world.sheet, &world.plan).number != 0 {
            continue;
        }
        for module in 0..world.sheet.modules.len() {
            let Ok(table) = table_of(&world.sheet, &world.plan, module) else { continue };
            let bytes = table_bytes(&table);
            assert_eq!(table_number(&bytes), DONE);
            let mut position = Position::fresh();
            for tick in 0..(2 * table.frame + 3).min(3000) {
                let stepped = step(&bytes, &mut position);
                let partition = covering(&world.sheet, &world.plan, module, tick);
                assert_eq!(stepped, Stepped { number: DONE, partition });
            }
            built += 1;
        }
    }
    assert!(built > 300, "{built}");
}

#[test]
fn a_plan_is_read_back_as_written() {
    let mut random = Random::new(5);
    for _ in 0..200 {
        let world = worlds::loose(&mut random);
        let bytes = plan_bytes(&world.plan);
        assert_eq!(read_plan(&bytes, world.plan.len()), Ok(world.plan));
    }
}

#[test]
fn a_sheet_is_read_back_as_written() {
    let mut random = Random::new(6);
    for _ in 0..200 {
        let sheet = worlds::loose(&mut random).sheet;
        assert_eq!(read_sheet(&sheet_bytes(&sheet)), Ok(sheet));
    }
}
