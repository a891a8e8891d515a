//! The comparison of libghozrembu.a with the second program.
//!
//!     second                  every check once; the last line is 'N passed, 0 failed'
//!     second first            the same, ended by the first difference
//!     second soak [SECONDS]   the random checks on ever new sheets, for so long (600)
//!     second bench            product and fast form measured in one run
//!
//! A difference prints the bytes of the call in hex, and the exit status is 1.

mod bench;
mod checks;
mod compare;
mod fence;
mod library;

use compare::{Checked, Compare, CALLS};
use std::time::{Duration, Instant};

/// A check: its name, and what it does.
pub type Check = (String, Box<dyn FnOnce(&mut Compare) -> Checked>);

/// Runs checks one after the other with a line for each, past a difference if it is to go on. Gives how many passed and
/// failed.
fn run_all(compare: &mut Compare, checks: Vec<Check>, go_on: bool) -> (u64, u64) {
    let begun = Instant::now();
    let (mut passed, mut failed) = (0, 0);
    for (name, check) in checks {
        let before = compare.comparisons;
        match check(compare) {
            Ok(()) => {
                passed += 1;
                let made = compare.comparisons - before;
                println!("{:6.1}s  ok  {made:>9} comparisons  {name}", begun.elapsed().as_secs_f64());
            }
            Err(what) => {
                failed += 1;
                println!("{:6.1}s  DIFFERENCE  {name}: {what}", begun.elapsed().as_secs_f64());
                if !go_on {
                    break;
                }
            }
        }
    }
    (passed, failed)
}

/// Prints how often each call answered with each number; fails when one that can occur was not met.
fn numbers_met(compare: &mut Compare) -> Checked {
    println!("\nnumbers met, by call (. where the call cannot give it):");
    print!("number");
    for (name, _) in CALLS {
        print!("{name:>12}");
    }
    println!();
    let mut missing = vec![];
    for number in 0..28u8 {
        match number {
            9 => continue,
            19 => {
                println!("{number:>6}      cannot occur on bytes: every value fits the field that it was read from");
                continue;
            }
            _ => print!("{number:>6}"),
        }
        for (call, (name, can)) in CALLS.iter().enumerate() {
            let count = compare.met[call][number as usize];
            if can.contains(&number) {
                print!("{count:>12}");
                if count == 0 {
                    missing.push(format!("{number} of {name}"));
                }
            } else {
                print!("{:>12}", if count == 0 { ".".to_string() } else { format!("{count}!") });
                if count != 0 {
                    missing.push(format!("{number} of {name}, which cannot be"));
                }
            }
        }
        println!();
    }
    println!();
    if missing.is_empty() {
        return Ok(());
    }
    Err(format!("numbers never met: {}", missing.join(", ")))
}

fn finish(passed: u64, failed: u64) -> ! {
    println!("{passed} passed, {failed} failed");
    std::process::exit(if failed == 0 { 0 } else { 1 })
}

fn compare_all(go_on: bool) -> ! {
    let mut compare = Compare::new();
    let (mut passed, mut failed) = run_all(&mut compare, checks::all(), go_on);
    if failed > 0 && !go_on {
        finish(passed, failed)
    }
    match numbers_met(&mut compare) {
        Ok(()) => passed += 1,
        Err(what) => {
            failed += 1;
            println!("DIFFERENCE  {what}");
        }
    }
    println!("{} comparisons, {} random sheets and plans", compare.comparisons, compare.sheets);
    finish(passed, failed)
}

fn soak(seconds: u64) -> ! {
    let mut compare = Compare::new();
    let begun = Instant::now();
    let (mut passed, mut failed) = (0, 0);
    let mut seed = 1_000;
    while failed == 0 && begun.elapsed() < Duration::from_secs(seconds) {
        println!("soak: seed {seed}, {:.0}s of {seconds}s", begun.elapsed().as_secs_f64());
        let (more, less) = run_all(&mut compare, checks::random(seed), false);
        passed += more;
        failed += less;
        seed += 1;
    }
    println!("{} comparisons, {} random sheets and plans", compare.comparisons, compare.sheets);
    finish(passed, failed)
}

fn main() {
    fence::watch();
    let words: Vec<String> = std::env::args().skip(1).collect();
    let words: Vec<&str> = words.iter().map(String::as_str).collect();
    match words[..] {
        [] => compare_all(true),
        ["first"] => compare_all(false),
        ["soak"] => soak(600),
        ["soak", seconds] if seconds.parse::<u64>().is_ok() => soak(seconds.parse().expect("a number")),
        ["bench"] => bench::run(),
        _ => {
            eprintln!("usage: second [first | soak [SECONDS] | bench]");
            std::process::exit(2)
        }
    }
}
