//! The benchmark: the product and the fast form on the same inputs, turn by turn in one run. For each call the medians and
//! their ratio are printed. Both are asked through the same shape of call, and their answers are compared on the way.

use crate::library;
use second::fast;
use second::random::Random;
use second::reference::numbers::{DONE, STOPPED};
use second::reference::search::plan_bytes;
use second::reference::{Chain, Exclusion, Module, Partition, Placement, Position, Sheet};
use second::worlds::{longest, World};
use second::write::sheet_bytes;
use std::hint::black_box;
use std::time::Instant;

/// How often each side is measured; the median counts.
const ROUNDS: usize = 9;
/// How long one measurement lasts at least.
const SECONDS: f64 = 0.05;

/// Seconds for one unit of work: `work` is repeated until the time is long enough to be measured.
fn timed(units: u64, work: &mut dyn FnMut()) -> f64 {
    let mut turns = 1;
    loop {
        let begun = Instant::now();
        for _ in 0..turns {
            work();
        }
        let spent = begun.elapsed().as_secs_f64();
        if spent >= SECONDS {
            return spent / (turns * units) as f64;
        }
        turns = if spent < SECONDS / 100.0 { turns * 10 } else { (turns as f64 * SECONDS / spent * 1.2) as u64 + 1 };
    }
}

fn median(mut all: Vec<f64>) -> f64 {
    all.sort_by(f64::total_cmp);
    all[all.len() / 2]
}

/// One line: what is measured, product, fast form, ratio. With `per_second` in units a second, else in nanoseconds.
fn line(name: &str, units: u64, per_second: bool, product: &mut dyn FnMut(), quick: &mut dyn FnMut()) {
    let (mut ours, mut theirs) = (vec![], vec![]);
    for _ in 0..ROUNDS {
        ours.push(timed(units, product));
        theirs.push(timed(units, quick));
    }
    let (ours, theirs) = (median(ours), median(theirs));
    let show = |seconds: f64| match per_second {
        true => format!("{:.2} million/s", 1e-6 / seconds),
        false if seconds >= 1e-6 => format!("{:.2} us", 1e6 * seconds),
        false => format!("{:.2} ns", 1e9 * seconds),
    };
    println!("| {name} | {} | {} | {:.2} |", show(ours), show(theirs), ours / theirs);
}

/// The largest sheet that is accepted: 64 partitions on one module, 400 exclusions, 32 chains of 16. Exclusions between
/// partitions of one module would be broken; the 64th partition stands on a second module, and all 400 name it.
fn largest_sheet() -> World {
    let mut world = longest(&mut Random::new(9));
    for i in 0..63 {
        world.plan[i] = Placement { module: 0, start: i as u64 };
    }
    world.plan[63] = Placement { module: 1, start: 63 };
    for entry in &mut world.sheet.exclusions {
        entry.second = 63;
    }
    for chain in &mut world.sheet.chains {
        chain.limit = (1 << 24) - 1;
    }
    world
}

/// The largest sheet with all 64 partitions on one module; its exclusions are then broken, and C6 or C7 answers at the
/// first of them, after all pairs.
fn one_module() -> World {
    let mut world = largest_sheet();
    world.plan[63].module = 0;
    world
}

fn partition(period: u64, budget: u64) -> Partition {
    Partition { period, budget, memory: 10 }
}

fn sheet(modules: usize, partitions: Vec<Partition>) -> Sheet {
    let all = (0..modules as u64).map(|i| Module { cabinet: i % 8, memory: 1_000, most: 64 }).collect();
    let row = |from: usize| (0..modules).map(|to| if from == to { 0 } else { 5 }).collect();
    Sheet { modules: all, delays: (0..modules).map(row).collect(), partitions, exclusions: vec![], chains: vec![] }
}

/// Eight partitions with periods of some hundreds on two modules, too full to be placed.
fn short_periods() -> Sheet {
    let periods = [200, 300, 400, 500, 600, 700, 800, 900];
    let mut sheet = sheet(2, periods.iter().map(|period| partition(*period, 51)).collect());
    sheet.chains.push(Chain { limit: 40_000, members: vec![0, 3, 5, 7] });
    sheet
}

/// Long periods, so that a partition has tens of thousands of starts.
fn long_periods() -> Sheet {
    let periods = [30_000, 36_000, 45_000, 50_000, 54_000, 60_000];
    sheet(2, periods.iter().map(|period| partition(*period, 3_500)).collect())
}

/// Sixteen modules, forty partitions, exclusions and chains between them.
fn many_modules() -> Sheet {
    let mut random = Random::new(77);
    let mut sheet = sheet(16, (0..40).map(|i| partition(60 + 30 * (i % 4), 31)).collect());
    for _ in 0..60 {
        let second = random.between(1, 39) as usize;
        let first = random.below(second as u64) as usize;
        sheet.exclusions.push(Exclusion { cabinet: random.once_in(4), first, second });
    }
    for start in 0..8 {
        sheet.chains.push(Chain { limit: 700, members: vec![start, start + 9, start + 20, start + 31] });
    }
    sheet
}

/// The most partitions, exclusions and chains, with room everywhere: most tries fail at the chain that the last
/// partition completes, the others at its exclusions.
fn many_constraints() -> Sheet {
    let mut random = Random::new(78);
    let mut sheet = sheet(16, (0..64).map(|_| partition(100, 1)).collect());
    for _ in 0..400 {
        let second = random.between(1, 63) as usize;
        let first = random.below(second as u64) as usize;
        sheet.exclusions.push(Exclusion { cabinet: random.once_in(8), first, second });
    }
    for start in 0..31 {
        sheet.chains.push(Chain { limit: 100_000, members: vec![start, 32, 33, 34, 60] });
    }
    sheet.chains.push(Chain { limit: 10, members: vec![31, 32, 33, 34, 63] });
    sheet
}

/// The same with one start for each partition, and so one partition to a module: next to nothing to share between tries.
fn one_start() -> Sheet {
    let mut sheet = many_constraints();
    sheet.partitions = (0..64).map(|_| partition(100, 100)).collect();
    sheet
}

fn tries(name: &str, sheet: &Sheet) {
    const BUDGET: u32 = 400_000;
    let bytes = sheet_bytes(sheet);
    let (mut one, mut two) = ([0; 160], [0; 160]);
    let found = fast::search(&bytes, BUDGET, &mut two);
    assert!(found == library::plain_search(&bytes, BUDGET, &mut one) && one == two, "{name}: the answers differ");
    assert!(found.number == STOPPED, "{name}: the search is to use up its budget, and answers {found:?}");
    line(
        name,
        u64::from(BUDGET),
        true,
        &mut || {
            _ = black_box(library::plain_search(black_box(&bytes), BUDGET, &mut one));
        },
        &mut || {
            _ = black_box(fast::search(black_box(&bytes), BUDGET, &mut two));
        },
    );
}

fn judged(name: &str, world: &World, number: u8) {
    let (sheet, plan) = (sheet_bytes(&world.sheet), plan_bytes(&world.plan));
    let answer = fast::judge(&sheet, &plan);
    assert!(answer == library::plain_judge(&sheet, &plan) && answer.number == number, "{name}: {answer:?}");
    line(
        name,
        1,
        false,
        &mut || {
            _ = black_box(library::plain_judge(black_box(&sheet), &plan));
        },
        &mut || {
            _ = black_box(fast::judge(black_box(&sheet), &plan));
        },
    );
}

/// The largest table: 1,024 slots in 16,777,152 ticks.
fn table() -> (Vec<u8>, Vec<u8>) {
    let mut sheet = sheet(1, vec![partition(32_832, 40), partition(32_704, 24)]);
    sheet.modules[0].memory = 20;
    let plan = [Placement { module: 0, start: 17 }, Placement { module: 0, start: 57 }];
    (sheet_bytes(&sheet), plan_bytes(&plan))
}

/// The processor's name, as Linux has it.
fn machine() -> String {
    let all = std::fs::read_to_string("/proc/cpuinfo").unwrap_or_default();
    let line = all.lines().find(|line| line.starts_with("model name"));
    line.and_then(|line| line.split(':').nth(1))
        .map_or("an unknown machine".to_string(), |name| name.trim().to_string())
}

pub fn run() -> ! {
    println!("{}, one thread\n", machine());
    println!("| call | product | fast form | time of product / time of fast form |");
    println!("|---|---|---|---|");
    let largest = largest_sheet();
    let bytes = sheet_bytes(&largest.sheet);
    line(
        "sheet test, 2,142 bytes",
        1,
        false,
        &mut || {
            _ = black_box(library::plain_sheet_number(black_box(&bytes)));
        },
        &mut || {
            _ = black_box(fast::sheet_number(black_box(&bytes)));
        },
    );
    judged("judge of the largest sheet, accepted", &largest, DONE);
    judged("judge of 64 partitions on one module, to its exclusions", &one_module(), 6);
    let (sheet, plan) = table();
    let (mut one, mut two) = ([0; 6_149], [0; 6_149]);
    let built = fast::build(&sheet, &plan, 0, &mut two);
    assert!(built == library::plain_build(&sheet, &plan, 0, &mut one) && one == two && built.length == 6_149);
    line(
        "build of the largest table, 1,024 slots",
        1,
        false,
        &mut || {
            _ = black_box(library::plain_build(black_box(&sheet), &plan, 0, &mut one));
        },
        &mut || {
            _ = black_box(fast::build(black_box(&sheet), &plan, 0, &mut two));
        },
    );
    line(
        "table test, 1,024 slots",
        1,
        false,
        &mut || {
            _ = black_box(library::plain_table_number(black_box(&one)));
        },
        &mut || {
            _ = black_box(fast::table_number(black_box(&two)));
        },
    );
    let (mut here, mut there) = (Position::fresh(), Position::fresh());
    line(
        "step, over the largest table",
        1_000,
        false,
        &mut || {
            (0..1_000).for_each(|_| {
                _ = black_box(library::plain_step(black_box(&one), &mut here));
            })
        },
        &mut || {
            (0..1_000).for_each(|_| {
                _ = black_box(fast::step(black_box(&two), &mut there));
            })
        },
    );
    tries("tries: 8 partitions, periods of some hundreds, 2 modules", &short_periods());
    tries("tries: 6 partitions, periods of some ten thousands, 2 modules", &long_periods());
    tries("tries: 40 partitions, 16 modules, 60 exclusions, 8 chains", &many_modules());
    tries("tries: 64 partitions, 16 modules, 400 exclusions, 32 chains", &many_constraints());
    tries("tries: the same with one start for each partition", &one_start());
    println!("\nmedians of {ROUNDS} measurements of at least {SECONDS} s each, product and fast form turn by turn");
    std::process::exit(0)
}
