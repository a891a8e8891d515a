//! Sheets and plans to compare on: the worked cases of document 01, and worlds made by a source of numbers.

use crate::random::Random;
use crate::reference::bits::bytes_of;
use crate::reference::judge::chain_delay;
use crate::reference::search::plan_bytes;
use crate::reference::{
    build, judge, search, sheet_number, step, table_number, Chain, Exclusion, Module, Partition, Placement, Position,
    Sheet,
};
use crate::write::sheet_bytes;

/// A sheet and a plan for it.
#[derive(Clone, Debug)]
pub struct World {
    pub sheet: Sheet,
    pub plan: Vec<Placement>,
}

/// Sheet A as document 01 prints it.
pub const SHEET_A: [u8; 23] = [
    0x10, 0x82, 0x00, 0x00, 0x00, 0x00, 0xC8, 0x08, 0x00, 0x00, 0x00, 0x10, 0x00, 0x04, 0x00, 0x02, 0x80, 0x01, 0x80,
    0x00, 0x40, 0x00, 0x28,
];

/// One module (cabinet 0, memory 100, at most 2); partitions 4/1/10 and 6/1/10 as T/B/memory.
pub fn sheet_a() -> Sheet {
    pair((4, 1), (6, 1))
}

/// Sheet A with other periods and budgets.
pub fn pair(first: (u64, u64), second: (u64, u64)) -> Sheet {
    let partition = |(period, budget)| Partition { period, budget, memory: 10 };
    Sheet {
        modules: vec![Module { cabinet: 0, memory: 100, most: 2 }],
        delays: vec![vec![0]],
        partitions: vec![partition(first), partition(second)],
        exclusions: vec![],
        chains: vec![],
    }
}

/// All on module 0, with these starts.
pub fn starts(all: &[u64]) -> Vec<Placement> {
    all.iter().map(|start| Placement { module: 0, start: *start }).collect()
}

/// A call with what it is asked.
#[derive(Clone, Debug)]
pub enum Asked {
    Judge { sheet: Vec<u8>, plan: Vec<u8> },
    Search { sheet: Vec<u8>, budget: u32, room: usize },
    Build { sheet: Vec<u8>, plan: Vec<u8>, module: usize, room: usize },
    Sheet { sheet: Vec<u8> },
    Table { table: Vec<u8> },
    Steps { table: Vec<u8>, from: Position, steps: usize },
}

/// All that a call gives back: its numbers, and the lent bytes afterwards (they hold 0xEE before), or for steps the
/// partition of each step and the position at the end.
#[derive(Clone, Debug, PartialEq, Eq)]
pub struct Got {
    pub numbers: Vec<u64>,
    pub lent: Vec<u8>,
}

impl Asked {
    /// The reference's answer.
    pub fn answer(&self) -> Got {
        match self {
            Asked::Judge { sheet, plan } => {
                let got = judge(sheet, plan);
                Got { numbers: vec![got.number as u64, got.first as u64, got.second as u64], lent: vec![] }
            }
            Asked::Search { sheet, budget, room } => {
                let mut lent = vec![0xEE; *room];
                let got = search(sheet, *budget, &mut lent);
                Got { numbers: vec![got.number as u64, got.tries as u64], lent }
            }
            Asked::Build { sheet, plan, module, room } => {
                let mut lent = vec![0xEE; *room];
                let got = build(sheet, plan, *module, &mut lent);
                Got { numbers: vec![got.number as u64, got.length as u64], lent }
            }
            Asked::Sheet { sheet } => Got { numbers: vec![sheet_number(sheet) as u64], lent: vec![] },
            Asked::Table { table } => Got { numbers: vec![table_number(table) as u64], lent: vec![] },
            Asked::Steps { table, from, steps } => {
                let mut position = *from;
                let mut numbers = vec![];
                for _ in 0..*steps {
                    let got = step(table, &mut position);
                    numbers.extend([got.number as u64, got.partition as u64]);
                }
                numbers.extend([position.tick as u64, position.slot as u64]);
                Got { numbers, lent: vec![] }
            }
        }
    }
}

/// A worked case of document 01.
pub struct Case {
    pub name: String,
    pub asked: Asked,
    pub expected: Got,
}

fn judged(name: &str, sheet: &Sheet, plan: &[Placement], numbers: [u64; 3]) -> Case {
    let asked = Asked::Judge { sheet: sheet_bytes(sheet), plan: plan_bytes(plan) };
    Case { name: name.to_string(), asked, expected: Got { numbers: numbers.to_vec(), lent: vec![] } }
}

/// A search with a buffer one byte longer than the plan.
fn searched(name: &str, sheet: &Sheet, budget: u32, numbers: [u64; 2], plan: &[u8]) -> Case {
    let asked = Asked::Search { sheet: sheet_bytes(sheet), budget, room: 6 };
    let mut lent = vec![0xEE; 6];
    lent[..plan.len()].copy_from_slice(plan);
    Case { name: name.to_string(), asked, expected: Got { numbers: numbers.to_vec(), lent } }
}

/// Every case of "Sheet A and what follows from it", and of the shortcuts, in their order.
pub fn worked_cases() -> Vec<Case> {
    let a = sheet_a();
    let with = |change: &dyn Fn(&mut Sheet)| {
        let mut sheet = sheet_a();
        change(&mut sheet);
        sheet
    };
    let chain = |limit| with(&|sheet: &mut Sheet| sheet.chains.push(Chain { limit, members: vec![0, 1] }));
    let none = pair((2, 1), (3, 1));
    let many = pair((2, 1), (4096, 1));
    let one_off = [Placement { module: 0, start: 0 }, Placement { module: 1, start: 1 }];
    let table_a = bytes_of(&table_text());
    let mut twelve: Vec<u64> = [0, 1, 64, 64, 0, 64, 64, 1, 0, 64, 64, 64].iter().flat_map(|p| [0, *p]).collect();
    twelve.extend([0, 0]);
    let mut cases = vec![
        judged("sheet A, starts 0 and 1: accepted", &a, &starts(&[0, 1]), [0, 0, 0]),
        judged("starts 0 and 2: they meet at tick 8", &a, &starts(&[0, 2]), [2, 0, 1]),
        judged("starts 0 and 5: accepted", &a, &starts(&[0, 5]), [0, 0, 0]),
        judged("starts 3 and 0: accepted, d = 1", &a, &starts(&[3, 0]), [0, 0, 0]),
        judged("starts 0 and 6: C2, although C3 is broken too", &a, &starts(&[0, 6]), [2, 0, 1]),
        judged("starts 0 and 7: C3", &a, &starts(&[0, 7]), [3, 1, 0]),
        judged("partition 1 on module 1: C1", &a, &one_off, [1, 1, 0]),
        judged("module memory 20", &with(&|s| s.modules[0].memory = 20), &starts(&[0, 1]), [0, 0, 0]),
        judged("module memory 19", &with(&|s| s.modules[0].memory = 19), &starts(&[0, 1]), [4, 0, 0]),
        judged("most partitions 1", &with(&|s| s.modules[0].most = 1), &starts(&[0, 1]), [5, 0, 0]),
        judged("chain 0, 1 with limit 7", &chain(7), &starts(&[0, 1]), [0, 0, 0]),
        judged("chain 0, 1 with limit 6", &chain(6), &starts(&[0, 1]), [8, 0, 0]),
        searched("search of A, budget 3: found", &a, 3, [0, 3], &[0, 0, 0, 0, 1]),
        searched("search of A, budget 2: stopped", &a, 2, [27, 2], &[]),
        searched("search of A, budget 0: stopped", &a, 0, [27, 0], &[]),
        searched("periods 2 and 3, budget 8: none", &none, 8, [26, 8], &[]),
        searched("periods 2 and 3, budget 7: stopped", &none, 7, [27, 7], &[]),
    ];
    let mut more = |name: &str, asked: Asked, numbers: Vec<u64>, lent: Vec<u8>| {
        cases.push(Case { name: name.to_string(), asked, expected: Got { numbers, lent } });
    };
    let sheet = sheet_bytes(&a);
    let plan = plan_bytes(&starts(&[0, 1]));
    let asked = Asked::Judge { sheet: SHEET_A.to_vec(), plan: vec![0, 0, 0, 0, 1] };
    more("sheet A and its plan as printed: 0 0 0", asked, vec![0, 0, 0], vec![]);
    let asked = Asked::Build { sheet: sheet.clone(), plan: plan.clone(), module: 0, room: 35 };
    more("the table of A with starts 0, 1", asked, vec![0, 35], table_a.clone());
    more("that table is sound", Asked::Table { table: table_a.clone() }, vec![0], vec![]);
    let asked = Asked::Steps { table: table_a, from: Position::fresh(), steps: 12 };
    more("twelve steps of that table", asked, twelve, vec![]);
    more("an empty sheet is 10", Asked::Sheet { sheet: vec![] }, vec![10], vec![]);
    more("an empty sheet judged", Asked::Judge { sheet: vec![], plan: vec![] }, vec![10, 0, 0], vec![]);
    more("an empty sheet searched", Asked::Search { sheet: vec![], budget: 9, room: 0 }, vec![10, 0], vec![]);
    let asked = Asked::Build { sheet: vec![], plan: vec![], module: 0, room: 0 };
    more("an empty sheet built", asked, vec![10, 0], vec![]);
    more("an empty plan judged", Asked::Judge { sheet: sheet.clone(), plan: vec![] }, vec![18, 0, 0], vec![]);
    let asked = Asked::Build { sheet, plan: vec![], module: 0, room: 0 };
    more("an empty plan built", asked, vec![18, 0], vec![]);
    let asked = Asked::Build { sheet: sheet_bytes(&many), plan, module: 0, room: 9000 };
    more("periods 2 and 4,096 on one module build to 22", asked, vec![22, 0], vec![0xEE; 9000]);
    cases
}

/// The table of A with starts 0, 1, bit by bit: F = 12, slots (0,1,0) (1,1,1) (4,1,0) (7,1,1) (8,1,0).
fn table_text() -> String {
    let mut text = format!("{:024b}{:011b}00000", 12, 5);
    for (start, length, partition) in [(0, 1, 0), (1, 1, 1), (4, 1, 0), (7, 1, 1), (8, 1, 0)] {
        text += &format!("{start:024b}{length:016b}{partition:06b}00");
    }
    text
}

/// The delays between m modules: 0 on the diagonal, elsewhere below `most`.
fn delays(random: &mut Random, m: usize, most: u64) -> Vec<Vec<u64>> {
    let mut row = |from: usize| (0..m).map(|to| if from == to { 0 } else { random.below(most) }).collect();
    (0..m).map(&mut row).collect()
}

/// An exclusion of two of n partitions, n at least 2.
fn exclusion(random: &mut Random, n: usize) -> Exclusion {
    let second = random.between(1, n as u64 - 1) as usize;
    Exclusion { cabinet: random.once_in(2), first: random.below(second as u64) as usize, second }
}

/// A chain over n partitions, n at least 2, of any length from 2 to `longest`.
fn chain(random: &mut Random, n: usize, longest: u64) -> Chain {
    let mut members = vec![random.below(n as u64) as usize];
    for _ in 1..random.between(2, longest) {
        let other = random.below(n as u64 - 1) as usize;
        members.push(if other >= *members.last().expect("one is there") { other + 1 } else { other });
    }
    Chain { limit: random.below(1 << 24), members }
}

/// One more, one less or exactly as many, but for a small number of cases: limits that bite or just do not.
fn close_to(random: &mut Random, value: u64, most: u64) -> u64 {
    let close = match random.below(24) {
        0 => value.saturating_sub(1),
        1 => random.below(most + 1),
        2..=8 => value + random.below(50),
        _ => value,
    };
    close.min(most)
}

/// A world whose plan keeps C1, C2 and C3, and whose limits lie close to what the plan needs, so that C4 to C8 hold or
/// break by one. On each module the partitions share a base: each period is a multiple of it, and each takes a piece of
/// the base of its own.
pub fn fitting(random: &mut Random, most_modules: u64, most_partitions: u64) -> World {
    let m = random.between(1, most_modules) as usize;
    let asked = random.between(1, most_partitions) as usize;
    let bases: Vec<u64> = (0..m).map(|_| random.one_of(&[1, 2, 3, 4, 6, 8, 12, 30, 64, 210, 1000])).collect();
    let turned: Vec<u64> = bases.iter().map(|base| random.below(*base)).collect();
    let mut taken = vec![0; m];
    let mut partitions = vec![];
    let mut plan = vec![];
    for _ in 0..asked {
        let module = random.below(m as u64) as usize;
        let base = bases[module];
        if taken[module] >= base {
            continue;
        }
        let room = base - taken[module];
        let skipped = if room > 3 && random.once_in(3) { random.below(3) } else { 0 };
        let most = if random.once_in(8) { room - skipped } else { (room - skipped).min(3) };
        let budget = random.between(1, most);
        let residue = (taken[module] + skipped + turned[module]) % base;
        taken[module] += skipped + budget;
        let widest = 65_535 / base;
        let mut times = match random.below(6) {
            0 => random.between(1, widest),
            1 => widest,
            _ => random.between(1, widest.min(8)),
        };
        if residue + budget > base {
            times = times.max(2);
        }
        let period = base * times;
        let last = (period - budget - residue) / base;
        let start = residue + base * random.below(last + 1);
        let memory = if random.once_in(4) { random.below(1 << 20) } else { random.below(200) };
        partitions.push(Partition { period, budget, memory });
        plan.push(Placement { module, start });
    }
    if partitions.is_empty() {
        partitions.push(Partition { period: 5, budget: 2, memory: 0 });
        plan.push(Placement { module: 0, start: 3 });
    }
    limits(random, m, partitions, plan)
}

/// The modules, exclusions and chains around partitions and their plan.
fn limits(random: &mut Random, m: usize, partitions: Vec<Partition>, plan: Vec<Placement>) -> World {
    let n = partitions.len();
    let mut modules = vec![];
    for module in 0..m {
        let held: Vec<usize> = (0..n).filter(|i| plan[*i].module == module).collect();
        let used: u64 = held.iter().map(|i| partitions[*i].memory).sum();
        modules.push(Module {
            cabinet: random.below(8),
            memory: close_to(random, used, (1 << 20) - 1),
            most: close_to(random, held.len() as u64, 127),
        });
    }
    let width = random.one_of(&[10, 65_536]);
    let delays = delays(random, m, width);
    let mut sheet = Sheet { modules, delays, partitions, exclusions: vec![], chains: vec![] };
    if n >= 2 {
        let (most_exclusions, most_chains) = if random.once_in(50) { (400, 32) } else { (4, 3) };
        for _ in 0..random.below(most_exclusions + 1) {
            let mut entry = exclusion(random, n);
            let (one, two) = (plan[entry.first].module, plan[entry.second].module);
            let kept =
                if entry.cabinet { sheet.modules[one].cabinet != sheet.modules[two].cabinet } else { one != two };
            if !kept && one != two {
                entry.cabinet = false;
            }
            if kept || one != two || random.once_in(20) {
                sheet.exclusions.push(entry);
            }
        }
        for _ in 0..random.below(most_chains + 1) {
            let mut entry = chain(random, n, 16);
            let delay = chain_delay(&sheet, &plan, &entry);
            entry.limit = close_to(random, delay, (1 << 24) - 1);
            sheet.chains.push(entry);
        }
    }
    World { sheet, plan }
}

/// A world of any values that the layout holds and the sheet's rules allow.
pub fn loose(random: &mut Random) -> World {
    let large = random.once_in(40);
    let m = random.between(1, if large { 16 } else { 3 }) as usize;
    let n = random.between(1, if large { 64 } else { 5 }) as usize;
    let longest = random.one_of(&[1, 2, 4, 8, 60, 1_000, 65_535]);
    let modules = (0..m)
        .map(|_| Module {
            cabinet: random.below(8),
            memory: random.one_of(&[0, 1, 50, 1_000, (1 << 20) - 1]),
            most: random.one_of(&[0, 1, 2, 3, 64, 127]),
        })
        .collect();
    let partitions: Vec<Partition> = (0..n)
        .map(|_| {
            let period = random.between(1, longest);
            let budget = if random.once_in(3) { random.between(1, period) } else { random.between(1, period.min(3)) };
            Partition { period, budget, memory: random.one_of(&[0, 1, 20, 400, (1 << 20) - 1]) }
        })
        .collect();
    let width = random.one_of(&[1, 10, 65_536]);
    let delays = delays(random, m, width);
    let mut sheet = Sheet { modules, delays, partitions, exclusions: vec![], chains: vec![] };
    if n >= 2 {
        sheet.exclusions = (0..random.below(if large { 401 } else { 4 })).map(|_| exclusion(random, n)).collect();
        sheet.chains = (0..random.below(if large { 33 } else { 3 })).map(|_| chain(random, n, 16)).collect();
    }
    let plan = loose_plan(random, &sheet);
    World { sheet, plan }
}

/// A plan of any values, mostly near those that hold.
pub fn loose_plan(random: &mut Random, sheet: &Sheet) -> Vec<Placement> {
    let wild = random.once_in(10);
    let place = |random: &mut Random, partition: &Partition| {
        let modules = if random.once_in(30) { 16 } else { sheet.modules.len() as u64 };
        let starts = if wild { 65_536 } else { (partition.period - partition.budget + 1).max(1) };
        let late = u64::from(random.once_in(30));
        Placement { module: random.below(modules) as usize, start: (random.below(starts) + late).min(65_535) }
    };
    sheet.partitions.iter().map(|partition| place(random, partition)).collect()
}

/// A world so small that all its partial plans can be listed.
pub fn tiny(random: &mut Random) -> World {
    let m = random.between(1, 2) as usize;
    let n = random.between(1, 3) as usize;
    let modules = (0..m)
        .map(|_| Module { cabinet: random.below(2), memory: random.below(4), most: random.between(0, 3) })
        .collect();
    let partitions: Vec<Partition> = (0..n)
        .map(|_| {
            let period = random.between(1, 4);
            Partition { period, budget: random.between(1, period.min(2)), memory: random.below(2) }
        })
        .collect();
    let delays = delays(random, m, 4);
    let mut sheet = Sheet { modules, delays, partitions, exclusions: vec![], chains: vec![] };
    if n >= 2 {
        sheet.exclusions = (0..random.below(2)).map(|_| exclusion(random, n)).collect();
        for _ in 0..random.below(2) {
            let mut entry = chain(random, n, 4);
            entry.limit = random.below(16);
            sheet.chains.push(entry);
        }
    }
    let plan = loose_plan(random, &sheet);
    World { sheet, plan }
}

/// A world for the search: some tries, some depth.
pub fn searchable(random: &mut Random) -> World {
    let mut world = match random.below(3) {
        0 => tiny(random),
        1 => fitting(random, 3, 8),
        _ => loose(random),
    };
    if random.once_in(2) {
        for module in &mut world.sheet.modules {
            module.memory = (1 << 20) - 1;
            module.most = 127;
        }
    }
    world
}

/// A longest sheet: 16 modules, 64 partitions, 400 exclusions, 32 chains of 16. All partitions share module 0, each
/// with its own piece of a base of 64 ticks; the exclusions are kept because they are of cabinets that differ or of
/// modules that differ, so the plan puts the last two partitions elsewhere.
pub fn longest(random: &mut Random) -> World {
    let partitions: Vec<Partition> =
        (0..64).map(|_| Partition { period: 64 * random.between(1, 1023), budget: 1, memory: 3 }).collect();
    let plan: Vec<Placement> = (0..64)
        .map(|i| {
            let module = if i < 62 { 0 } else { i as usize - 61 };
            Placement { module, start: i }
        })
        .collect();
    let modules = (0..16).map(|i| Module { cabinet: i % 8, memory: 1_000, most: 64 }).collect();
    let delays = delays(random, 16, 65_536);
    let mut sheet = Sheet { modules, delays, partitions, exclusions: vec![], chains: vec![] };
    for entry in 0..400 {
        let second = 62 + entry % 2;
        sheet.exclusions.push(Exclusion { cabinet: random.once_in(2), first: random.below(62) as usize, second });
    }
    for _ in 0..32 {
        let mut entry = chain(random, 64, 16);
        while entry.members.len() < 16 {
            let last = *entry.members.last().expect("a chain has members");
            entry.members.push((last + 1 + random.below(63) as usize) % 64);
        }
        entry.limit = chain_delay(&sheet, &plan, &entry);
        sheet.chains.push(entry);
    }
    World { sheet, plan }
}
