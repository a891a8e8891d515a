//! Frame tables: damaged, unsound, at their limits; positions in and out of range; runs over several frames.

use super::check;
use crate::compare::{hex, Checked, Compare};
use crate::Check;
use second::random::Random;
use second::reference::judge::run_of;
use second::reference::numbers::{DONE, FRAME, LARGEST_FRAME, SLOTS};
use second::reference::search::plan_bytes;
use second::reference::table::{table_bytes, table_of, Slot, Table};
use second::reference::ticks::greatest_common_divisor;
use second::reference::{Module, Partition, Placement, Position, Sheet};
use second::worlds::{fitting, World};
use second::write::{sheet_bytes, with_flip};

/// Partitions of one module with everything else out of the way.
fn alone(all: &[(u64, u64, u64)]) -> World {
    let sheet = Sheet {
        modules: vec![Module { cabinet: 0, memory: 0, most: 64 }],
        delays: vec![vec![0]],
        partitions: all
            .iter()
            .map(|(period, budget, _)| Partition { period: *period, budget: *budget, memory: 0 })
            .collect(),
        exclusions: vec![],
        chains: vec![],
    };
    World { sheet, plan: all.iter().map(|(_, _, start)| Placement { module: 0, start: *start }).collect() }
}

/// Positions at and around every edge of a table.
fn edges(table: &Table, random: &mut Random) -> Vec<Position> {
    let frame = table.frame as u32;
    let count = table.slots.len() as u32;
    let mut ticks = vec![0, 1, frame - 1, frame, frame.wrapping_add(1), u32::MAX, random.draw() as u32];
    let mut slots = vec![0, 1, count.wrapping_sub(1), count, count + 1, u32::MAX];
    ticks.push(random.below(table.frame) as u32);
    slots.push(random.below(count as u64 + 2) as u32);
    if count > 0 {
        let k = random.below(count as u64) as usize;
        let slot = table.slots[k];
        let end = (slot.start + slot.length) as u32;
        ticks.extend([slot.start as u32, (slot.start as u32).wrapping_sub(1), end - 1, end, end + 1]);
        slots.extend([k as u32, k as u32 + 1]);
    }
    ticks.iter().flat_map(|tick| slots.iter().map(|slot| Position { tick: *tick, slot: *slot })).collect()
}

/// Tables with few slots of small numbers, sound or not, and every position from 0, 0 to past both ends.
fn every_position(compare: &mut Compare) -> Checked {
    let mut random = Random::new(51);
    let mut sound = 0;
    for _ in 0..3_000 {
        let frame = random.between(1, 12);
        let slot = |random: &mut Random| Slot {
            start: random.below(frame + 1),
            length: random.below(4),
            partition: random.below(64),
        };
        let mut slots: Vec<Slot> = (0..random.below(4)).map(|_| slot(&mut random)).collect();
        if random.once_in(2) {
            slots.sort_by_key(|slot| slot.start);
        }
        let count = slots.len() as u32;
        let bytes = table_bytes(&Table { frame, slots });
        sound += u32::from(compare.table(&bytes)? == DONE);
        for tick in 0..=frame as u32 + 1 {
            for slot in 0..=count + 1 {
                compare.step(&bytes, Position { tick, slot })?;
            }
        }
    }
    if sound < 200 {
        return Err(format!("only {sound} of the tables were sound"));
    }
    Ok(())
}

/// Random slots in frames of any length, and the tables of plans: positions at every edge, each bit flipped, cut short,
/// bytes appended.
fn damaged(compare: &mut Compare) -> Checked {
    let mut random = Random::new(52);
    let mut from_plans = 0;
    while from_plans < 100 {
        let world = fitting(&mut random, 3, 6);
        let Ok(table) = table_of(&world.sheet, &world.plan, 0) else { continue };
        if table.slots.len() > 40 {
            continue;
        }
        from_plans += 1;
        let bytes = table_bytes(&table);
        for from in edges(&table, &mut random) {
            compare.step(&bytes, from)?;
        }
        for bit in 0..8 * bytes.len() {
            let flipped = with_flip(&bytes, bit);
            compare.table(&flipped)?;
            let from = Position {
                tick: random.below(table.frame) as u32,
                slot: random.below(table.slots.len() as u64 + 1) as u32,
            };
            compare.step(&flipped, Position::fresh())?;
            compare.step(&flipped, from)?;
        }
        for length in 0..bytes.len() {
            compare.table(&bytes[..length])?;
            compare.step(&bytes[..length], Position::fresh())?;
        }
        for more in 1..=13 {
            let mut longer = bytes.clone();
            longer.resize(bytes.len() + more, random.draw() as u8);
            compare.table(&longer)?;
            compare.step(&longer, Position::fresh())?;
        }
    }
    Ok(())
}

/// Tables of random bytes whose byte count fits their slot count, or not.
fn random_bytes(compare: &mut Compare) -> Checked {
    let mut random = Random::new(53);
    for turn in 0..40_000 {
        let count = if turn % 100 == 0 { random.below(2_048) } else { random.below(6) };
        let extra = if random.once_in(4) { random.below(9) as usize } else { 5 };
        let mut table = random.bytes(6 * count as usize + extra);
        if table.len() >= 5 {
            table[3] = (count >> 3) as u8;
            table[4] = (count << 5) as u8;
            if random.once_in(4) {
                table[4] |= random.below(32) as u8;
            }
            if random.once_in(3) {
                table[..2].fill(0);
            }
            if random.once_in(30) {
                table[2] = 0;
            }
        }
        compare.table(&table)?;
        compare.step(&table, Position::fresh())?;
        let top = random.one_of(&[4, 300, 1 << 24, 1 << 32]);
        let from = Position { tick: random.below(top) as u32, slot: random.below(count + 3) as u32 };
        compare.step(&table, from)?;
    }
    Ok(())
}

/// The slot count at its limit and past it, with the byte count that it asks for.
fn slot_counts(compare: &mut Compare) -> Checked {
    for count in [0, 1, 1_023, 1_024, 1_025, 2_047] {
        let slots: Vec<Slot> = (0..count).map(|k| Slot { start: 3 * k, length: 2, partition: k % 64 }).collect();
        for frame in [3 * 2_047, 3 * 1_024, 3 * 1_023 + 2, 3 * 1_023 + 1, 16_777_215] {
            let bytes = table_bytes(&Table { frame, slots: slots.clone() });
            compare.table(&bytes)?;
            for from in
                [(0, 0), (3_071, 1_023), (3_070, 1_023), (3_072, 1_024), (3_071, 1_024), (3_074, 1_024), (3_075, 1_025)]
            {
                compare.step(&bytes, Position { tick: from.0, slot: from.1 })?;
            }
        }
    }
    Ok(())
}

/// A slot that ends just at the largest frame, just past it, and past what 24 bits hold.
fn at_the_end_of_time(compare: &mut Compare) -> Checked {
    for frame in [16_777_215, 16_777_214, 65_536, 1] {
        for start in [0, 1, 16_711_679, 16_711_680, 16_711_681, 16_777_213, 16_777_214, 16_777_215] {
            for length in [0, 1, 2, 65_534, 65_535] {
                let slots = vec![Slot { start, length, partition: 63 }];
                let bytes = table_bytes(&Table { frame, slots });
                compare.table(&bytes)?;
                for tick in [0, 1, 65_535, 16_777_212, 16_777_213, 16_777_214, 16_777_215, u32::MAX] {
                    for slot in [0, 1, 2] {
                        compare.step(&bytes, Position { tick, slot })?;
                    }
                }
            }
        }
    }
    Ok(())
}

/// Every module of accepted plans stepped from fresh over three frames and a bit, against the plan.
fn runs(compare: &mut Compare) -> Checked {
    let mut random = Random::new(54);
    let mut stepped = 0;
    while stepped < 800 {
        let world = fitting(&mut random, 3, 10);
        let (bytes, plan) = (sheet_bytes(&world.sheet), plan_bytes(&world.plan));
        if compare.judge(&bytes, &plan)?.number != DONE {
            continue;
        }
        for module in 0..world.sheet.modules.len() {
            let (built, buffer) = compare.build(&bytes, &plan, module, &[0xEE; 6_149])?;
            if built.number != DONE {
                continue;
            }
            let table = &buffer[..built.length];
            if compare.table(table)? != DONE {
                return Err(format!("a built table is not sound: {}", hex(table)));
            }
            let frame = table_of(&world.sheet, &world.plan, module).expect("it was built").frame;
            if frame <= 60_000 {
                stepped += 1;
                follow(compare, &world, module, table, 3 * frame + 7)?;
            }
        }
    }
    Ok(())
}

/// Steps a table of a module from fresh; each answer is the partition whose execution covers the tick.
fn follow(compare: &mut Compare, world: &World, module: usize, table: &[u8], ticks: u64) -> Checked {
    let held = (0..world.plan.len()).filter(|i| world.plan[*i].module == module);
    let runs: Vec<_> = held.map(|i| (i as u8, run_of(&world.sheet, &world.plan, i))).collect();
    compare.run(table, ticks, |tick| runs.iter().find(|(_, run)| run.covers(tick)).map_or(64, |(i, _)| *i))
}

/// The largest table: 1,024 slots in a frame of 16,777,152 ticks, stepped over three frames and a bit.
fn largest_table(compare: &mut Compare) -> Checked {
    let world = alone(&[(32_832, 40, 17), (32_704, 24, 57)]);
    let (bytes, plan) = (sheet_bytes(&world.sheet), plan_bytes(&world.plan));
    let (built, buffer) = compare.build(&bytes, &plan, 0, &[0xEE; 6_160])?;
    if built.number != DONE || built.length != 6_149 || buffer[..3] != [0xFF, 0xFF, 0xC0] {
        return Err(format!("{built:?}, frame {}", hex(&buffer[..3])));
    }
    compare.build(&bytes, &plan, 0, &[0xEE; 6_149])?;
    compare.build(&bytes, &plan, 0, &[0xEE; 6_148])?;
    let table = &buffer[..built.length];
    compare.table(table)?;
    follow(compare, &world, 0, table, 3 * 16_777_152 + 100_000)
}

/// Frames and slot counts at and past their limits: the number is as document 01 has it.
fn limits(compare: &mut Compare) -> Checked {
    let cases: [(&str, World, u8); 7] = [
        ("F = 16,777,215, too many slots", alone(&[(28_197, 20, 0), (23_205, 19, 20)]), SLOTS),
        ("F = 16,777,217", alone(&[(24_929, 40, 0), (65_281, 40, 50)]), FRAME),
        ("F = 16,777,200, 1,025 slots", alone(&[(63_550, 40, 0), (54_120, 40, 40), (37_200, 30, 80)]), SLOTS),
        ("1,024 slots of one tick", alone(&[(2, 1, 0), (2_046, 1, 1)]), DONE),
        ("1,025 slots of one tick", alone(&[(2, 1, 0), (2_048, 1, 1)]), SLOTS),
        ("a partition that fills its module", alone(&[(1, 1, 0)]), DONE),
        ("the longest period", alone(&[(65_535, 65_535, 0)]), DONE),
    ];
    for (name, world, number) in cases {
        let (bytes, plan) = (sheet_bytes(&world.sheet), plan_bytes(&world.plan));
        let (built, _) = compare.build(&bytes, &plan, 0, &[0xEE; 6_149])?;
        if built.number != number {
            return Err(format!("{name}: {built:?} and not {number}"));
        }
    }
    Ok(())
}

/// The frame as a builder would have it that multiplies in 32 bits and lets the product wrap.
fn wrapped_frame(periods: &[u64]) -> u64 {
    let multiply = |frame: u64, period: &u64| frame / greatest_common_divisor(frame, *period) * period % (1 << 32);
    periods.iter().fold(1, |frame, period| multiply(frame.max(1), period))
}

/// Frames beyond 2^32 and 2^64: up to 64 partitions of one module whose periods are 64 times unlike numbers. Some of
/// these multiples, cut to 32 bits, would pass for a frame that fits.
fn huge_frames(compare: &mut Compare) -> Checked {
    let mut random = Random::new(55);
    let mut wraps = 0;
    for _ in 0..4_000 {
        let n = random.between(2, 64);
        let parts: Vec<(u64, u64, u64)> = (0..n).map(|i| (64 * random.between(1, 1_023), 1, i)).collect();
        let periods: Vec<u64> = parts.iter().map(|part| part.0).collect();
        let world = alone(&parts);
        let (built, _) = compare.build(&sheet_bytes(&world.sheet), &plan_bytes(&world.plan), 0, &[0xEE; 6_149])?;
        wraps += u64::from(built.number == FRAME && wrapped_frame(&periods) <= LARGEST_FRAME);
    }
    if wraps < 3 {
        return Err(format!("only {wraps} multiples wrap to a small number"));
    }
    Ok(())
}

pub fn checks() -> Vec<Check> {
    vec![
        check("3,000 small tables, sound or not, at every position", every_position),
        check("tables of plans: edges, each bit flipped, cut short at every byte, bytes appended", damaged),
        check("40,000 tables of random bytes", random_bytes),
        check("slot counts at the limit and past it", slot_counts),
        check("slots at the end of the largest frame", at_the_end_of_time),
        check("frames and slot counts at their limits", limits),
        check("frames beyond 32 and 64 bits", huge_frames),
        check("modules of accepted plans stepped over three frames, against the plan", runs),
        check("1,024 slots in 16,777,152 ticks, stepped over three frames", largest_table),
    ]
}
