//! Frame tables: built by sorting all executions, tested, and stepped ("The frame table and the dispatcher").

use super::bits::{bytes_of, field, string_of, Tape};
use super::judge::{held_by, run_of, verdict};
use super::numbers::*;
use super::sheet::{read_plan, read_sheet, Placement, Sheet};
use super::ticks::least_common_multiple;

#[derive(Clone, Copy, Debug, PartialEq, Eq)]
pub struct Built {
    pub number: u8,
    pub length: usize,
}

#[derive(Clone, Copy, Debug, PartialEq, Eq)]
pub struct Stepped {
    pub number: u8,
    pub partition: u8,
}

#[derive(Clone, Copy, Debug, PartialEq, Eq)]
#[repr(C)]
pub struct Position {
    pub tick: u32,
    pub slot: u32,
}

impl Position {
    pub fn fresh() -> Position {
        Position { tick: 0, slot: 0 }
    }
}

#[derive(Clone, Copy, Debug, PartialEq, Eq)]
pub struct Slot {
    pub start: u64,
    pub length: u64,
    pub partition: u64,
}

#[derive(Clone, Debug, PartialEq, Eq)]
pub struct Table {
    pub frame: u64,
    pub slots: Vec<Slot>,
}

/// The table of one module of an accepted plan, or 21 or 22.
pub fn table_of(sheet: &Sheet, plan: &[Placement], module: usize) -> Result<Table, u8> {
    let held = held_by(plan, module);
    let periods: Vec<u64> = held.iter().map(|i| sheet.partitions[*i].period).collect();
    let frame = least_common_multiple(&periods, LARGEST_FRAME).ok_or(FRAME)?;
    let begun = |i: usize| -> u64 {
        let run = run_of(sheet, plan, i);
        (frame - run.start).div_ceil(run.period)
    };
    if held.iter().map(|i| begun(*i)).sum::<u64>() > MOST_SLOTS {
        return Err(SLOTS);
    }
    let mut slots = vec![];
    for i in held {
        let run = run_of(sheet, plan, i);
        let mut start = run.start;
        while start < frame {
            slots.push(Slot { start, length: run.budget, partition: i as u64 });
            start += run.period;
        }
    }
    slots.sort_by_key(|slot| slot.start);
    Ok(Table { frame, slots })
}

/// The bytes of a table: F 24, slot count 11, zero 5; then per slot start 24, length 16, partition 6, zero 2.
pub fn table_bytes(table: &Table) -> Vec<u8> {
    let mut text = field(table.frame, 24) + &field(table.slots.len() as u64, 11) + &field(0, 5);
    for slot in &table.slots {
        text += &(field(slot.start, 24) + &field(slot.length, 16) + &field(slot.partition, 6) + &field(0, 2));
    }
    bytes_of(&text)
}

/// The builder on bytes: as the judge, then 20, 21, 22, 23. The table goes to the front of the buffer.
pub fn build(sheet: &[u8], plan: &[u8], module: usize, buffer: &mut [u8]) -> Built {
    match built(sheet, plan, module, buffer.len()) {
        Ok(bytes) => {
            buffer[..bytes.len()].copy_from_slice(&bytes);
            Built { number: DONE, length: bytes.len() }
        }
        Err(number) => Built { number, length: 0 },
    }
}

fn built(sheet: &[u8], plan: &[u8], module: usize, room: usize) -> Result<Vec<u8>, u8> {
    let sheet = read_sheet(sheet)?;
    let plan = read_plan(plan, sheet.partitions.len())?;
    let judged = verdict(&sheet, &plan);
    if judged.number != 0 {
        return Err(judged.number);
    }
    if module >= sheet.modules.len() {
        return Err(MODULE);
    }
    let bytes = table_bytes(&table_of(&sheet, &plan, module)?);
    if room < bytes.len() {
        return Err(BUFFER);
    }
    Ok(bytes)
}

/// F and the slot count of a table, when a step takes it: 5 bytes at least, F not 0, c not too large, 5 + 6c bytes.
fn table_head(table: &[u8]) -> Option<(u64, u64)> {
    if table.len() < 5 {
        return None;
    }
    let mut tape = Tape::new(&table[..5]);
    let (frame, count) = (tape.take(24), tape.take(11));
    let fits = frame != 0 && count <= MOST_SLOTS && table.len() as u64 == 5 + 6 * count;
    fits.then_some((frame, count))
}

fn slot_at(table: &[u8], s: usize) -> Slot {
    let mut tape = Tape::new(&table[5 + 6 * s..5 + 6 * s + 6]);
    Slot { start: tape.take(24), length: tape.take(16), partition: tape.take(6) }
}

/// 0 when the bytes are a sound table, else 24.
pub fn table_number(table: &[u8]) -> u8 {
    let Some((frame, count)) = table_head(table) else { return TABLE };
    if string_of(&table[..5])[35..].contains('1') {
        return TABLE;
    }
    let mut ends = 0;
    for s in 0..count as usize {
        let slot = slot_at(table, s);
        let zero = &string_of(&table[5 + 6 * s..11 + 6 * s])[46..];
        if zero.contains('1') || slot.length == 0 || slot.start < ends {
            return TABLE;
        }
        ends = slot.start + slot.length;
    }
    if ends > frame {
        return TABLE;
    }
    DONE
}

/// One step: 24, then 25, then the answer; the position is updated.
pub fn step(table: &[u8], position: &mut Position) -> Stepped {
    let Some((frame, count)) = table_head(table) else { return Stepped { number: TABLE, partition: 0 } };
    let (p, s) = (position.tick as u64, position.slot as u64);
    let refused = Stepped { number: POSITION, partition: 0 };
    if p >= frame || s > count {
        return refused;
    }
    let slot = if s < count { Some(slot_at(table, s as usize)) } else { None };
    let mut partition = IDLE;
    let mut next = s;
    if let Some(slot) = slot {
        let end = slot.start + slot.length;
        if p >= end {
            return refused;
        }
        if slot.start <= p {
            partition = slot.partition as u8;
        }
        if p + 1 == end {
            next = s + 1;
        }
    }
    *position = if p + 1 == frame { Position::fresh() } else { Position { tick: p as u32 + 1, slot: next as u32 } };
    Stepped { number: DONE, partition }
}

/// What the dispatcher must answer in tick n of a module, by the plan alone: the partition whose execution covers it,
/// or 64.
pub fn covering(sheet: &Sheet, plan: &[Placement], module: usize, tick: u64) -> u8 {
    let covers = |i: &usize| run_of(sheet, plan, *i).covers(tick);
    held_by(plan, module).into_iter().find(covers).map_or(IDLE, |i| i as u8)
}
