//! Sheets and plans: their records, and how they are read from bytes ("The sheet and the plan").

use super::bits::Tape;
use super::numbers::*;

#[derive(Clone, Copy, Debug, PartialEq, Eq)]
pub struct Module {
    pub cabinet: u64,
    pub memory: u64,
    pub most: u64,
}

#[derive(Clone, Copy, Debug, PartialEq, Eq)]
pub struct Partition {
    pub period: u64,
    pub budget: u64,
    pub memory: u64,
}

#[derive(Clone, Copy, Debug, PartialEq, Eq)]
pub struct Exclusion {
    /// False: different modules. True: different cabinets.
    pub cabinet: bool,
    pub first: usize,
    pub second: usize,
}

#[derive(Clone, Debug, PartialEq, Eq)]
pub struct Chain {
    pub limit: u64,
    pub members: Vec<usize>,
}

#[derive(Clone, Debug, PartialEq, Eq)]
pub struct Sheet {
    pub modules: Vec<Module>,
    pub delays: Vec<Vec<u64>>,
    pub partitions: Vec<Partition>,
    pub exclusions: Vec<Exclusion>,
    pub chains: Vec<Chain>,
}

#[derive(Clone, Copy, Debug, PartialEq, Eq)]
pub struct Placement {
    pub module: usize,
    pub start: u64,
}

/// The fields of one record, or 10 when the sheet ends before it is complete.
fn record(tape: &mut Tape, widths: &[usize]) -> Result<Vec<u64>, u8> {
    if !tape.holds(widths.iter().sum()) {
        return Err(CUT_SHORT);
    }
    Ok(widths.iter().map(|width| tape.take(*width)).collect())
}

/// The sheet in these bytes, or the number of the first thing wrong with it: records in file order, for each 10
/// first and then its own rule, and 17 last.
pub fn read_sheet(bytes: &[u8]) -> Result<Sheet, u8> {
    let mut tape = Tape::new(bytes);
    let head = record(&mut tape, &[4, 5, 7, 9, 6, 1])?;
    if head[0] != 1 || head[5] != 0 {
        return Err(VERSION);
    }
    let (m, n, x, k) = (head[1] as usize, head[2] as usize, head[3], head[4]);
    if !((1..=16).contains(&m) && (1..=64).contains(&n) && x <= 400 && k <= 32) {
        return Err(COUNTS);
    }
    let mut sheet = Sheet { modules: vec![], delays: vec![], partitions: vec![], exclusions: vec![], chains: vec![] };
    for _ in 0..m {
        let fields = record(&mut tape, &[3, 20, 7])?;
        sheet.modules.push(Module { cabinet: fields[0], memory: fields[1], most: fields[2] });
    }
    for from in 0..m {
        let row = record(&mut tape, &vec![16; m])?;
        if row[from] != 0 {
            return Err(DIAGONAL);
        }
        sheet.delays.push(row);
    }
    for _ in 0..n {
        let fields = record(&mut tape, &[16, 16, 20])?;
        let (period, budget) = (fields[0], fields[1]);
        if period == 0 || budget == 0 || budget > period {
            return Err(PARTITION);
        }
        sheet.partitions.push(Partition { period, budget, memory: fields[2] });
    }
    for _ in 0..x {
        let fields = record(&mut tape, &[1, 6, 6])?;
        let (first, second) = (fields[1] as usize, fields[2] as usize);
        if !(first < second && second < n) {
            return Err(EXCLUSION);
        }
        sheet.exclusions.push(Exclusion { cabinet: fields[0] == 1, first, second });
    }
    for _ in 0..k {
        let lead = record(&mut tape, &[24, 5])?;
        if !(2..=16).contains(&lead[1]) {
            return Err(CHAIN);
        }
        let fields = record(&mut tape, &vec![6; lead[1] as usize])?;
        let members: Vec<usize> = fields.iter().map(|member| *member as usize).collect();
        if members.iter().any(|member| *member >= n) || members.windows(2).any(|two| two[0] == two[1]) {
            return Err(CHAIN);
        }
        sheet.chains.push(Chain { limit: lead[0], members });
    }
    if tape.rest().len() >= 8 || tape.rest().contains('1') {
        return Err(LEFT_OVER);
    }
    Ok(sheet)
}

/// How many bytes a plan of n partitions has: 20n bits, filled to a byte.
pub fn plan_length(n: usize) -> usize {
    let mut bits = 20 * n;
    while bits % 8 != 0 {
        bits += 1;
    }
    bits / 8
}

/// The plan of n partitions in these bytes, or 18.
pub fn read_plan(bytes: &[u8], n: usize) -> Result<Vec<Placement>, u8> {
    if bytes.len() != plan_length(n) {
        return Err(PLAN);
    }
    let mut tape = Tape::new(bytes);
    let mut plan = vec![];
    for _ in 0..n {
        let module = tape.take(4) as usize;
        plan.push(Placement { module, start: tape.take(16) });
    }
    if tape.rest().contains('1') {
        return Err(PLAN);
    }
    Ok(plan)
}
