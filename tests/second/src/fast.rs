//! The calls once more, as one would write them in Rust for speed: what the product is measured against. Each does the
//! same checks as the call of the library, on bytes that may hold anything; a search makes its tries one by one, and
//! tests in each what the placed partitions say. The comparison holds this form to the reference too.

use crate::reference::numbers::*;
use crate::reference::{Answer, Built, Found, Position, Stepped};

const MODULES: usize = 16;
const PARTITIONS: usize = 64;
const EXCLUSIONS: usize = 400;
const CHAINS: usize = 32;
const MEMBERS: usize = 16;

#[derive(Clone, Copy)]
struct Exclusion {
    cabinet: bool,
    first: u8,
    second: u8,
}

#[derive(Clone, Copy)]
struct Chain {
    limit: u32,
    length: u8,
    members: [u8; MEMBERS],
}

struct Sheet {
    modules: usize,
    partitions: usize,
    exclusions: usize,
    chains: usize,
    cabinet: [u8; MODULES],
    memory: [u32; MODULES],
    most: [u8; MODULES],
    delay: [[u16; MODULES]; MODULES],
    period: [u32; PARTITIONS],
    budget: [u32; PARTITIONS],
    need: [u32; PARTITIONS],
    exclusion: [Exclusion; EXCLUSIONS],
    chain: [Chain; CHAINS],
}

/// Up to 24 bits at a place; the bytes behind the end count as 0, and the caller sees to it that they are not needed.
fn field(bytes: &[u8], at: usize, width: usize) -> u32 {
    let byte = at / 8;
    let word = if byte + 4 <= bytes.len() {
        u32::from_be_bytes([bytes[byte], bytes[byte + 1], bytes[byte + 2], bytes[byte + 3]])
    } else {
        (0..4).fold(0, |word, k| word << 8 | u32::from(bytes.get(byte + k).copied().unwrap_or(0)))
    };
    (word << (at % 8)) >> (32 - width)
}

struct Reader<'a> {
    bytes: &'a [u8],
    at: usize,
}

impl Reader<'_> {
    fn holds(&self, width: usize) -> Result<(), u8> {
        if self.at + width > 8 * self.bytes.len() {
            return Err(CUT_SHORT);
        }
        Ok(())
    }

    fn take(&mut self, width: usize) -> u32 {
        let value = field(self.bytes, self.at, width);
        self.at += width;
        value
    }
}

fn read_sheet(bytes: &[u8]) -> Result<Sheet, u8> {
    let mut reader = Reader { bytes, at: 0 };
    reader.holds(32)?;
    let version = reader.take(4);
    let modules = reader.take(5) as usize;
    let partitions = reader.take(7) as usize;
    let exclusions = reader.take(9) as usize;
    let chains = reader.take(6) as usize;
    if version != 1 || reader.take(1) != 0 {
        return Err(VERSION);
    }
    if modules == 0 || modules > MODULES || partitions == 0 || partitions > PARTITIONS {
        return Err(COUNTS);
    }
    if exclusions > EXCLUSIONS || chains > CHAINS {
        return Err(COUNTS);
    }
    let mut sheet = Sheet {
        modules,
        partitions,
        exclusions,
        chains,
        cabinet: [0; MODULES],
        memory: [0; MODULES],
        most: [0; MODULES],
        delay: [[0; MODULES]; MODULES],
        period: [0; PARTITIONS],
        budget: [0; PARTITIONS],
        need: [0; PARTITIONS],
        exclusion: [Exclusion { cabinet: false, first: 0, second: 0 }; EXCLUSIONS],
        chain: [Chain { limit: 0, length: 0, members: [0; MEMBERS] }; CHAINS],
    };
    for j in 0..modules {
        reader.holds(30)?;
        sheet.cabinet[j] = reader.take(3) as u8;
        sheet.memory[j] = reader.take(20);
        sheet.most[j] = reader.take(7) as u8;
    }
    for from in 0..modules {
        reader.holds(16 * modules)?;
        for to in 0..modules {
            sheet.delay[from][to] = reader.take(16) as u16;
        }
        if sheet.delay[from][from] != 0 {
            return Err(DIAGONAL);
        }
    }
    for i in 0..partitions {
        reader.holds(52)?;
        let (period, budget, need) = (reader.take(16), reader.take(16), reader.take(20));
        if budget == 0 || budget > period {
            return Err(PARTITION);
        }
        (sheet.period[i], sheet.budget[i], sheet.need[i]) = (period, budget, need);
    }
    for e in 0..exclusions {
        reader.holds(13)?;
        let (kind, first, second) = (reader.take(1), reader.take(6), reader.take(6));
        if first >= second || second as usize >= partitions {
            return Err(EXCLUSION);
        }
        sheet.exclusion[e] = Exclusion { cabinet: kind == 1, first: first as u8, second: second as u8 };
    }
    for c in 0..chains {
        reader.holds(29)?;
        let (limit, length) = (reader.take(24), reader.take(5) as usize);
        if !(2..=MEMBERS).contains(&length) {
            return Err(CHAIN);
        }
        reader.holds(6 * length)?;
        let chain = &mut sheet.chain[c];
        (chain.limit, chain.length) = (limit, length as u8);
        for member in &mut chain.members[..length] {
            *member = reader.take(6) as u8;
        }
        let members = &chain.members[..length];
        if members.iter().any(|x| *x as usize >= partitions) || members.windows(2).any(|two| two[0] == two[1]) {
            return Err(CHAIN);
        }
    }
    let filled = reader.at % 8 == 0 || bytes[reader.at / 8] << (reader.at % 8) == 0;
    if bytes.len() != reader.at.div_ceil(8) || !filled {
        return Err(LEFT_OVER);
    }
    Ok(sheet)
}

#[derive(Clone, Copy)]
struct Plan {
    module: [u8; PARTITIONS],
    start: [u32; PARTITIONS],
}

fn plan_length(partitions: usize) -> usize {
    (20 * partitions).div_ceil(8)
}

fn read_plan(bytes: &[u8], partitions: usize) -> Result<Plan, u8> {
    if bytes.len() != plan_length(partitions) || (partitions % 2 == 1 && bytes[bytes.len() - 1] & 15 != 0) {
        return Err(PLAN);
    }
    let mut plan = Plan { module: [0; PARTITIONS], start: [0; PARTITIONS] };
    for i in 0..partitions {
        let word = field(bytes, 20 * i, 20);
        plan.module[i] = (word >> 16) as u8;
        plan.start[i] = word & 0xFFFF;
    }
    Ok(plan)
}

fn gcd(mut a: u32, mut b: u32) -> u32 {
    while b != 0 {
        (a, b) = (b, a % b);
    }
    a
}

/// Korst's condition for starts and budgets with the divisor g of the periods.
fn apart(g: u32, start: u32, budget: u32, other_start: u32, other_budget: u32) -> bool {
    let d = if other_start >= start { (other_start - start) % g } else { g - 1 - (start - other_start - 1) % g };
    budget <= d && d + other_budget <= g
}

/// The partitions of each module as sets.
fn sets(sheet: &Sheet, plan: &Plan) -> [u64; MODULES] {
    let mut sets = [0u64; MODULES];
    for i in 0..sheet.partitions {
        sets[plan.module[i] as usize] |= 1 << i;
    }
    sets
}

fn chain_delay(sheet: &Sheet, module: &[u8; PARTITIONS], chain: &Chain) -> u32 {
    let mut delay = 0;
    for two in chain.members[..chain.length as usize].windows(2) {
        let (i, k) = (two[0] as usize, two[1] as usize);
        delay += sheet.budget[i] + sheet.period[k];
        delay += u32::from(sheet.delay[module[i] as usize % MODULES][module[k] as usize % MODULES]);
    }
    delay
}

fn answer(number: u8, first: usize, second: usize) -> Answer {
    Answer { number, first: first as u32, second: second as u32 }
}

fn verdict(sheet: &Sheet, plan: &Plan) -> Answer {
    let n = sheet.partitions;
    if let Some(i) = (0..n).find(|i| plan.module[*i] as usize >= sheet.modules) {
        return answer(1, i, 0);
    }
    let sets = sets(sheet, plan);
    for i in 0..n {
        let mut later = sets[plan.module[i] as usize] & !(u64::MAX >> (63 - i));
        while later != 0 {
            let k = later.trailing_zeros() as usize;
            later &= later - 1;
            let g = gcd(sheet.period[i], sheet.period[k]);
            if !apart(g, plan.start[i], sheet.budget[i], plan.start[k], sheet.budget[k]) {
                return answer(2, i, k);
            }
        }
    }
    if let Some(i) = (0..n).find(|i| plan.start[*i] + sheet.budget[*i] > sheet.period[*i]) {
        return answer(3, i, 0);
    }
    let mut used = [0u32; MODULES];
    for i in 0..n {
        used[plan.module[i] as usize] += sheet.need[i];
    }
    if let Some(j) = (0..sheet.modules).find(|j| used[*j] > sheet.memory[*j]) {
        return answer(4, j, 0);
    }
    if let Some(j) = (0..sheet.modules).find(|j| sets[*j].count_ones() > u32::from(sheet.most[*j])) {
        return answer(5, j, 0);
    }
    let exclusions = &sheet.exclusion[..sheet.exclusions];
    let module = |i: u8| plan.module[i as usize] as usize;
    if let Some(e) = exclusions.iter().position(|e| !e.cabinet && module(e.first) == module(e.second)) {
        return answer(6, e, 0);
    }
    let cabinet = |i: u8| sheet.cabinet[module(i)];
    if let Some(e) = exclusions.iter().position(|e| e.cabinet && cabinet(e.first) == cabinet(e.second)) {
        return answer(7, e, 0);
    }
    let chains = &sheet.chain[..sheet.chains];
    if let Some(c) = chains.iter().position(|chain| chain_delay(sheet, &plan.module, chain) > chain.limit) {
        return answer(8, c, 0);
    }
    answer(0, 0, 0)
}

fn judged(sheet: &[u8], plan: &[u8]) -> Result<(Sheet, Plan), Answer> {
    let sheet = read_sheet(sheet).map_err(Answer::of)?;
    let plan = read_plan(plan, sheet.partitions).map_err(Answer::of)?;
    let answer = verdict(&sheet, &plan);
    if answer.number != 0 {
        return Err(answer);
    }
    Ok((sheet, plan))
}

pub fn judge(sheet: &[u8], plan: &[u8]) -> Answer {
    match judged(sheet, plan) {
        Ok(_) => Answer::of(DONE),
        Err(answer) => answer,
    }
}

pub fn sheet_number(bytes: &[u8]) -> u8 {
    read_sheet(bytes).err().unwrap_or(DONE)
}

/// A search on its way: the plan so far, sums and sets by module, and what each partition's placement has to be tested by.
struct Search<'a> {
    sheet: &'a Sheet,
    divisor: Vec<[u32; PARTITIONS]>,
    /// Exclusions and chains whose last partition is the one placed.
    exclusions: Vec<Vec<Exclusion>>,
    chains: Vec<Vec<Chain>>,
    plan: Plan,
    sets: [u64; MODULES],
    used: [u32; MODULES],
    made: u32,
    budget: u32,
}

impl Search<'_> {
    /// Whether partition j on a module at a start keeps the plan sound, which is sound below j.
    #[inline]
    fn fits(&self, j: usize, module: usize, start: u32) -> bool {
        let sheet = self.sheet;
        let mut others = self.sets[module];
        while others != 0 {
            let i = others.trailing_zeros() as usize % PARTITIONS;
            others &= others - 1;
            if !apart(self.divisor[j][i], self.plan.start[i], sheet.budget[i], start, sheet.budget[j]) {
                return false;
            }
        }
        if self.used[module] + sheet.need[j] > sheet.memory[module] {
            return false;
        }
        if self.sets[module].count_ones() + 1 > u32::from(sheet.most[module]) {
            return false;
        }
        for e in &self.exclusions[j] {
            let other = self.plan.module[e.first as usize] as usize;
            let same = if e.cabinet { sheet.cabinet[other] == sheet.cabinet[module] } else { other == module };
            if same {
                return false;
            }
        }
        self.chains[j].iter().all(|chain| chain_delay(sheet, &self.plan.module, chain) <= chain.limit)
    }

    /// All tries that extend the sound plan of partitions below j.
    fn extend(&mut self, j: usize) -> u8 {
        let last = self.sheet.period[j] - self.sheet.budget[j];
        for module in 0..self.sheet.modules {
            self.plan.module[j] = module as u8;
            for start in 0..=last {
                if self.made == self.budget {
                    return STOPPED;
                }
                self.made += 1;
                if !self.fits(j, module, start) {
                    continue;
                }
                self.plan.start[j] = start;
                if j + 1 == self.sheet.partitions {
                    return DONE;
                }
                self.sets[module] |= 1 << j;
                self.used[module] += self.sheet.need[j];
                let end = self.extend(j + 1);
                if end != NONE {
                    return end;
                }
                self.sets[module] &= !(1 << j);
                self.used[module] -= self.sheet.need[j];
            }
        }
        NONE
    }
}

pub fn search(sheet: &[u8], budget: u32, buffer: &mut [u8]) -> Found {
    let sheet = match read_sheet(sheet) {
        Ok(sheet) => sheet,
        Err(number) => return Found { number, tries: 0 },
    };
    let n = sheet.partitions;
    if buffer.len() < plan_length(n) {
        return Found { number: BUFFER, tries: 0 };
    }
    let mut divisor = vec![[0; PARTITIONS]; n];
    for (j, row) in divisor.iter_mut().enumerate() {
        for (i, divisor) in row[..j].iter_mut().enumerate() {
            *divisor = gcd(sheet.period[i], sheet.period[j]);
        }
    }
    let mut exclusions = vec![vec![]; n];
    for e in &sheet.exclusion[..sheet.exclusions] {
        exclusions[e.second as usize].push(*e);
    }
    let mut chains = vec![vec![]; n];
    for chain in &sheet.chain[..sheet.chains] {
        let last = chain.members[..chain.length as usize].iter().max().copied().unwrap_or(0);
        chains[last as usize].push(*chain);
    }
    let plan = Plan { module: [0; PARTITIONS], start: [0; PARTITIONS] };
    let (sets, used) = ([0; MODULES], [0; MODULES]);
    let mut search = Search { sheet: &sheet, divisor, exclusions, chains, plan, sets, used, made: 0, budget };
    let number = search.extend(0);
    if number == DONE {
        write_plan(&search.plan, n, buffer);
    }
    Found { number, tries: search.made }
}

fn write_plan(plan: &Plan, n: usize, buffer: &mut [u8]) {
    buffer[..plan_length(n)].fill(0);
    for i in 0..n {
        let word = u32::from(plan.module[i]) << 16 | plan.start[i];
        let at = 5 * (i / 2);
        if i % 2 == 0 {
            buffer[at..at + 3].copy_from_slice(&(word << 4).to_be_bytes()[1..]);
        } else {
            buffer[at + 2] |= (word >> 16) as u8;
            buffer[at + 3] = (word >> 8) as u8;
            buffer[at + 4] = word as u8;
        }
    }
}

pub fn build(sheet: &[u8], plan: &[u8], module: usize, buffer: &mut [u8]) -> Built {
    match judged(sheet, plan) {
        Ok((sheet, plan)) => built(&sheet, &plan, module, buffer).unwrap_or_else(|number| Built { number, length: 0 }),
        Err(answer) => Built { number: answer.number, length: 0 },
    }
}

fn built(sheet: &Sheet, plan: &Plan, module: usize, buffer: &mut [u8]) -> Result<Built, u8> {
    if module >= sheet.modules {
        return Err(MODULE);
    }
    let held: Vec<usize> = (0..sheet.partitions).filter(|i| plan.module[*i] as usize == module).collect();
    let mut frame: u64 = 1;
    for i in &held {
        let period = u64::from(sheet.period[*i]);
        frame *= period / u64::from(gcd(sheet.period[*i], (frame % period) as u32));
        if frame > LARGEST_FRAME {
            return Err(FRAME);
        }
    }
    let count: u64 = held.iter().map(|i| frame / u64::from(sheet.period[*i])).sum();
    if count > MOST_SLOTS {
        return Err(SLOTS);
    }
    let length = 5 + 6 * count as usize;
    if buffer.len() < length {
        return Err(BUFFER);
    }
    let head = frame << 16 | count << 5;
    buffer[..5].copy_from_slice(&head.to_be_bytes()[3..]);
    let mut next: Vec<(u64, u64)> = held.iter().map(|i| (u64::from(plan.start[*i]), *i as u64)).collect();
    for slot in buffer[5..length].chunks_exact_mut(6) {
        let mut first = 0;
        for k in 1..next.len() {
            if next[k].0 < next[first].0 {
                first = k;
            }
        }
        let (start, i) = next[first];
        let word = start << 24 | u64::from(sheet.budget[i as usize]) << 8 | i << 2;
        slot.copy_from_slice(&word.to_be_bytes()[2..]);
        next[first].0 += u64::from(sheet.period[i as usize]);
    }
    Ok(Built { number: DONE, length })
}

/// F and c, when the byte count, F and c are right.
fn table_head(table: &[u8]) -> Option<(u32, u32)> {
    if table.len() < 5 {
        return None;
    }
    let frame = u32::from_be_bytes([0, table[0], table[1], table[2]]);
    let count = u32::from(table[3]) << 3 | u32::from(table[4]) >> 5;
    let fits = frame != 0 && u64::from(count) <= MOST_SLOTS && table.len() == 5 + 6 * count as usize;
    fits.then_some((frame, count))
}

/// Start, length and partition with its two zero bits.
fn slot_at(table: &[u8], s: u32) -> (u32, u32, u8) {
    let at = 5 + 6 * s as usize;
    let slot: &[u8; 6] = table[at..at + 6].try_into().expect("six bytes");
    (u32::from_be_bytes([0, slot[0], slot[1], slot[2]]), u32::from_be_bytes([0, 0, slot[3], slot[4]]), slot[5])
}

pub fn table_number(table: &[u8]) -> u8 {
    let Some((frame, count)) = table_head(table) else { return TABLE };
    let mut end = 0;
    let mut zero = table[4] & 31;
    for s in 0..count {
        let (start, length, last) = slot_at(table, s);
        zero |= last & 3;
        if start < end || length == 0 {
            return TABLE;
        }
        end = start + length;
    }
    if end > frame || zero != 0 {
        return TABLE;
    }
    DONE
}

pub fn step(table: &[u8], position: &mut Position) -> Stepped {
    let Some((frame, count)) = table_head(table) else { return Stepped { number: TABLE, partition: 0 } };
    let Position { tick, slot } = *position;
    if tick >= frame || slot > count {
        return Stepped { number: POSITION, partition: 0 };
    }
    let mut partition = IDLE;
    let mut next = slot;
    if slot < count {
        let (start, length, last) = slot_at(table, slot);
        if tick >= start + length {
            return Stepped { number: POSITION, partition: 0 };
        }
        if tick >= start {
            partition = last >> 2;
        }
        next += u32::from(tick + 1 == start + length);
    }
    *position = if tick + 1 == frame { Position::fresh() } else { Position { tick: tick + 1, slot: next } };
    Stepped { number: DONE, partition }
}
