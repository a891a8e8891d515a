//! The search, twice: by plain recursion, and for tiny sheets by the definition of tries alone
//! ("The search and its tries").

use super::bits::{bytes_of, field};
use super::judge::verdict;
use super::numbers::*;
use super::sheet::{plan_length, read_sheet, Placement, Sheet};

#[derive(Clone, Copy, Debug, PartialEq, Eq)]
pub struct Found {
    pub number: u8,
    pub tries: u32,
}

/// The placements of a partition: module, then start, ascending.
fn placements(sheet: &Sheet, i: usize) -> Vec<Placement> {
    let last = sheet.partitions[i].period - sheet.partitions[i].budget;
    let mut all = vec![];
    for module in 0..sheet.modules.len() {
        for start in 0..=last {
            all.push(Placement { module, start });
        }
    }
    all
}

/// All constraints hold that speak of placed partitions only.
fn sound(sheet: &Sheet, plan: &[Placement]) -> bool {
    verdict(sheet, plan).number == 0
}

/// How the tries below one partial plan ended.
enum End {
    Found,
    Stopped,
    GoneThrough,
}

struct Tries<'a> {
    sheet: &'a Sheet,
    budget: u64,
    made: u64,
    plan: Vec<Placement>,
}

impl Tries<'_> {
    /// All tries that extend the present plan, which is sound.
    fn extend(&mut self) -> End {
        for place in placements(self.sheet, self.plan.len()) {
            if self.made == self.budget {
                return End::Stopped;
            }
            self.made += 1;
            self.plan.push(place);
            if sound(self.sheet, &self.plan) {
                if self.plan.len() == self.sheet.partitions.len() {
                    return End::Found;
                }
                match self.extend() {
                    End::GoneThrough => {}
                    end => return end,
                }
            }
            self.plan.pop();
        }
        End::GoneThrough
    }
}

/// The answer for a sheet and a budget, and the plan when one is found.
pub fn answer(sheet: &Sheet, budget: u32) -> (Found, Option<Vec<Placement>>) {
    let mut tries = Tries { sheet, budget: budget as u64, made: 0, plan: vec![] };
    let end = tries.extend();
    let made = tries.made as u32;
    match end {
        End::Found => (Found { number: DONE, tries: made }, Some(tries.plan)),
        End::GoneThrough => (Found { number: NONE, tries: made }, None),
        End::Stopped => (Found { number: STOPPED, tries: budget }, None),
    }
}

/// The answer once more, by the definition: all partial plans, sorted as dictionary words, those kept whose part
/// without the last placement is sound, and counted. For tiny sheets only.
pub fn answer_by_definition(sheet: &Sheet, budget: u32) -> (Found, Option<Vec<Placement>>) {
    let n = sheet.partitions.len();
    let mut words: Vec<Vec<Placement>> = vec![];
    let mut longest: Vec<Vec<Placement>> = vec![vec![]];
    for i in 0..n {
        let mut longer = vec![];
        for word in &longest {
            for place in placements(sheet, i) {
                let mut one_more = word.clone();
                one_more.push(place);
                longer.push(one_more);
            }
        }
        words.extend(longer.iter().cloned());
        longest = longer;
    }
    let letters = |word: &Vec<Placement>| -> Vec<(usize, u64)> { word.iter().map(|p| (p.module, p.start)).collect() };
    words.sort_by_key(letters);
    let tries: Vec<Vec<Placement>> = words.into_iter().filter(|word| sound(sheet, &word[..word.len() - 1])).collect();
    let first = tries.iter().position(|word| word.len() == n && sound(sheet, word));
    let needed = match first {
        Some(place) => place + 1,
        None => tries.len(),
    };
    if needed as u64 > budget as u64 {
        return (Found { number: STOPPED, tries: budget }, None);
    }
    match first {
        Some(place) => (Found { number: DONE, tries: needed as u32 }, Some(tries[place].clone())),
        None => (Found { number: NONE, tries: needed as u32 }, None),
    }
}

/// The bytes of a plan.
pub fn plan_bytes(plan: &[Placement]) -> Vec<u8> {
    let text: String = plan.iter().map(|place| field(place.module as u64, 4) + &field(place.start, 16)).collect();
    bytes_of(&text)
}

/// The search on bytes: sheet, 23, then 26 or 27. Found writes the plan at the front of the buffer.
pub fn search(sheet: &[u8], budget: u32, buffer: &mut [u8]) -> Found {
    let sheet = match read_sheet(sheet) {
        Ok(sheet) => sheet,
        Err(number) => return Found { number, tries: 0 },
    };
    if buffer.len() < plan_length(sheet.partitions.len()) {
        return Found { number: BUFFER, tries: 0 };
    }
    let (found, plan) = answer(&sheet, budget);
    if let Some(plan) = plan {
        let bytes = plan_bytes(&plan);
        buffer[..bytes.len()].copy_from_slice(&bytes);
    }
    found
}
