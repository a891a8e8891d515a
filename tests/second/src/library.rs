//! The calls of libghozrembu.a, as include/ghozrembu.h declares them. Each runs on fenced copies of its bytes, and what it
//! left of them is seen: inputs must stay as they are, and nothing may be written beside a lent buffer.

use crate::fence::{note, Fence};
use second::reference::{Answer, Built, Found, Position, Stepped};

#[repr(C)]
#[derive(Clone, Copy)]
struct CAnswer {
    number: u8,
    first: u32,
    second: u32,
}

#[repr(C)]
#[derive(Clone, Copy)]
struct CFound {
    number: u8,
    tries: u32,
}

#[repr(C)]
#[derive(Clone, Copy)]
struct CBuilt {
    number: u8,
    length: usize,
}

#[repr(C)]
#[derive(Clone, Copy)]
struct CStepped {
    number: u8,
    partition: u8,
}

extern "C" {
    fn ghozrembu_judge(sheet: *const u8, sheet_length: usize, plan: *const u8, plan_length: usize) -> CAnswer;
    fn ghozrembu_search(
        sheet: *const u8,
        sheet_length: usize,
        budget: u32,
        buffer: *mut u8,
        buffer_length: usize,
    ) -> CFound;
    fn ghozrembu_build(
        sheet: *const u8,
        sheet_length: usize,
        plan: *const u8,
        plan_length: usize,
        module: usize,
        buffer: *mut u8,
        buffer_length: usize,
    ) -> CBuilt;
    fn ghozrembu_sheet_number(sheet: *const u8, sheet_length: usize) -> u8;
    fn ghozrembu_table_number(table: *const u8, table_length: usize) -> u8;
    fn ghozrembu_step(table: *const u8, table_length: usize, position: *mut Position) -> CStepped;
}

/// The library behind fences.
pub struct Library {
    one: Fence,
    two: Fence,
    lent: Fence,
    calls: u64,
}

const ROOM: usize = 1 << 18;

impl Library {
    pub fn new() -> Library {
        Library { one: Fence::new(ROOM), two: Fence::new(ROOM), lent: Fence::new(ROOM), calls: 0 }
    }

    /// Lends the three parts, runs the call on them, and sees that the first two are as before and nothing was written
    /// outside of the third, which it gives back as it is now.
    fn fenced<R>(
        &mut self,
        one: &[u8],
        two: &[u8],
        lent: &mut [u8],
        call: impl FnOnce(*const u8, *const u8, *mut u8) -> R,
    ) -> Result<R, String> {
        self.calls += 1;
        let front = self.calls % 4 == 0;
        let a = self.one.lend(one, front);
        let b = self.two.lend(two, front);
        let c = self.lent.lend(lent, front);
        note([(a, one.len()), (b, two.len()), (c, lent.len())]);
        let got = call(a, b, c);
        if self.one.bytes() != one || self.two.bytes() != two {
            return Err("the call wrote into its input".to_string());
        }
        if !(self.one.kept() && self.two.kept() && self.lent.kept()) {
            return Err("the call wrote beside what it was lent".to_string());
        }
        lent.copy_from_slice(self.lent.bytes());
        Ok(got)
    }

    pub fn judge(&mut self, sheet: &[u8], plan: &[u8]) -> Result<Answer, String> {
        // SAFETY: the pointers and lengths are those of fenced bytes, here and below.
        let call = |a, b, _| unsafe { ghozrembu_judge(a, sheet.len(), b, plan.len()) };
        let got = self.fenced(sheet, plan, &mut [], call)?;
        Ok(Answer { number: got.number, first: got.first, second: got.second })
    }

    pub fn search(&mut self, sheet: &[u8], budget: u32, buffer: &mut [u8]) -> Result<Found, String> {
        let room = buffer.len();
        let call = |a, _, c| unsafe { ghozrembu_search(a, sheet.len(), budget, c, room) };
        let got = self.fenced(sheet, &[], buffer, call)?;
        Ok(Found { number: got.number, tries: got.tries })
    }

    pub fn build(&mut self, sheet: &[u8], plan: &[u8], module: usize, buffer: &mut [u8]) -> Result<Built, String> {
        let room = buffer.len();
        let call = |a, b, c| unsafe { ghozrembu_build(a, sheet.len(), b, plan.len(), module, c, room) };
        let got = self.fenced(sheet, plan, buffer, call)?;
        Ok(Built { number: got.number, length: got.length })
    }

    pub fn sheet_number(&mut self, sheet: &[u8]) -> Result<u8, String> {
        self.fenced(sheet, &[], &mut [], |a, _, _| unsafe { ghozrembu_sheet_number(a, sheet.len()) })
    }

    pub fn table_number(&mut self, table: &[u8]) -> Result<u8, String> {
        self.fenced(table, &[], &mut [], |a, _, _| unsafe { ghozrembu_table_number(a, table.len()) })
    }

    pub fn step(&mut self, table: &[u8], position: &mut Position) -> Result<Stepped, String> {
        let mut lent = [0; 8];
        lent[..4].copy_from_slice(&position.tick.to_ne_bytes());
        lent[4..].copy_from_slice(&position.slot.to_ne_bytes());
        let call = |a, _, c: *mut u8| unsafe { ghozrembu_step(a, table.len(), c.cast()) };
        let got = self.fenced(table, &[], &mut lent, call)?;
        position.tick = u32::from_ne_bytes(lent[..4].try_into().expect("four bytes"));
        position.slot = u32::from_ne_bytes(lent[4..].try_into().expect("four bytes"));
        Ok(Stepped { number: got.number, partition: got.partition })
    }
}

/// Steps on a table without fences, for millions of ticks.
pub fn plain_step(table: &[u8], position: &mut Position) -> Stepped {
    // SAFETY: a slice and a position that live through the call.
    let got = unsafe { ghozrembu_step(table.as_ptr(), table.len(), position) };
    Stepped { number: got.number, partition: got.partition }
}

/// The other calls without fences, for the benchmark.
pub fn plain_judge(sheet: &[u8], plan: &[u8]) -> Answer {
    // SAFETY: slices that live through the call, here and below.
    let got = unsafe { ghozrembu_judge(sheet.as_ptr(), sheet.len(), plan.as_ptr(), plan.len()) };
    Answer { number: got.number, first: got.first, second: got.second }
}

pub fn plain_search(sheet: &[u8], budget: u32, buffer: &mut [u8]) -> Found {
    let got = unsafe { ghozrembu_search(sheet.as_ptr(), sheet.len(), budget, buffer.as_mut_ptr(), buffer.len()) };
    Found { number: got.number, tries: got.tries }
}

pub fn plain_build(sheet: &[u8], plan: &[u8], module: usize, buffer: &mut [u8]) -> Built {
    let (room, at) = (buffer.len(), buffer.as_mut_ptr());
    let got = unsafe { ghozrembu_build(sheet.as_ptr(), sheet.len(), plan.as_ptr(), plan.len(), module, at, room) };
    Built { number: got.number, length: got.length }
}

pub fn plain_table_number(table: &[u8]) -> u8 {
    unsafe { ghozrembu_table_number(table.as_ptr(), table.len()) }
}

pub fn plain_sheet_number(sheet: &[u8]) -> u8 {
    unsafe { ghozrembu_sheet_number(sheet.as_ptr(), sheet.len()) }
}
