//! One call at a time: the library, the reference and the fast form are asked the same, and all that they give back is
//! compared: numbers, places, every byte of a lent buffer, the position. Every number met is counted for its call.

use crate::library::{plain_step, Library};
use second::fast;
use second::reference::{self as reference, Answer, Built, Found, Position, Stepped};

/// The calls, with the numbers that each can answer with on bytes.
pub const CALLS: [(&str, &[u8]); 6] = [
    ("judge", &[0, 1, 2, 3, 4, 5, 6, 7, 8, 10, 11, 12, 13, 14, 15, 16, 17, 18]),
    ("search", &[0, 10, 11, 12, 13, 14, 15, 16, 17, 23, 26, 27]),
    ("build", &[0, 1, 2, 3, 4, 5, 6, 7, 8, 10, 11, 12, 13, 14, 15, 16, 17, 18, 20, 21, 22, 23]),
    ("sheet", &[0, 10, 11, 12, 13, 14, 15, 16, 17]),
    ("table", &[0, 24]),
    ("step", &[0, 24, 25]),
];

pub struct Compare {
    pub library: Library,
    /// How often each call answered with each number.
    pub met: [[u64; 28]; 6],
    pub comparisons: u64,
    pub sheets: u64,
}

/// The outcome of a check: fine, or what differs.
pub type Checked = Result<(), String>;

pub fn hex(bytes: &[u8]) -> String {
    bytes.iter().map(|byte| format!("{byte:02x}")).collect()
}

impl Compare {
    pub fn new() -> Compare {
        Compare { library: Library::new(), met: [[0; 28]; 6], comparisons: 0, sheets: 0 }
    }

    /// Counts a comparison; `said` describes what was asked, and is made only for a difference.
    fn same<T: PartialEq + std::fmt::Debug>(
        &mut self,
        call: usize,
        number: u8,
        library: &T,
        reference: &T,
        fast: &T,
        said: impl Fn() -> String,
    ) -> Checked {
        self.comparisons += 1;
        if library != reference {
            return Err(format!("{}\n  library   {library:?}\n  reference {reference:?}", said()));
        }
        if fast != reference {
            return Err(format!("{}\n  fast form {fast:?}\n  reference {reference:?}", said()));
        }
        self.met[call][number as usize] += 1;
        Ok(())
    }

    pub fn judge(&mut self, sheet: &[u8], plan: &[u8]) -> Result<Answer, String> {
        let said = || format!("judge\n  sheet {}\n  plan  {}", hex(sheet), hex(plan));
        let expected = reference::judge(sheet, plan);
        let got = self.library.judge(sheet, plan).map_err(|what| format!("{what}: {}", said()))?;
        self.same(0, expected.number, &got, &expected, &fast::judge(sheet, plan), said)?;
        Ok(expected)
    }

    pub fn sheet(&mut self, sheet: &[u8]) -> Result<u8, String> {
        let said = || format!("sheet_number\n  sheet {}", hex(sheet));
        let expected = reference::sheet_number(sheet);
        let got = self.library.sheet_number(sheet).map_err(|what| format!("{what}: {}", said()))?;
        self.same(3, expected, &got, &expected, &fast::sheet_number(sheet), said)?;
        Ok(expected)
    }

    /// The search with a buffer that holds `before`; gives the answer and the buffer afterwards.
    pub fn search(&mut self, sheet: &[u8], budget: u32, before: &[u8]) -> Result<(Found, Vec<u8>), String> {
        let said = || format!("search, budget {budget}\n  sheet  {}\n  buffer {}", hex(sheet), hex(before));
        let (mut expected, mut got, mut quick) = (before.to_vec(), before.to_vec(), before.to_vec());
        let answer = reference::search(sheet, budget, &mut expected);
        let answered = self.library.search(sheet, budget, &mut got).map_err(|what| format!("{what}: {}", said()))?;
        let quickly = fast::search(sheet, budget, &mut quick);
        self.same(1, answer.number, &(answered, got), &(answer, expected.clone()), &(quickly, quick), said)?;
        Ok((answer, expected))
    }

    /// The builder with a buffer that holds `before`; gives the answer and the buffer afterwards.
    pub fn build(
        &mut self,
        sheet: &[u8],
        plan: &[u8],
        module: usize,
        before: &[u8],
    ) -> Result<(Built, Vec<u8>), String> {
        let said = || {
            let (sheet, plan, before) = (hex(sheet), hex(plan), hex(before));
            format!("build of module {module}\n  sheet  {sheet}\n  plan   {plan}\n  buffer {before}")
        };
        let (mut expected, mut got, mut quick) = (before.to_vec(), before.to_vec(), before.to_vec());
        let answer = reference::build(sheet, plan, module, &mut expected);
        let answered =
            self.library.build(sheet, plan, module, &mut got).map_err(|what| format!("{what}: {}", said()))?;
        let quickly = fast::build(sheet, plan, module, &mut quick);
        self.same(2, answer.number, &(answered, got), &(answer, expected.clone()), &(quickly, quick), said)?;
        Ok((answer, expected))
    }

    pub fn table(&mut self, table: &[u8]) -> Result<u8, String> {
        let said = || format!("table_number\n  table {}", hex(table));
        let expected = reference::table_number(table);
        let got = self.library.table_number(table).map_err(|what| format!("{what}: {}", said()))?;
        self.same(4, expected, &got, &expected, &fast::table_number(table), said)?;
        Ok(expected)
    }

    /// One step from a position; gives the answer and the position afterwards.
    pub fn step(&mut self, table: &[u8], from: Position) -> Result<(Stepped, Position), String> {
        let said = || format!("step from tick {} slot {}\n  table {}", from.tick, from.slot, hex(table));
        let (mut expected, mut got, mut quick) = (from, from, from);
        let answer = reference::step(table, &mut expected);
        let answered = self.library.step(table, &mut got).map_err(|what| format!("{what}: {}", said()))?;
        let quickly = fast::step(table, &mut quick);
        self.same(5, answer.number, &(answered, got), &(answer, expected), &(quickly, quick), said)?;
        Ok((answer, expected))
    }

    /// Steps a table from the fresh position for `ticks` ticks, and holds each answer to what `covering` says of the tick.
    pub fn run(&mut self, table: &[u8], ticks: u64, covering: impl Fn(u64) -> u8) -> Checked {
        let mut position = Position::fresh();
        for tick in 0..ticks {
            let before = position;
            let got = plain_step(table, &mut position);
            let expected = Stepped { number: 0, partition: covering(tick) };
            if got != expected {
                let table = hex(table);
                return Err(format!(
                    "step at tick {tick} of a run, from {before:?}\n  table {table}\n  library {got:?}\n  plan    {expected:?}"
                ));
            }
        }
        self.comparisons += ticks;
        self.met[5][0] += ticks;
        Ok(())
    }
}
