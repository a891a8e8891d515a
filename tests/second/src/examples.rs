//! The speaking cases under examples/ of the repository: where their bytes come from.

use crate::reference::search::plan_bytes;
use crate::reference::{Chain, Exclusion, Module, Partition, Placement, Sheet};
use crate::worlds::{pair, sheet_a, starts};
use crate::write::sheet_bytes;

/// A folder under examples/ and its three files.
pub struct Example {
    pub folder: &'static str,
    pub sheet: Sheet,
    pub plan: Vec<Placement>,
    pub budget: u32,
}

impl Example {
    pub fn files(&self) -> [(&'static str, Vec<u8>); 3] {
        [
            ("sheet.bin", sheet_bytes(&self.sheet)),
            ("plan.bin", plan_bytes(&self.plan)),
            ("budget.bin", self.budget.to_be_bytes().to_vec()),
        ]
    }
}

/// A counting point of a station: two counting channels in different cabinets, what evaluates them, and what hangs on it.
fn station() -> Sheet {
    let partition = |period, budget, memory| Partition { period, budget, memory };
    let module = |cabinet, memory, most| Module { cabinet, memory, most };
    Sheet {
        modules: vec![module(0, 1_000, 3), module(1, 1_200, 3), module(1, 1_500, 4)],
        delays: vec![vec![0, 5, 6], vec![5, 0, 2], vec![6, 2, 0]],
        partitions: vec![
            partition(20, 4, 300),
            partition(20, 4, 300),
            partition(40, 8, 400),
            partition(200, 11, 500),
            partition(40, 6, 200),
            partition(100, 5, 700),
        ],
        exclusions: vec![
            Exclusion { cabinet: true, first: 0, second: 1 },
            Exclusion { cabinet: false, first: 2, second: 5 },
            Exclusion { cabinet: false, first: 3, second: 5 },
        ],
        chains: vec![Chain { limit: 110, members: vec![0, 2, 4] }, Chain { limit: 110, members: vec![1, 2, 4] }],
    }
}

pub fn all() -> Vec<Example> {
    let place = |module, start| Placement { module, start };
    vec![
        Example { folder: "sheet-a", sheet: sheet_a(), plan: starts(&[0, 1]), budget: 3 },
        Example { folder: "single-tick", sheet: pair((4_094, 1), (4_096, 2)), plan: starts(&[0, 1]), budget: 100_000 },
        Example { folder: "none", sheet: pair((2, 1), (3, 1)), plan: starts(&[0, 1]), budget: 8 },
        Example {
            folder: "station",
            sheet: station(),
            plan: vec![place(0, 0), place(1, 0), place(0, 4), place(1, 4), place(0, 12), place(2, 0)],
            budget: 10_000,
        },
    ]
}

#[cfg(test)]
mod tests {
    use super::all;
    use crate::reference::judge::run_of;
    use crate::reference::listing::{builder_listing, judge_listing, search_listing};
    use std::path::Path;

    #[test]
    fn the_repository_has_them_byte_by_byte() {
        let root = Path::new(env!("CARGO_MANIFEST_DIR")).join("../../examples");
        for example in all() {
            for (name, bytes) in example.files() {
                let path = root.join(example.folder).join(name);
                assert_eq!(std::fs::read(&path).ok(), Some(bytes), "{path:?}: run 'files examples examples'");
            }
        }
    }

    #[test]
    fn they_show_what_their_pages_say() {
        let firsts: Vec<(String, String)> = all()
            .iter()
            .map(|example| {
                let [(_, sheet), (_, plan), (_, budget)] = example.files();
                let line = |text: String| text.lines().next().unwrap_or("").to_string();
                (line(judge_listing(&sheet, &plan)), line(search_listing(&sheet, &budget).0))
            })
            .collect();
        let expected = [("0 0 0", "0 3"), ("2 0 1", "27 100000"), ("2 0 1", "26 8"), ("0 0 0", "0 425")];
        let shown: Vec<(&str, &str)> = firsts.iter().map(|(judge, search)| (judge.as_str(), search.as_str())).collect();
        assert_eq!(shown, expected);
    }

    #[test]
    fn the_single_tick_is_single() {
        let example = &all()[1];
        let (one, two) = (run_of(&example.sheet, &example.plan, 0), run_of(&example.sheet, &example.plan, 1));
        let frame = 4_094 * 4_096 / 2;
        let meetings: Vec<u64> = (0..frame).filter(|tick| one.covers(*tick) && two.covers(*tick)).collect();
        assert_eq!(meetings, [8_380_418]);
    }

    #[test]
    fn the_station_builds() {
        let [(_, sheet), (_, plan), _] = all()[3].files();
        assert_eq!(builder_listing(&sheet, &plan).1.len(), 3);
    }
}
