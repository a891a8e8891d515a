//! Files: the second program's own listings, the examples, and the three programs of the product compared on files as
//! users have them. Nothing of the product is linked here.
//!
//!     files judge [DIR] | search [DIR [FILE]] | build [DIR [PREFIX]]    what the programs print (docs/LISTINGS.md)
//!     files examples DIR     writes the cases of examples/ into DIR
//!     files dispatch DIR MODULE TICKS   what examples/module.c prints for a module of DIR, by the plan and not by a table
//!     files programs BIN     compares BIN/judge_program, search_program and builder_program
//!     files command FILE     compares the words of the command ./ghozrembu
//!
//! The last two end with 'N passed, 0 failed'.

use second::examples;
use second::random::Random;
use second::reference::judge::{chain_delay, held_by, verdict};
use second::reference::listing::{builder_listing, file, judge_listing, search_listing};
use second::reference::numbers::IDLE;
use second::reference::search::plan_bytes;
use second::reference::table::covering;
use second::reference::{read_plan, read_sheet, Answer, Module, Partition, Placement, Sheet};
use second::worlds::{fitting, longest, loose, searchable, SHEET_A};
use second::write::{sheet_bytes, with_flip};
use std::path::{Path, PathBuf};
use std::process::{exit, Command};

/// What a run leaves: the lines printed, and the files written with their names.
#[derive(Debug, PartialEq, Eq)]
struct Left {
    printed: String,
    written: Vec<(String, Vec<u8>)>,
}

/// What a program must leave in a folder. `word` is its argument, a file name or a prefix.
fn expected(program: &str, folder: &Path, word: Option<&str>) -> Left {
    let (sheet, plan) = (file(folder, "sheet.bin"), file(folder, "plan.bin"));
    match program {
        "judge" => Left { printed: judge_listing(&sheet, &plan), written: vec![] },
        "search" => {
            let (printed, found) = search_listing(&sheet, &file(folder, "budget.bin"));
            let name = |name: &str| name.to_string();
            let written = word.zip(found).map(|(word, bytes)| (name(word), bytes));
            Left { printed, written: written.into_iter().collect() }
        }
        _ => {
            let (printed, tables) = builder_listing(&sheet, &plan);
            let named =
                |word: &str| tables.iter().map(|(j, bytes)| (format!("{word}{j:02}.bin"), bytes.clone())).collect();
            Left { printed, written: word.map_or(vec![], named) }
        }
    }
}

/// Prints the listing of one program, and writes its files.
fn listing(program: &str, folder: &Path, word: Option<&str>) {
    let left = expected(program, folder, word);
    print!("{}", left.printed);
    for (name, bytes) in left.written {
        or_stop(std::fs::write(&name, bytes), &name);
    }
}

/// One line a tick: its number, and the partition whose execution covers it or `idle`.
fn dispatch(folder: &Path, module: usize, ticks: u64) {
    let sheet = read_sheet(&file(folder, "sheet.bin"))
        .unwrap_or_else(|number| stop(&format!("the sheet is refused: {number}")));
    let plan = read_plan(&file(folder, "plan.bin"), sheet.partitions.len());
    let plan = plan.unwrap_or_else(|number| stop(&format!("the plan is refused: {number}")));
    for tick in 0..ticks {
        match covering(&sheet, &plan, module, tick) {
            IDLE => println!("{tick} idle"),
            partition => println!("{tick} {partition}"),
        }
    }
}

fn stop(what: &str) -> ! {
    eprintln!("{what}");
    exit(2)
}

fn or_stop<T>(result: std::io::Result<T>, what: &str) -> T {
    result.unwrap_or_else(|error| stop(&format!("{what}: {error}")))
}

fn write_examples(folder: &Path) {
    for example in examples::all() {
        let place = folder.join(example.folder);
        or_stop(std::fs::create_dir_all(&place), example.folder);
        for (name, bytes) in example.files() {
            or_stop(std::fs::write(place.join(name), bytes), name);
        }
    }
}

/// The files of one run: none where a file is missing.
#[derive(Clone, Default)]
struct Files {
    sheet: Option<Vec<u8>>,
    plan: Option<Vec<u8>>,
    budget: Option<Vec<u8>>,
}

impl Files {
    fn of(sheet: Vec<u8>, plan: Vec<u8>, budget: u32) -> Files {
        Files { sheet: Some(sheet), plan: Some(plan), budget: Some(budget.to_be_bytes().to_vec()) }
    }

    fn lay(&self, folder: &Path) {
        or_stop(std::fs::create_dir_all(folder), "a folder");
        for (name, bytes) in [("sheet.bin", &self.sheet), ("plan.bin", &self.plan), ("budget.bin", &self.budget)] {
            if let Some(bytes) = bytes {
                or_stop(std::fs::write(folder.join(name), bytes), name);
            }
        }
    }
}

/// Runs a program of the product in a folder.
fn ran(bin: &Path, program: &str, folder: &Path, word: Option<&str>) -> Left {
    let name = if program == "build" { "builder_program".to_string() } else { format!("{program}_program") };
    let output = Command::new(bin.join(&name)).args(word).current_dir(folder).output();
    let output = or_stop(output, &format!("{name} (run './ghozrembu programs' first)"));
    let mut written = vec![];
    for entry in or_stop(std::fs::read_dir(folder), "a folder").flatten() {
        let name = entry.file_name().to_string_lossy().into_owned();
        if !["sheet.bin", "plan.bin", "budget.bin"].contains(&name.as_str()) {
            written.push((name, or_stop(std::fs::read(entry.path()), "a written file")));
        }
    }
    written.sort();
    Left { printed: String::from_utf8_lossy(&output.stdout).into_owned(), written }
}

fn hex(bytes: &Option<Vec<u8>>) -> String {
    match bytes {
        None => "missing".to_string(),
        Some(bytes) if bytes.len() > 3_000 => format!("{} bytes", bytes.len()),
        Some(bytes) => bytes.iter().map(|byte| format!("{byte:02x}")).collect(),
    }
}

/// A fresh folder of this process.
fn own_folder() -> PathBuf {
    std::env::temp_dir().join(format!("ghozrembu-files-{}", std::process::id()))
}

/// All three programs on the files, without and with an argument; says what differs.
fn compared(bin: &Path, files: &Files, runs: &mut u64) -> Result<(), String> {
    let folder = own_folder();
    for (program, words) in
        [("judge", &[None][..]), ("search", &[None, Some("found.out")]), ("build", &[None, Some("table")])]
    {
        for word in words {
            files.lay(&folder);
            let left = ran(bin, program, &folder, *word);
            let right = expected(program, &folder, *word);
            or_stop(std::fs::remove_dir_all(&folder), "a folder");
            *runs += 1;
            if left != right {
                let (sheet, plan, budget) = (hex(&files.sheet), hex(&files.plan), hex(&files.budget));
                return Err(format!(
                    "{program} with the argument {word:?}\n  sheet.bin  {sheet}\n  plan.bin   {plan}\n  budget.bin {budget}\n  program {left:?}\n  second  {right:?}"
                ));
            }
        }
    }
    Ok(())
}

/// Files as users have them, under names.
fn cases() -> Vec<(String, Vec<Files>)> {
    let a = Files::of(SHEET_A.to_vec(), vec![0, 0, 0, 0, 1], 3);
    let with = |change: &dyn Fn(&mut Files)| {
        let mut files = a.clone();
        change(&mut files);
        files
    };
    let mut random = Random::new(61);
    let world = longest(&mut random);
    let (longest_sheet, longest_plan) = (sheet_bytes(&world.sheet), plan_bytes(&world.plan));
    let longer = |bytes: &[u8], more: usize, value: u8| {
        let mut longer = bytes.to_vec();
        longer.resize(bytes.len() + more, value);
        Some(longer)
    };
    let missing = (0..8).map(|set| {
        with(&|f| {
            f.sheet = f.sheet.take().filter(|_| set & 1 == 0);
            f.plan = f.plan.take().filter(|_| set & 2 == 0);
            f.budget = f.budget.take().filter(|_| set & 4 == 0);
        })
    });
    let empty = (0..8).map(|set| {
        with(&|f| {
            let cut =
                |bytes: &mut Option<Vec<u8>>, bit: i32| bytes.as_mut().filter(|_| set & bit != 0).map(|b| b.clear());
            cut(&mut f.sheet, 1);
            cut(&mut f.plan, 2);
            cut(&mut f.budget, 4);
        })
    });
    let short_sheet = (0..SHEET_A.len()).map(|length| with(&|f| f.sheet = Some(SHEET_A[..length].to_vec())));
    let short_plan = (0..5).map(|length| with(&|f| f.plan = Some(vec![0; length])));
    let budgets = [vec![], vec![3], vec![0, 3], vec![0, 0, 3], vec![0, 0, 0, 0, 3], vec![3, 0, 0, 0, 0], vec![0; 8]];
    let lengths_of_budget = budgets.into_iter().map(|bytes| with(&|f| f.budget = Some(bytes.clone())));
    let order_of_budget = [[0, 0, 1, 0], [0, 1, 0, 0], [1, 0, 0, 0], [255; 4], [0; 4], [0, 0, 0, 2]];
    let order_of_budget = order_of_budget.into_iter().map(|bytes| with(&|f| f.budget = Some(bytes.to_vec())));
    let mores = [1, 2, 8, 160, 2_119, 2_120, 2_121, 5_000, 70_000, 1_000_000];
    let long_sheet = mores.into_iter().map(|more| with(&|f| f.sheet = longer(&SHEET_A, more, 0)));
    let long_plan = mores.into_iter().map(|more| with(&|f| f.plan = longer(&[0, 0, 0, 0, 1], more, 0)));
    let long_budget = [1, 4, 1_000_000].into_iter().map(|more| with(&|f| f.budget = longer(&[0, 0, 0, 3], more, 0)));
    let largest = Files::of(longest_sheet.clone(), longest_plan.clone(), 50);
    let around_largest = (0..12).map(|turn| {
        let mut files = largest.clone();
        match turn {
            0 => {}
            1..=4 => files.sheet = longer(&longest_sheet, [1, 2, 4_096, 100_000][turn - 1], 0),
            5..=8 => files.plan = longer(&longest_plan, [1, 2, 4_096, 100_000][turn - 5], 0),
            9 => files.sheet = Some(longest_sheet[..2_141].to_vec()),
            10 => files.plan = Some(longest_plan[..159].to_vec()),
            _ => files.sheet = Some(with_flip(&longest_sheet, 17_135)),
        }
        files
    });
    let around_largest: Vec<Files> = around_largest.collect();
    let tables: Vec<Files> = limit_cases();
    let mut list = vec![
        ("sheet A".to_string(), vec![a.clone()]),
        ("files that are missing".to_string(), missing.collect()),
        ("files that are empty".to_string(), empty.collect()),
        ("sheets cut short at every byte".to_string(), short_sheet.collect()),
        ("plans cut short at every byte".to_string(), short_plan.collect()),
        ("budgets of other lengths".to_string(), lengths_of_budget.collect()),
        ("budgets, most significant byte first".to_string(), order_of_budget.collect()),
        ("sheets that are far too long".to_string(), long_sheet.collect()),
        ("plans that are far too long".to_string(), long_plan.collect()),
        ("budgets that are far too long".to_string(), long_budget.collect()),
        ("the longest sheet and files around it".to_string(), around_largest),
        ("tables at their limits, empty modules".to_string(), tables),
    ];
    let examples =
        examples::all().iter().map(|e| Files::of(sheet_bytes(&e.sheet), plan_bytes(&e.plan), e.budget)).collect();
    list.push(("the examples".to_string(), examples));
    let mut any = vec![];
    for turn in 0..120 {
        let world = match turn % 3 {
            0 => fitting(&mut random, 3, 6),
            1 => searchable(&mut random),
            _ => loose(&mut random),
        };
        let mut sheet = sheet_bytes(&world.sheet);
        if turn % 12 == 0 {
            sheet = with_flip(&sheet, random.below(8 * sheet.len() as u64) as usize);
        }
        any.push(Files::of(sheet, plan_bytes(&world.plan), random.below(300) as u32));
    }
    list.push(("120 random worlds".to_string(), any));
    list
}

/// A table of 1,024 slots, more slots than that, a frame too large, and modules with nothing on them.
fn limit_cases() -> Vec<Files> {
    let module = Module { cabinet: 0, memory: 100, most: 64 };
    let pairs = [((32_832, 40), (32_704, 24), 40), ((2, 1), (2_048, 1), 1), ((24_929, 40), (65_281, 40), 50)];
    let two_of_three = |(one, two, start): ((u64, u64), (u64, u64), u64)| {
        let partition = |(period, budget)| Partition { period, budget, memory: 0 };
        let sheet = Sheet {
            modules: vec![module; 3],
            delays: vec![vec![0; 3]; 3],
            partitions: vec![partition(one), partition(two), partition((7, 2))],
            exclusions: vec![],
            chains: vec![],
        };
        let place = |module, start| Placement { module, start };
        Files::of(sheet_bytes(&sheet), plan_bytes(&[place(1, 0), place(1, start), place(2, 5)]), 1_000)
    };
    pairs.into_iter().map(two_of_three).collect()
}

fn programs(bin: &Path) -> ! {
    let bin = or_stop(std::fs::canonicalize(bin), &bin.display().to_string());
    let (mut passed, mut failed, mut runs) = (0, 0, 0);
    for (name, all) in cases() {
        match all.iter().try_for_each(|files| compared(&bin, files, &mut runs)) {
            Ok(()) => {
                passed += 1;
                println!("ok  {:>4} folders  {name}", all.len());
            }
            Err(what) => {
                failed += 1;
                println!("DIFFERENCE  {name}: {what}");
            }
        }
    }
    println!("{runs} runs of the three programs");
    finish(passed, failed)
}

fn finish(passed: u64, failed: u64) -> ! {
    println!("{passed} passed, {failed} failed");
    exit(if failed == 0 { 0 } else { 1 })
}

/// What the command says below the judge's line.
fn words(sheet: &Sheet, plan: &[Placement], answer: Answer) -> String {
    let (first, second) = (answer.first as usize, answer.second as usize);
    let held = held_by(plan, first);
    let runs = |i: usize| {
        let Partition { period, budget, .. } = sheet.partitions[i];
        format!("    partition {i} runs {budget} of {period} ticks from tick {} on\n", plan[i].start)
    };
    match answer.number {
        0 => "accepted: C1 to C8 hold, in every tick\n".to_string(),
        1 => {
            let (module, last) = (plan[first].module, sheet.modules.len() - 1);
            format!("C1: partition {first} is placed on module {module}, and the sheet has modules 0 to {last}\n")
        }
        2 => {
            let module = plan[first].module;
            let head = format!("C2: partitions {first} and {second} share module {module} and overlap\n");
            head + &runs(first) + &runs(second)
        }
        3 => {
            let Partition { period, budget, .. } = sheet.partitions[first];
            let start = plan[first].start;
            format!("C3: partition {first} starts at tick {start} and takes {budget}, past the end of its period of {period}\n")
        }
        4 => {
            let used: u64 = held.iter().map(|i| sheet.partitions[*i].memory).sum();
            let memory = sheet.modules[first].memory;
            format!("C4: the partitions of module {first} need {used} of memory, and it has {memory}\n")
        }
        5 => {
            let most = sheet.modules[first].most;
            format!("C5: module {first} holds {} partitions, and may hold {most} at most\n", held.len())
        }
        6 | 7 => {
            let entry = sheet.exclusions[first];
            let (i, k) = (entry.first, entry.second);
            let (one, two) = (plan[i].module, plan[k].module);
            let cabinet = sheet.modules[one].cabinet;
            if answer.number == 6 {
                format!("C6: exclusion {first} keeps partitions {i} and {k} on different modules, and both are on module {one}\n")
            } else {
                format!("C7: exclusion {first} keeps partitions {i} and {k} in different cabinets, and both are in cabinet {cabinet} (modules {one} and {two})\n")
            }
        }
        _ => {
            let chain = &sheet.chains[first];
            let members: Vec<String> = chain.members.iter().map(usize::to_string).collect();
            let sum = chain_delay(sheet, plan, chain);
            let (members, limit) = (members.join(" "), chain.limit);
            format!("C8: chain {first} (partitions {members}) takes {sum} ticks, and its limit is {limit}\n")
        }
    }
}

/// The command on worlds that break each constraint: its two lines and its exit status.
fn command(path: &Path) -> ! {
    const EACH: u32 = 6;
    let path = or_stop(std::fs::canonicalize(path), &path.display().to_string());
    let folder = own_folder();
    let mut random = Random::new(62);
    let (mut met, mut failed) = ([0; 9], 0);
    while met.iter().any(|count| *count < EACH) {
        let world = if random.once_in(2) { fitting(&mut random, 4, 7) } else { loose(&mut random) };
        let answer = verdict(&world.sheet, &world.plan);
        let number = answer.number as usize;
        if met[number] == EACH {
            continue;
        }
        met[number] += 1;
        Files::of(sheet_bytes(&world.sheet), plan_bytes(&world.plan), 0).lay(&folder);
        let output = or_stop(Command::new(&path).arg("judge").arg(&folder).output(), "the command");
        or_stop(std::fs::remove_dir_all(&folder), "a folder");
        let printed = String::from_utf8_lossy(&output.stdout).into_owned();
        let line = format!("{} {} {}\n", answer.number, answer.first, answer.second);
        let right = line + &words(&world.sheet, &world.plan, answer);
        let status = output.status.code();
        if printed != right || status != Some(i32::from(number != 0)) {
            failed += 1;
            println!("DIFFERENCE  exit {status:?}\n{printed}and not\n{right}sheet {:?}", world.sheet);
        }
    }
    println!("the command in words, {EACH} times each of accepted and C1 to C8");
    finish(u64::from(9 * EACH) - failed, failed)
}

const USAGE: &str = "usage: files judge [DIR] | search [DIR [FILE]] | build [DIR [PREFIX]] | examples DIR
             | dispatch DIR MODULE TICKS | programs BIN | command FILE";

fn main() {
    let words: Vec<String> = std::env::args().skip(1).collect();
    let words: Vec<&str> = words.iter().map(String::as_str).collect();
    match words[..] {
        [program @ ("judge" | "search" | "build")] => listing(program, Path::new("."), None),
        [program @ ("judge" | "search" | "build"), folder] => listing(program, Path::new(folder), None),
        [program @ ("search" | "build"), folder, word] => listing(program, Path::new(folder), Some(word)),
        ["examples", folder] => write_examples(&PathBuf::from(folder)),
        ["dispatch", folder, module, ticks] => match (module.parse(), ticks.parse()) {
            (Ok(module), Ok(ticks)) => dispatch(Path::new(folder), module, ticks),
            _ => stop(USAGE),
        },
        ["programs", bin] => programs(Path::new(bin)),
        ["command", path] => command(Path::new(path)),
        _ => stop(USAGE),
    }
}
