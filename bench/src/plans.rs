//! Times loading and saving.

use crate::sheets::{drawn, edits};
use std::hint::black_box;
use std::time::Instant;

/// An entry on a file, a sheet and an area; some have no file.
type Entry = fn(&[u8], &[u8], &mut [u8]) -> u64;

/// Library and separate program, and what their number is a multiple of where nothing is refused and every answer fits.
#[derive(Clone, Copy)]
struct Entries {
    programs: [Entry; 2],
    unit: u64,
}

const RUN: Entries =
    Entries { programs: [|_, sheet, area| library::screen_run(sheet, area), |_, sheet, area| separate::screen_run(sheet, area)], unit: 2 };
const LOAD: Entries = Entries { programs: [library::screen_load, separate::screen_load], unit: 512 };
const SAVE: Entries =
    Entries { programs: [|_, sheet, area| library::screen_save(sheet, area), |_, sheet, area| separate::screen_save(sheet, area)], unit: 256 };
const SAVE_ON: Entries = Entries { programs: [library::screen_save_on, separate::screen_save_on], unit: 256 };

/// Measures and rules, so that the file has 2, 4, 16, 33, 65 and 97 slots.
const SIZES: [(usize, usize); 6] = [(1, 0), (2, 1), (8, 7), (16, 16), (32, 32), (32, 64)];

const EDITS: usize = 1000;

/// No output of these calls is longer.
const ROOM: usize = 1 << 16;

/// Runs of one call in a row, so that the clock is read seldom.
const TIMES: usize = 20;

#[derive(Clone)]
struct Call {
    entries: Entries,
    file: Vec<u8>,
    sheet: Vec<u8>,
}

impl Call {
    fn new(entries: Entries, file: &[u8], sheet: &str) -> Call {
        Call { entries, file: file.to_vec(), sheet: sheet.as_bytes().to_vec() }
    }

    /// Both programs do the same, and refuse nothing.
    fn compare(&self) {
        let [library, separate] = self.entries.programs.map(|entry| {
            let mut area = vec![7; ROOM];
            (entry(&self.file, &self.sheet, &mut area), area)
        });
        assert_eq!(library, separate);
        assert_eq!(library.0 % self.entries.unit, 0);
    }

    /// Nanoseconds of one run.
    fn time(&self, program: usize, area: &mut [u8]) -> f64 {
        let entry = self.entries.programs[program];
        let start = Instant::now();
        for _ in 0..TIMES {
            black_box(entry(black_box(&self.file), black_box(&self.sheet), black_box(area)));
        }
        start.elapsed().as_nanos() as f64 / TIMES as f64
    }
}

/// A call whose time is taken, less that of another where there is one, and what it is to be divided by.
struct Row {
    name: String,
    call: Call,
    less: Option<Call>,
    parts: usize,
}

/// Nanoseconds of the library and of the separate program in each row, the least of the rounds.
fn measure(rows: &[Row], rounds: usize) -> Vec<[f64; 2]> {
    let mut area = vec![0; ROOM];
    let mut least = vec![[[f64::MAX; 2]; 2]; rows.len()];
    for call in rows.iter().flat_map(|row| [Some(&row.call), row.less.as_ref()]).flatten() {
        call.compare();
    }
    for _ in 0..rounds {
        for (row, least) in rows.iter().zip(&mut least) {
            for (program, [whole, less]) in least.iter_mut().enumerate() {
                *whole = whole.min(row.call.time(program, &mut area));
                *less = row.less.as_ref().map_or(0.0, |call| less.min(call.time(program, &mut area)));
            }
        }
    }
    least.iter().map(|programs| programs.map(|[whole, less]| whole - less)).collect()
}

fn table(heading: &str, part: &str, rows: &[Row], rounds: usize) {
    println!();
    println!("| {heading} | library, ns | Rust program, ns | library, ns per {part} | Rust program, ns per {part} | ratio |");
    println!("|---|---|---|---|---|---|");
    for (row, [library, separate]) in rows.iter().zip(measure(rows, rounds)) {
        let parts = row.parts as f64;
        println!(
            "| {} | {library:.0} | {separate:.0} | {:.1} | {:.1} | {:.2} |",
            row.name,
            library / parts,
            separate / parts,
            library / separate
        );
    }
}

/// The file of the plan that a sheet draws.
fn saved(sheet: &str) -> Vec<u8> {
    let mut area = vec![0; ROOM];
    let given = separate::screen_save(sheet.as_bytes(), &mut area);
    assert_eq!(given % 256, 0);
    area.truncate(given as usize / 256);
    area
}

/// By how many slots: loading alone, loading and saving, and what saving adds to a sheet that draws the plan.
fn by_slots() -> Vec<Row> {
    let mut rows = Vec::new();
    for (what, entries) in [("load", LOAD), ("load and save", SAVE_ON)] {
        for (measures, rules) in SIZES {
            let slots = 1 + measures + rules;
            let file = saved(&drawn(measures, rules, false));
            rows.push(Row { name: format!("{what}, {slots} slots"), call: Call::new(entries, &file, ""), less: None, parts: slots });
        }
    }
    for (measures, rules) in SIZES {
        let slots = 1 + measures + rules;
        let sheet = drawn(measures, rules, false);
        let run = Call::new(RUN, &[], &sheet);
        rows.push(Row { name: format!("run a drawing, {slots} slots"), call: run.clone(), less: None, parts: slots });
        rows.push(Row { name: format!("save a drawing, {slots} slots"), call: Call::new(SAVE, &[], &sheet), less: None, parts: slots });
    }
    rows
}

/// The same edits behind the lines that draw the plan and on its file, with the time of either start taken off.
fn by_edits() -> Vec<Row> {
    let start = drawn(32, 64, false);
    let lines: String = edits(32).lines().cycle().take(EDITS).flat_map(|line| [line, "\n"]).collect();
    let file = saved(&start);
    let row = |name: &str, call: Call, less: Option<Call>| Row { name: name.into(), call, less, parts: EDITS };
    let drawn_run = Call::new(RUN, &[], &(start.clone() + &lines));
    let on_file = Call::new(LOAD, &file, &lines);
    vec![
        row("on a drawn plan, the drawing with them", drawn_run.clone(), None),
        row("on a loaded plan, the loading with them", on_file.clone(), None),
        row("on a drawn plan", drawn_run, Some(Call::new(RUN, &[], &start))),
        row("on a loaded plan", on_file, Some(Call::new(LOAD, &file, ""))),
        row("on a loaded plan, and saved", Call::new(SAVE_ON, &file, &lines), Some(Call::new(SAVE_ON, &file, ""))),
    ]
}

pub fn print(rounds: usize) {
    table("saved plans", "slot", &by_slots(), rounds);
    table("1000 edits, 64 rules", "edit", &by_edits(), rounds);
}
