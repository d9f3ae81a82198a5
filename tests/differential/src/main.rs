//! Compares the library with the separate program on random sheets and on files of saved plans, and holds the claim about whole
//! lists of calls against the library's answers, on blank plans and loaded ones. A call that does not come back is a failure.
//!
//! differential [SEED [LINES [LISTS [FILES]]]]
//!
//! The environment's COUNTER names the counter program, which is run on some of the sheets.

mod book;
mod call;
mod compare;
mod counter;
mod files;
mod generate;
mod random;
mod saved;
mod sheets;
mod watched;

use book::Tally;
use call::NAMES;
use compare::{answers_of_library, answers_of_separate, shrink, Areas, Counts};
use random::Random;
use saved::{Check, Difference, ENTRIES};
use std::process::ExitCode;

/// Refusals that a sheet can meet on a blank plan. 30 needs more lines than a sheet has; 41 never is an answer line.
const REFUSALS: [usize; 28] = [
    11, 12, 13, 14, 15, 16, 17, 21, 22, 23, 24, 25, 26, 27, 28, 29, 31, 32, 33, 34, 35, 36, 37, 38, 39, 40, 51, 52,
];

/// Shorter runs, as to repeat a failure, need not meet every refusal.
const LINES_TO_MEET_ALL: u64 = 500_000;

const LISTS_TO_MEET_ALL: u64 = 500;

const FILES_TO_MEET_ALL: u64 = 2_000;

/// One list with a book of so many begins on a loaded plan, the first among them.
const LISTS_TO_A_LOADED: u64 = 4;

const FAILURES_SHOWN: u64 = 5;

const COUNTER_SHEETS: u64 = 300;

fn argument(index: usize, default: u64) -> u64 {
    match std::env::args().nth(index) {
        None => default,
        Some(text) => text.parse().unwrap_or_else(|_| {
            eprintln!("differential: not a number: {text}");
            std::process::exit(2)
        }),
    }
}

/// How many tests passed and failed.
#[derive(Default)]
struct Verdict {
    passed: u64,
    failed: u64,
}

impl Verdict {
    fn note(&mut self, good: bool) {
        if good {
            self.passed += 1;
        } else {
            self.failed += 1;
        }
    }

    /// Whether something was met as expected; only a run that is long enough has to meet it.
    fn met(&mut self, long: bool, what: &str, count: u64, expected: bool) {
        let good = (count > 0) == expected;
        if !good && (count > 0 || long) {
            println!("{what}: met {count} times");
        }
        if good || count > 0 || long {
            self.note(good);
        }
    }

    /// Whether a run that is long enough met each of these, on what is said behind it.
    fn met_each(&mut self, long: bool, counts: &[(&str, u64)], on: &str) {
        for (what, count) in counts {
            self.met(long, &format!("{what}{on}"), *count, true);
        }
    }

    fn add(&mut self, other: Verdict) {
        self.passed += other.passed;
        self.failed += other.failed;
    }
}

fn main() -> ExitCode {
    let seed = argument(1, 1);
    let lines = argument(2, 1_500_000);
    let lists = argument(3, 2_000);
    let files = argument(4, 40_000);
    let Ok(program) = std::env::var("COUNTER") else {
        eprintln!("differential: COUNTER names no program");
        return ExitCode::from(2);
    };
    println!("seed {seed}, {lines} lines, {lists} lists, {files} files");
    watched::begin(seed);
    let mut verdict = random_sheets(seed, lines);
    if lists > 0 {
        verdict.add(books(seed, lists));
    }
    verdict.add(counter_sheets(seed, &program));
    if files > 0 {
        verdict.add(saved_plans(seed, files));
    }
    println!("{} passed, {} failed", verdict.passed, verdict.failed);
    if verdict.failed == 0 && verdict.passed > 0 {
        ExitCode::SUCCESS
    } else {
        ExitCode::FAILURE
    }
}

/// Random sheets on a blank plan, each with areas of several lengths.
fn random_sheets(seed: u64, lines: u64) -> Verdict {
    let mut verdict = Verdict::default();
    let mut counts = Counts::new();
    let mut areas = Areas::new();
    let mut index = 0;
    while counts.lines < lines && verdict.failed < FAILURES_SHOWN {
        watched::case(&format!("sheet {index}"));
        let mut random = Random::item(seed, index);
        // A block of exactly its length, so that a memory checker sees a read behind the end.
        let sheet = sheets::sheet(&mut random).into_boxed_slice();
        let compared = areas.compare(&mut random, &sheet, &mut counts);
        verdict.note(compared.is_ok());
        if let Err((length, what)) = compared {
            println!("sheet {index}, area of {length} bytes: {what}");
            show(None, &shrink(&sheet));
        }
        index += 1;
    }
    println!("{} lines of {index} sheets compared; {} runs in all, with {} lines again", counts.lines, counts.runs, counts.again);
    print!("accepted:");
    for (call, (_, name, _)) in NAMES.iter().enumerate() {
        print!(" {name} {}", counts.accepted[call]);
    }
    print!("\nrefused:");
    for (refusal, &count) in counts.refused.iter().enumerate() {
        if count > 0 || REFUSALS.contains(&refusal) {
            print!(" {refusal}: {count}");
        }
    }
    println!();
    let long = lines >= LINES_TO_MEET_ALL;
    for (call, (_, name, _)) in NAMES.iter().enumerate() {
        verdict.met(long, name, counts.accepted[call], true);
    }
    for (refusal, &count) in counts.refused.iter().enumerate() {
        verdict.met(long, &format!("refusal {refusal}"), count, REFUSALS.contains(&refusal));
    }
    verdict
}

/// The counter program on some of the random sheets.
fn counter_sheets(seed: u64, program: &str) -> Verdict {
    let mut verdict = Verdict::default();
    for index in 0..COUNTER_SHEETS {
        let mut random = Random::item(seed, index);
        let sheet = sheets::sheet(&mut random);
        let checked = counter::check(program, &mut random, &sheet);
        verdict.note(checked.is_ok());
        if let Err(what) = checked {
            println!("sheet {index}: {what}");
            if verdict.failed == FAILURES_SHOWN {
                break;
            }
        }
    }
    println!("counter program run on {COUNTER_SHEETS} sheets");
    verdict
}

/// Lists with a book, on a blank plan and on loaded ones.
fn books(seed: u64, lists: u64) -> Verdict {
    let mut verdict = Verdict::default();
    let mut blank = Tally::default();
    let mut loaded = Tally::default();
    for index in 0..lists {
        watched::case(&format!("list {index}"));
        let is_loaded = index % LISTS_TO_A_LOADED == 0;
        let tally = if is_loaded { &mut loaded } else { &mut blank };
        let mut random = Random::item(!seed, index);
        let checked = book::check(&mut random, is_loaded, tally);
        verdict.note(checked.is_ok());
        if let Err((list, what)) = checked {
            println!("list {index}: {what}");
            show(list.file.as_deref(), &list.sheet);
            if verdict.failed == FAILURES_SHOWN {
                break;
            }
        }
    }
    for (plan, tally) in [("a blank plan", &blank), ("a loaded plan", &loaded)] {
        println!(
            "{} lists with a book on {plan}: {} accepted calls, {} late edits, {} refused as 30, {} installs, closing moves tried at {} places",
            tally.lists, tally.moves, tally.late, tally.used_up, tally.installs, tally.prefixes
        );
        println!("{} edits revoked, {} of them built on a revoked one, {} on one that was itself", tally.revoked, tally.built, tally.deep);
        println!(
            "several rules broken at once by {} edits refused as 29 and by {} edits revoked",
            tally.refused_by_several, tally.revoked_by_several
        );
    }
    let long = lists >= LISTS_TO_MEET_ALL;
    let met = [
        ("late edits", loaded.late),
        ("revoked edits", loaded.revoked),
        ("edits built on a revoked one", loaded.built),
        ("edits refused for several rules", loaded.refused_by_several),
        ("edits refused as 30", loaded.used_up),
        ("installs", loaded.installs),
        ("closing moves tried", loaded.prefixes),
    ];
    verdict.met_each(long, &met, " on a loaded plan");
    let met = [
        ("edits built on a revoked one", blank.built),
        ("edits built on one that was itself", blank.deep),
        ("edits refused for several rules", blank.refused_by_several),
        ("edits revoked for several rules", blank.revoked_by_several),
    ];
    verdict.met_each(long, &met, " on a blank plan");
    verdict.met(long, "edits refused as 30 on a blank plan", blank.used_up, false);
    // However few the lists: 02, S-1, "Demand 3 covers loaded plans too".
    verdict.met(true, "lists with a book on a loaded plan", loaded.lists, true);
    verdict
}

/// Files and sheets around saved plans: those of every run, then random ones.
fn saved_plans(seed: u64, files: u64) -> Verdict {
    let mut check = Check::new();
    let mut verdict = Verdict::default();
    let mut told = |name: &str, make: &mut dyn FnMut(&mut Check) -> Result<(), Difference>| {
        watched::case(name);
        let made = make(&mut check);
        verdict.note(made.is_ok());
        if let Err(difference) = made {
            if verdict.failed <= FAILURES_SHOWN {
                println!("{name}: {}", difference.what);
                show_file(&difference);
            }
        }
    };
    files::each(&mut |name, file| told(name, &mut |check| check.file(file)));
    told("long sheets", &mut Check::long_sheets);
    for index in 0..files {
        let mut random = Random::item(seed, index);
        match index % 20 {
            0 => told(&format!("any sheet {index}"), &mut |check| check.any_sheet(&mut random)),
            1..4 => told(&format!("saved plan {index}"), &mut |check| check.trip(&mut random)),
            _ => told(&format!("file {index}"), &mut |check| check.damaged(&mut random)),
        }
    }
    let counts = &check.counts;
    println!(
        "{} files, {} runs of load and save; {} plans saved, loaded and saved again, also from another order of slots",
        counts.files, counts.runs, counts.round_trips
    );
    println!(
        "{} lines answered on loaded plans, {} of them refused as 30, {} sheets too long; {} runs ended",
        counts.lines, counts.used_up, counts.too_long, counts.ended
    );
    let long = files >= FILES_TO_MEET_ALL;
    for ((_, name, refusals), (accepted, refused)) in ENTRIES.iter().zip(counts.accepted.iter().zip(&counts.refused)) {
        print!("{name}: accepted {accepted}, refused");
        for refusal in *refusals {
            print!(" {refusal}: {}", refused[*refusal]);
        }
        println!();
        verdict.met(long, name, *accepted, true);
        for (refusal, &count) in refused.iter().enumerate() {
            verdict.met(long, &format!("{name}, refusal {refusal}"), count, refusals.contains(&refusal));
        }
    }
    let met = [
        ("edits refused as 30", counts.used_up),
        ("sheets too long", counts.too_long),
        ("runs that ended", counts.ended),
        ("round trips", counts.round_trips),
    ];
    verdict.met_each(long, &met, "");
    verdict
}

/// Prints a file by its slots, and the start of the sheet.
fn show_file(difference: &Difference) {
    show_slots(&difference.file);
    let sheet = &difference.sheet;
    println!("  on it {} bytes: {}", sheet.len(), sheet[..sheet.len().min(2000)].escape_ascii());
}

fn show_slots(file: &[u8]) {
    for (at, slot) in file.chunks(files::SLOT).enumerate().take(100) {
        print!("  {at:3}:");
        for byte in slot {
            print!(" {byte:02x}");
        }
        println!();
    }
}

/// Prints the file that a sheet begins on, if any, and the sheet with both programs' answers, or its start if it is long.
fn show(file: Option<&[u8]>, sheet: &[u8]) {
    show_slots(file.unwrap_or_default());
    let ours = answers_of_separate(file, sheet).unwrap_or_default();
    let theirs = answers_of_library(file, sheet).unwrap_or_default();
    let mut ours = ours.split(|&b| b == b'\n');
    let mut theirs = theirs.split(|&b| b == b'\n');
    println!("  line | library | separate program");
    for line in sheet.split_inclusive(|&b| b == b'\n').take(400) {
        println!(
            "  {} | {} | {}",
            line.escape_ascii(),
            theirs.next().unwrap_or(b"").escape_ascii(),
            ours.next().unwrap_or(b"").escape_ascii()
        );
    }
}
