//! Loads and saves plans by both programs and compares the numbers handed back and every byte of the areas.

use crate::compare::answers_of_library;
use crate::files::{self, File, SLOT};
use crate::generate::{Generator, Style};
use crate::random::Random;
use crate::sheets;
use crate::watched;
use separate::{Mode, Plan, SHEET_LIMIT};

const GUARD: usize = 64;

/// Longer than any saved plan.
const ROOM: usize = SLOT * files::SLOT_LIMIT + 40;

/// Asks for what a file says, and makes an edit that a whole plan accepts while it has a number left.
const PROBE: &[u8] = b"show 1\nleft\nfate 1\nedit 1 1 0 1 2 0\nedit 1 1 1 1 2 1\nshow 1\nsplit 1\nedit 2 9 0 1 2 1\n";
const PROBE_ROOM: usize = 900;

#[derive(Clone, Copy, PartialEq, Eq)]
pub enum Entry {
    Load,
    Save,
    SaveOn,
}

/// Name and refusals of each entry, in the order of the enum.
pub const ENTRIES: [(Entry, &str, &[usize]); 3] = [
    (Entry::Load, "load", &[11, 12, 13, 14, 15, 16, 17, 44, 45, 46]),
    (Entry::Save, "save", &[31, 41, 52]),
    (Entry::SaveOn, "save_on", &[11, 12, 13, 14, 15, 16, 17, 31, 41, 44, 45, 46, 52]),
];

impl Entry {
    fn of_library(self, file: &[u8], sheet: &[u8], area: &mut [u8]) -> u64 {
        match self {
            Entry::Load => watched::screen_load(file, sheet, area),
            Entry::Save => watched::screen_save(sheet, area),
            Entry::SaveOn => watched::screen_save_on(file, sheet, area),
        }
    }

    fn of_separate(self, file: &[u8], sheet: &[u8], area: &mut [u8]) -> u64 {
        match self {
            Entry::Load => separate::screen_load(file, sheet, area),
            Entry::Save => separate::screen_save(sheet, area),
            Entry::SaveOn => separate::screen_save_on(file, sheet, area),
        }
    }
}

/// What was met.
#[derive(Default)]
pub struct Counts {
    pub runs: u64,
    pub files: u64,
    /// By entry.
    pub accepted: [u64; 3],
    pub refused: [Vec<u64>; 3],
    /// Lines answered on loaded plans, those refused as 30, and runs that ended because an answer did not fit.
    pub lines: u64,
    pub used_up: u64,
    pub ended: u64,
    /// Sheets too long that were answered on a loaded plan.
    pub too_long: u64,
    /// Plans that came back as they were saved, also from slots in another order.
    pub round_trips: u64,
}

/// What differs, with the file and the sheet.
pub struct Difference {
    pub what: String,
    pub file: Vec<u8>,
    pub sheet: Vec<u8>,
}

/// Buffers used again from run to run.
pub struct Check {
    pub counts: Counts,
    ours: Vec<u8>,
    theirs: Vec<u8>,
    noise: Vec<u8>,
}

impl Check {
    pub fn new() -> Check {
        let mut random = Random::item(0, 1);
        let mut counts = Counts::default();
        counts.refused.fill(vec![0; 256]);
        Check { counts, ours: Vec::new(), theirs: Vec::new(), noise: (0..8_191).map(|_| random.next() as u8).collect() }
    }

    /// One run of both with an area of the length.
    fn run(&mut self, entry: Entry, file: &[u8], sheet: &[u8], length: usize) -> Result<u64, Difference> {
        let size = length + 2 * GUARD;
        // Another place of the noise in each run.
        let from = self.counts.runs as usize % 61;
        self.ours.clear();
        self.ours.extend(self.noise[from..].iter().cycle().take(size));
        self.theirs.clear();
        self.theirs.extend_from_slice(&self.ours);
        let theirs = entry.of_library(file, sheet, &mut self.theirs[GUARD..GUARD + length]);
        let number = theirs / 256;
        let (refusal, name) = ((theirs % 256) as usize, ENTRIES[entry as usize].1);
        let fail = |what: String| {
            Err(Difference { what: format!("{name}, area of {length} bytes: {what}"), file: file.to_vec(), sheet: sheet.to_vec() })
        };
        if refusal != 0 && (number != 0 || self.ours != self.theirs) {
            return fail(format!("the library refuses by {refusal}, and yet has written or gives {number}"));
        }
        let ours = entry.of_separate(file, sheet, &mut self.ours[GUARD..GUARD + length]);
        if ours != theirs {
            return fail(format!(
                "the library hands back {number} and refusal {refusal}, the separate program {} and {}",
                ours / 256,
                ours % 256
            ));
        }
        if self.ours != self.theirs {
            let at = (0..size).find(|&i| self.ours[i] != self.theirs[i]).unwrap_or(0);
            return fail(format!("byte {} differs", at as i64 - GUARD as i64));
        }
        self.count(entry, refusal, number);
        Ok(ours)
    }

    fn count(&mut self, entry: Entry, refusal: usize, number: u64) {
        self.counts.runs += 1;
        if refusal != 0 {
            self.counts.refused[entry as usize][refusal] += 1;
            return;
        }
        self.counts.accepted[entry as usize] += 1;
        if entry == Entry::Load {
            self.counts.ended += number % 2;
            let answers = &self.ours[GUARD..GUARD + number as usize / 2];
            for answer in answers.split(|&b| b == b'\n') {
                self.counts.lines += !answer.is_empty() as u64;
                self.counts.used_up += (answer == b"no 30") as u64;
                self.counts.too_long += (answer == b"no 52") as u64;
            }
        }
    }

    /// What the last run wrote.
    fn written(&self, length: u64) -> Vec<u8> {
        self.ours[GUARD..GUARD + length as usize].to_vec()
    }

    /// Loads a file and asks what it says; loads it and saves it again.
    pub fn file(&mut self, file: &[u8]) -> Result<(), Difference> {
        self.counts.files += 1;
        self.run(Entry::Load, file, PROBE, PROBE_ROOM)?;
        self.run(Entry::SaveOn, file, b"", ROOM)?;
        Ok(())
    }

    /// A plan drawn and worked on by a random sheet, saved, and loaded again.
    pub fn trip(&mut self, random: &mut Random) -> Result<(), Difference> {
        let sheet = whole(random);
        let given = self.lengths(random, Entry::Save, &[], &sheet)?;
        if given % 256 != 0 {
            return Ok(());
        }
        let saved = self.written(given / 256).into_boxed_slice();
        let fail = |what: &str, file: &[u8]| Err(Difference { what: what.into(), file: file.to_vec(), sheet: sheet.clone() });
        let mut shuffled = File::of(&saved).shuffled(random);
        for file in [&saved, &shuffled.bytes()] {
            let given = self.lengths(random, Entry::SaveOn, file, b"")?;
            if self.written(given / 256) != saved[..] {
                return fail("a plan that is loaded and saved again has another file", file);
            }
            self.file(file)?;
            if tail(&sheet) != self.answers(file)? {
                return fail("a loaded plan answers otherwise than the one that was saved", file);
            }
        }
        self.counts.round_trips += 1;
        if random.chance(300) {
            shuffled.number_from(1_000_000 - random.below(9) as u32);
        }
        self.sheet_on(random, &shuffled.bytes())
    }

    /// Answers of the library on a loaded plan to the lines that `tail` adds.
    fn answers(&mut self, file: &[u8]) -> Result<Vec<u8>, Difference> {
        let given = self.run(Entry::Load, file, TAIL, PROBE_ROOM)?;
        Ok(self.written(given / 512))
    }

    /// A random sheet on a file, loaded in areas of some lengths, and saved.
    fn sheet_on(&mut self, random: &mut Random, file: &[u8]) -> Result<(), Difference> {
        let mut plan = Plan::new();
        if plan.load(file).is_err() {
            // Refused before anything is said of the sheet.
            let sheet = long(random);
            self.run(Entry::Load, file, &sheet, ROOM)?;
            self.run(Entry::SaveOn, file, &sheet, 0)?;
            return Ok(());
        }
        let sheet = if random.chance(30) { long(random) } else { later(random, plan) };
        let all = 300 * sheet.iter().filter(|&&b| b == b'\n').count() + 300;
        let given = self.run(Entry::Load, file, &sheet, all)?;
        let answers = self.written(given / 512);
        for _ in 0..4 {
            let any = random.below(answers.len() + 10);
            let end = answers[..any.min(answers.len())].iter().rposition(|&b| b == b'\n').map_or(0, |i| i + 1);
            let length = random.pick(&[any, end, end + 1, end.saturating_sub(1), answers.len(), answers.len().saturating_sub(1)]);
            self.run(Entry::Load, file, &sheet, length)?;
        }
        self.lengths(random, Entry::SaveOn, file, &sheet)?;
        Ok(())
    }

    /// Saves in areas of some lengths, last in a roomy one.
    fn lengths(&mut self, random: &mut Random, entry: Entry, file: &[u8], sheet: &[u8]) -> Result<u64, Difference> {
        let given = self.run(entry, file, sheet, ROOM)?;
        let need = (given as usize / 256).max(1);
        for length in [0, need - 1, need, need + 1, random.below(need)] {
            self.run(entry, file, sheet, length)?;
        }
        self.run(entry, file, sheet, ROOM)
    }

    /// A file with some faults, or slots tangled at random.
    pub fn damaged(&mut self, random: &mut Random) -> Result<(), Difference> {
        let mut file = if random.chance(250) { files::tangled(random) } else { files::drawn(random) };
        if random.chance(400) {
            file = file.shuffled(random);
        }
        for _ in 0..random.pick(&[0, 1, 1, 1, 2, 3, 8]) {
            file.damage(random);
        }
        if random.chance(900) {
            file.mend_count();
        }
        if random.chance(900) {
            file.mend_sum();
        }
        let mut bytes = file.bytes();
        if random.chance(20) {
            let length = random.below(bytes.len());
            bytes = bytes[..length].into();
        }
        self.file(&bytes)?;
        if random.chance(50) {
            return self.sheet_on(random, &bytes);
        }
        Ok(())
    }

    /// Any sheet, as it is, saved.
    pub fn any_sheet(&mut self, random: &mut Random) -> Result<(), Difference> {
        let sheet = sheets::sheet(random);
        self.lengths(random, Entry::Save, &[], &sheet)?;
        Ok(())
    }

    /// Sheets around the longest, on files that load and that do not.
    pub fn long_sheets(&mut self) -> Result<(), Difference> {
        let (good, bad) = (files::kitchen().bytes(), files::counted(0, 0).bytes());
        for length in SHEET_LIMIT - 2..=SHEET_LIMIT + 2 {
            for start in ["measure 7\nopen\n", "split 1\n", ""] {
                let mut sheet = start.as_bytes().to_vec();
                sheet.resize(length, b'\n');
                for area in [0, 5, 6, 7, ROOM] {
                    self.run(Entry::Save, &[], &sheet, area)?;
                    for file in [&good, &bad] {
                        self.run(Entry::Load, file, &sheet, area)?;
                        self.run(Entry::SaveOn, file, &sheet, area)?;
                    }
                }
            }
        }
        Ok(())
    }
}

/// What a saved plan is to keep: an edit of a whole plan that changes nothing says the next number.
const TAIL: &[u8] = b"show 1\nleft\nedit 1 1 0 1 2 0\n";

/// The answers of the library to these lines behind a sheet.
fn tail(sheet: &[u8]) -> Vec<u8> {
    let mut all = sheet.to_vec();
    if all.last() != Some(&b'\n') {
        all.push(b'\n');
    }
    all.extend_from_slice(TAIL);
    let mut area = answers_of_library(None, &all).unwrap_or_default();
    let from = area.split_inclusive(|&b| b == b'\n').rev().take(3).map(<[u8]>::len).sum::<usize>();
    area.split_off(area.len() - from)
}

/// A sheet that leaves a whole plan, as a rule.
fn whole(random: &mut Random) -> Vec<u8> {
    let lines = random.pick(&[20, 110, 130, 400, 1500]);
    let style = Style::random(random);
    let stop = random.below(lines);
    let mut sheet = Vec::new();
    let mut end = 0;
    let mut generator = Generator::new(random, style);
    for line in 0..lines {
        let Some(call) = generator.next() else { break };
        call.write(&mut sheet);
        if sheet.len() + TAIL.len() >= SHEET_LIMIT {
            break;
        }
        if generator.plan.mode() == Mode::Whole {
            end = sheet.len();
            if line >= stop {
                break;
            }
        }
    }
    sheet.truncate(end);
    sheet
}

/// Calls on a loaded plan.
fn later(random: &mut Random, plan: Plan) -> Vec<u8> {
    let lines = random.pick(&[1, 10, 60, 300]);
    let style = Style::random(random);
    let mut sheet = Vec::new();
    let mut generator = Generator::on(plan, random, style);
    for _ in 0..lines {
        let Some(call) = generator.next() else { break };
        call.write(&mut sheet);
    }
    sheet
}

/// A sheet at the limit or one byte over it, of one long line or of many.
fn long(random: &mut Random) -> Vec<u8> {
    let mut sheet = b"edit 1 1 0 1 2 0\n".to_vec();
    sheet.resize(SHEET_LIMIT + random.below(2), random.pick(b"\nx"));
    sheet
}
