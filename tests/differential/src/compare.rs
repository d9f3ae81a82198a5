//! Runs one sheet on both programs and compares the number handed back and every byte of the area.

use crate::call::NAMES;
use crate::random::Random;
use crate::watched;
use std::time::{Duration, Instant};

const GUARD: usize = 64;

/// What was met, by refusal number and by name of an accepted call. Each sheet counts once.
pub struct Counts {
    pub lines: u64,
    /// Lines compared again in areas of other lengths.
    pub again: u64,
    pub runs: u64,
    pub refused: [u64; 100],
    pub accepted: [u64; 14],
}

impl Counts {
    pub fn new() -> Counts {
        Counts { lines: 0, again: 0, runs: 0, refused: [0; 100], accepted: [0; 14] }
    }

    /// Counts the lines of a sheet by their answers.
    fn add(&mut self, sheet: &[u8], answers: &[u8]) {
        let mut lines = sheet.split(|&b| b == b'\n');
        for answer in answers.split(|&b| b == b'\n') {
            if answer.is_empty() {
                break;
            }
            let line = lines.next().unwrap_or(b"");
            self.lines += 1;
            if let [b'n', b'o', b' ', a, b] = *answer {
                self.refused[(a - b'0') as usize * 10 + (b - b'0') as usize] += 1;
            } else if let Some(call) = NAMES.iter().position(|name| line.starts_with(name.1.as_bytes())) {
                self.accepted[call] += 1;
            }
        }
    }
}

/// Buffers used again from sheet to sheet.
pub struct Areas {
    ours: Vec<u8>,
    theirs: Vec<u8>,
    full: Vec<u8>,
}

impl Areas {
    pub fn new() -> Areas {
        Areas { ours: Vec::new(), theirs: Vec::new(), full: Vec::new() }
    }

    /// One run of both with an area of the length. Says what differs.
    pub fn run(&mut self, sheet: &[u8], length: usize, pattern: u64) -> Result<u64, String> {
        let size = length + 2 * GUARD;
        let mut fill = pattern | 1;
        self.ours.clear();
        self.ours.extend((0..size).map(|_| {
            fill = fill.wrapping_mul(0x5851_f42d_4c95_7f2d).wrapping_add(0x1405_7b7e_f767_814f);
            (fill >> 56) as u8
        }));
        self.theirs.clear();
        self.theirs.extend_from_slice(&self.ours);
        let ours = separate::screen_run(sheet, &mut self.ours[GUARD..GUARD + length]);
        let theirs = watched::screen_run(sheet, &mut self.theirs[GUARD..GUARD + length]);
        if self.ours != self.theirs {
            let at = (0..size).find(|&i| self.ours[i] != self.theirs[i]).unwrap_or(0);
            return Err(format!("byte {} of an area of {length} differs", at as i64 - GUARD as i64));
        }
        if ours != theirs {
            return Err(format!("the library hands back {theirs}, the separate program {ours}"));
        }
        Ok(ours)
    }

    /// Compares a sheet in a roomy area, then in areas of other lengths.
    pub fn compare(&mut self, random: &mut Random, sheet: &[u8], counts: &mut Counts) -> Result<(), (usize, String)> {
        self.full = separate::answers(sheet);
        let total = self.full.len();
        let room = total + random.pick(&[0, 1, 5, 300]);
        self.run(sheet, room, random.next()).map_err(|what| (room, what))?;
        counts.runs += 1;
        counts.add(sheet, &self.full);
        let more = if total < 2000 { 4 } else { 1 };
        for _ in 0..more {
            let length = self.length(random);
            let given = self.run(sheet, length, random.next()).map_err(|what| (length, what))?;
            counts.runs += 1;
            let written = given as usize / 2;
            // What was written is the front of the whole output.
            if self.ours[GUARD..GUARD + written] != self.full[..written] {
                return Err((length, "a short area has other answers".into()));
            }
            counts.again += self.full[..written].iter().filter(|&&b| b == b'\n').count() as u64;
        }
        Ok(())
    }

    /// A length at or around the end of an answer, or any.
    fn length(&self, random: &mut Random) -> usize {
        let total = self.full.len();
        let any = random.below(total + 10);
        let end = self.full[..any.min(total)].iter().rposition(|&b| b == b'\n').map_or(0, |i| i + 1);
        match random.below(10) {
            0 => random.below(8),
            1 => total,
            2 => total.saturating_sub(1),
            3 => any,
            4 => end + random.below(20),
            5 => end.saturating_sub(1),
            6 => end + 1,
            _ => end,
        }
    }
}

/// All answers of the library to a sheet, on a blank plan or on that of a file, or the refusal of the file.
pub fn answers_of_library(file: Option<&[u8]>, sheet: &[u8]) -> Result<Vec<u8>, u64> {
    answers(sheet, |area| match file {
        None => 256 * watched::screen_run(sheet, area),
        Some(file) => watched::screen_load(file, sheet, area),
    })
}

/// The same of the separate program.
pub fn answers_of_separate(file: Option<&[u8]>, sheet: &[u8]) -> Result<Vec<u8>, u64> {
    answers(sheet, |area| match file {
        None => 256 * separate::screen_run(sheet, area),
        Some(file) => separate::screen_load(file, sheet, area),
    })
}

fn answers(sheet: &[u8], run: impl FnOnce(&mut [u8]) -> u64) -> Result<Vec<u8>, u64> {
    // No answer to a line of this length is longer.
    let mut area = vec![0; 50 * sheet.len() + 300];
    let given = run(&mut area);
    area.truncate(given as usize / 512);
    match given % 256 {
        0 => Ok(area),
        refusal => Err(refusal),
    }
}

const SHRINK_TIME: Duration = Duration::from_secs(3);

/// A shorter sheet that still differs in an area of some length.
pub fn shrink(sheet: &[u8]) -> Vec<u8> {
    let mut areas = Areas::new();
    let start = Instant::now();
    let mut differs = |sheet: &[u8]| {
        if start.elapsed() > SHRINK_TIME {
            return false;
        }
        let total = separate::answers(sheet).len();
        [total, total + 300, total.saturating_sub(1)].iter().any(|&length| areas.run(sheet, length, 7).is_err())
    };
    let mut lines: Vec<&[u8]> = sheet.split_inclusive(|&b| b == b'\n').collect();
    if !differs(sheet) || sheet.len() > separate::SHEET_LIMIT {
        return sheet.to_vec();
    }
    let mut chunk = lines.len() / 2 + 1;
    loop {
        let mut at = 0;
        let mut removed = false;
        while at < lines.len() {
            let end = (at + chunk).min(lines.len());
            let fewer: Vec<&[u8]> = lines[..at].iter().chain(&lines[end..]).copied().collect();
            if differs(&fewer.concat()) {
                lines = fewer;
                removed = true;
            } else {
                at = end;
            }
        }
        if chunk == 1 && !removed {
            break;
        }
        chunk = (chunk / 2).max(1);
    }
    lines.concat()
}
