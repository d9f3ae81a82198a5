//! Reads and writes the files of ./molzaken: saves the plan that a sheet leaves, and runs a sheet on a saved plan. What a file means and what
//! is refused is the proved library's to say.
//!
//! desk save SHEET PLAN
//! desk save-on OLD SHEET PLAN
//! desk load PLAN [SHEET]
//!
//! The exit status is 0 where all went well, 1 where the library refused or a file cannot be read or written, 2 after a wrong usage.

#![forbid(unsafe_code)]

mod entry;
mod place;
mod refusals;

use entry::{FILE_LIMIT, SHEET_LIMIT, SLOT};
use place::Place;
use std::env;
use std::ffi::OsString;
use std::fs::File;
use std::io::{self, Read, Write};
use std::path::Path;
use std::process::ExitCode;

/// The sheet that is run where none is given: it shows the plan.
const SHOW: &[u8] = b"show 1\n";
/// Room for answers at first. Most runs need less, and a run that needs more is made again.
const ROOM: usize = 1 << 16;

fn main() -> ExitCode {
    let arguments: Vec<OsString> = env::args_os().skip(1).collect();
    let done = match arguments.iter().map(Path::new).collect::<Vec<_>>().as_slice() {
        [task, sheet, plan] if *task == Path::new("save") => save(None, sheet, plan),
        [task, old, sheet, plan] if *task == Path::new("save-on") => save(Some(old), sheet, plan),
        [task, plan] if *task == Path::new("load") => load(plan, None),
        [task, plan, sheet] if *task == Path::new("load") => load(plan, Some(sheet)),
        _ => {
            eprintln!("usage: desk save SHEET PLAN | desk save-on OLD SHEET PLAN | desk load PLAN [SHEET]");
            return ExitCode::from(2);
        }
    };
    match done {
        Ok(()) => ExitCode::SUCCESS,
        Err(problem) => {
            // Whoever closed standard error cannot be told.
            let _ = writeln!(io::stderr(), "molzaken: {problem}");
            ExitCode::FAILURE
        }
    }
}

fn save(old: Option<&Path>, sheet: &Path, plan: &Path) -> Result<(), String> {
    let old = old.map(|old| read(old, FILE_LIMIT)).transpose()?;
    let lines = read_sheet(sheet)?;
    let file = entry::save(old.as_deref(), &lines).map_err(refusals::in_words)?;
    put(&file, plan, sheet).map_err(|error| format!("cannot write {}: {error}", plan.display()))?;
    let line = format!("saved: {}\n", contents(&file));
    print(line.as_bytes()).map_err(|error| format!("the plan is saved, but that cannot be said: {error}"))
}

/// A sheet is not written over by its own plan: that is a slip of whoever typed the names.
fn put(file: &[u8], plan: &Path, sheet: &Path) -> io::Result<()> {
    let place = Place::new(plan)?;
    if sheet != Path::new("-") && place.holds(sheet) {
        return Err(io::Error::other("it is the sheet"));
    }
    place.put(file)
}

fn load(plan: &Path, sheet: Option<&Path>) -> Result<(), String> {
    let file = read(plan, FILE_LIMIT)?;
    let lines = sheet.map_or(Ok(SHOW.to_vec()), read_sheet)?;
    let mut area = vec![0; ROOM];
    loop {
        let run = entry::load(&file, &lines, &mut area).map_err(refusals::in_words)?;
        if !run.ended {
            return print(&area[..run.written]).map_err(|error| format!("the answers cannot be written: {error}"));
        }
        area.resize(4 * area.len(), 0);
    }
}

/// How much a saved plan holds. Its marks tell measures from rules, wherever the slots lie.
fn contents(file: &[u8]) -> String {
    let marked = |kind| file.chunks(SLOT).skip(1).filter(|slot| slot[2] & 3 == kind).count();
    format!("{}, {}, {} bytes", count(marked(1), "measure"), count(marked(2), "rule"), file.len())
}

fn count(n: usize, what: &str) -> String {
    format!("{n} {what}{}", if n == 1 { "" } else { "s" })
}

fn read_sheet(sheet: &Path) -> Result<Vec<u8>, String> {
    if sheet == Path::new("-") {
        return read_from(io::stdin(), SHEET_LIMIT).map_err(|error| format!("the sheet cannot be read: {error}"));
    }
    read(sheet, SHEET_LIMIT)
}

fn read(path: &Path, limit: usize) -> Result<Vec<u8>, String> {
    File::open(path).and_then(|file| read_from(file, limit)).map_err(|error| format!("cannot read {}: {error}", path.display()))
}

/// One byte over the limit is enough for the library to know that there are too many, and a file may be without end.
fn read_from(from: impl Read, limit: usize) -> io::Result<Vec<u8>> {
    let mut bytes = Vec::new();
    from.take(limit as u64 + 1).read_to_end(&mut bytes)?;
    Ok(bytes)
}

fn print(bytes: &[u8]) -> io::Result<()> {
    let mut out = io::stdout();
    out.write_all(bytes)?;
    out.flush()
}

#[cfg(test)]
mod tests {
    use super::*;

    #[test]
    fn contents_are_counted_by_their_marks() {
        let slot = |mark: u8| [0, 0, mark, 0, 0, 0, 0, 0, 0, 0, 0, 0, 0, 0, 0, 0];
        let file = [slot(0), slot(1), slot(6), slot(2)].concat();
        assert_eq!(contents(&file), "1 measure, 2 rules, 64 bytes");
    }

    #[test]
    fn no_more_is_read_than_needed() {
        assert_eq!(read_from(io::repeat(7), 10).unwrap(), [7; 11]);
        assert_eq!(read_from(&b"abc"[..], 10).unwrap(), b"abc");
    }
}
