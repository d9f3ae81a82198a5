//! The entries of the proved library that load and save (include/screen.h), with what their numbers mean.

/// The limits of include/screen.h.
pub const SHEET_LIMIT: usize = 65_536;
pub const SLOT: usize = 16;
pub const FILE_LIMIT: usize = 97 * SLOT;

/// A call that the library refused, by its number.
#[derive(Clone, Copy, PartialEq, Eq, Debug)]
pub struct Refused(pub u64);

/// A run's answers, and whether it ended because one did not fit.
pub struct Run {
    pub written: usize,
    pub ended: bool,
}

/// Loads the file and runs the sheet on it, into the area.
pub fn load(file: &[u8], sheet: &[u8], area: &mut [u8]) -> Result<Run, Refused> {
    value(library::screen_load(file, sheet, area)).map(|run| Run { written: (run / 2) as usize, ended: run % 2 == 1 })
}

/// The file of the plan that the sheet leaves, on a blank plan or on the one of an old file.
pub fn save(old: Option<&[u8]>, sheet: &[u8]) -> Result<Vec<u8>, Refused> {
    let mut area = vec![0; FILE_LIMIT];
    let result = match old {
        None => library::screen_save(sheet, &mut area),
        Some(old) => library::screen_save_on(old, sheet, &mut area),
    };
    let length = value(result)? as usize;
    area.truncate(length);
    Ok(area)
}

fn value(result: u64) -> Result<u64, Refused> {
    match result % 256 {
        0 => Ok(result / 256),
        number => Err(Refused(number)),
    }
}
