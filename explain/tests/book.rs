//! What the book works out is what `show`, `fate` and `left` answer in every stored sheet, and what a saved plan holds.

use explain::book::{Book, Fate, Mode};
use explain::call::{Answer, Call};
use explain::{lines, Saved};
use std::fs;
use std::path::Path;

/// What the book has for a call that only reads.
fn read(book: &Book, call: Call) -> Option<Vec<i64>> {
    match call {
        Call::Show { side } => Some(book.values(side).values().copied().collect()),
        Call::Fate { edit } => Some(vec![book.edits.get(&edit).map_or(0, |kept| match kept.fate {
            Fate::Unsent => 1,
            Fate::Waiting => 2,
            Fate::Accepted => 3,
            Fate::Revoked => 4,
        })]),
        Call::Left if matches!(book.mode, Mode::Joining | Mode::Closing) => {
            let steps = book.to_send().len() + book.to_replay().len() + book.to_confirm().len() + 1;
            Some(vec![steps as i64 + i64::from(book.mode == Mode::Joining)])
        }
        Call::Left => Some(vec![0]),
        _ => None,
    }
}

/// The plan of a file that is stored as hexadecimal text, if there is one.
fn saved(file: &Path) -> Option<Saved> {
    let text = fs::read_to_string(file).ok()?;
    let digits = text.lines().flat_map(|line| line.split('#').next().unwrap().split_whitespace());
    Some(Saved::read(&digits.map(|byte| u8::from_str_radix(byte, 16).unwrap()).collect::<Vec<_>>()))
}

/// The second and later parts of a story are run on the plan that the part before them left.
fn start(sheet: &Path) -> Book {
    let name = sheet.file_stem().unwrap().to_str().unwrap();
    let part = name.rsplit_once('-').and_then(|(story, part)| Some((story, part.parse::<usize>().ok()?)));
    let before = part.filter(|(_, part)| *part > 1).map(|(story, part)| format!("{story}-{}.hex", part - 1));
    before.and_then(|file| saved(&sheet.with_file_name(file))).map_or(Book::default(), |plan| Book::on(&plan))
}

/// Follows a sheet by its answers, and counts those compared. The place that `fate` gives is not in the book.
fn compare(sheet: &Path) -> usize {
    let answers = fs::read(sheet.with_extension("answers")).unwrap();
    let bytes = fs::read(sheet).unwrap();
    let mut book = start(sheet);
    let mut compared = 0;
    for (line, answer) in lines(&bytes).into_iter().zip(lines(&answers)) {
        let Some(Answer::Given(given)) = Answer::read(answer) else { continue };
        let call = Call::read(line).expect("an accepted line can be read");
        if let Some(due) = read(&book, call) {
            let given = if matches!(call, Call::Fate { .. }) { &given[..1] } else { &given };
            assert_eq!(due, given, "{}: {}", sheet.display(), String::from_utf8_lossy(line));
            compared += 1;
        }
        book.enter(call, &given);
    }
    if let Some(plan) = saved(&sheet.with_extension("hex")) {
        assert_eq!(book.mode, Mode::Whole);
        assert!(book.values(1).values().eq(&plan.values) && book.rules.values().eq(&plan.rules), "{}", sheet.display());
        compared += 1;
    }
    compared
}

fn stored(folder: &str) -> usize {
    let folder = Path::new(env!("CARGO_MANIFEST_DIR")).join("..").join(folder);
    let files = fs::read_dir(folder).unwrap().map(|entry| entry.unwrap().path());
    files.filter(|file| file.extension().is_some_and(|extension| extension == "sheet")).map(|file| compare(&file)).sum()
}

#[test]
fn in_the_examples() {
    assert!(stored("examples") > 20);
}

#[test]
fn in_the_tests() {
    assert!(stored("tests/sheets") > 60);
}
