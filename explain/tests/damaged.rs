//! Whatever bytes a sheet, its answers and its names are of, the page is made, fits, and shows every line.

use explain::call::CALLS;
use explain::{explain, explain_on, lines, Names, Saved};

#[path = "../../tests/differential/src/random.rs"]
#[allow(dead_code)]
mod random;

use random::Random;

fn bytes(random: &mut Random, most: usize) -> Vec<u8> {
    (0..random.below(most)).map(|_| random.below(256) as u8).collect()
}

/// Lines of a name and up to seven numbers, small ones and some at the limits.
fn text(random: &mut Random, names: &[&str], most: usize) -> Vec<u8> {
    let mut text = String::new();
    for _ in 0..random.below(most) {
        text += random.pick(names);
        for _ in 0..random.below(8) {
            let number = match random.chance(250) {
                true => random.pick(&[0, -1, 10, 999, 1_000_000, -2_000_000, 999_999_999, -999_999_999]),
                false => random.between(0, 4),
            };
            text += &format!(" {number}");
        }
        text += "\n";
    }
    text.into_bytes()
}

fn check(sheet: &[u8], answers: &[u8], names: Names) {
    check_page(&explain(sheet, answers, names), sheet, answers);
}

fn check_page(page: &str, sheet: &[u8], answers: &[u8]) {
    assert!(page.ends_with('\n'));
    for row in page.lines() {
        assert!(row.chars().count() <= 100, "{row}");
        assert!(!row.ends_with(' ') && !row.chars().any(char::is_control), "{row:?}");
    }
    if lines(answers).first() != Some(&&b"no 52"[..]) {
        // The words stand further to the right than the line numbers, and what was loaded above the heading.
        let fronts = page.lines().skip_while(|row| !row.starts_with("line  ")).filter(|row| !row.starts_with("    "));
        let numbers = fronts.filter_map(|row| row.split_whitespace().next()?.parse().ok());
        assert_eq!(numbers.collect::<Vec<usize>>(), (1..=lines(sheet).len()).collect::<Vec<_>>(), "{page}");
    }
}

#[test]
fn any_bytes() {
    for item in 0..300 {
        let mut random = Random::item(1, item);
        let (sheet, answers) = (bytes(&mut random, 400), bytes(&mut random, 400));
        check(&sheet, &answers, Names::default());
    }
}

/// Also where the file that the sheet is said to be run on is none, or damaged.
#[test]
fn any_plan() {
    let sheet = include_bytes!("../../examples/stick-2.sheet");
    let answers = include_bytes!("../../examples/stick-2.answers");
    let text = include_str!("../../examples/stick-1.hex");
    let digits = text.lines().flat_map(|line| line.split('#').next().unwrap().split_whitespace());
    let good: Vec<u8> = digits.map(|byte| u8::from_str_radix(byte, 16).unwrap()).collect();
    for item in 0..600 {
        let mut random = Random::item(4, item);
        let mut file = if random.chance(200) { bytes(&mut random, 2000) } else { good.clone() };
        for _ in 0..random.below(4).min(file.len()) {
            let at = random.below(file.len());
            file[at] = random.below(256) as u8;
        }
        file.truncate(random.below(2000));
        check_page(&explain_on(&Saved::read(&file), sheet, answers, Names::default()), sheet, answers);
    }
}

/// Answers that no program would give to these lines.
#[test]
fn answers_of_another_sheet() {
    let calls = CALLS.map(|(name, _)| name);
    for item in 0..600 {
        let mut random = Random::item(2, item);
        let sheet = text(&mut random, &calls, 60);
        let answers = text(&mut random, &["ok", "ok", "ok", "no", "yes"], 60);
        let names = String::from_utf8(text(&mut random, &["measure", "side", "client"], 10)).unwrap();
        check(&sheet, &answers, Names::read(&names).unwrap_or_default());
    }
}

#[test]
fn single_bytes_of_a_good_sheet() {
    let sheet = include_bytes!("../../examples/island.sheet");
    let answers = include_bytes!("../../examples/island.answers");
    for item in 0..300 {
        let mut random = Random::item(3, item);
        let (mut sheet, mut answers) = (sheet.to_vec(), answers.to_vec());
        for bytes in [&mut sheet, &mut answers] {
            let at = random.below(bytes.len());
            bytes[at] = random.below(256) as u8;
            let end = random.below(2 * bytes.len()).min(bytes.len());
            bytes.truncate(end);
        }
        check(&sheet, &answers, Names::default());
    }
}

#[test]
fn long_lines_and_many() {
    check(&[b'x'; 65_536], b"no 51\n", Names::default());
    check(&[b'\n'; 65_536], &b"no 51\n".repeat(65_536), Names::default());
    check(&[0; 65_536], b"", Names::default());
    check(b"left", b"ok 0", Names::default());
    check(b"", b"", Names::default());
}

#[test]
fn a_sheet_too_long_is_told_once() {
    let page = explain(&[b'\n'; 65_537], b"no 52\n", Names::default());
    assert!(page.contains("65,536 bytes") && page.lines().count() < 5, "{page}");
}

#[test]
fn a_line_without_an_answer_is_told() {
    let page = explain(b"measure 3\nopen\n", b"ok 1\n", Names::default());
    assert!(page.contains("no answer"), "{page}");
}
