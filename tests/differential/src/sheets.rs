//! Random sheets: whole ones, damaged ones, and ones of a length near the limit.

use crate::call::NAMES;
use crate::generate::{Generator, Style};
use crate::random::Random;
use separate::SHEET_LIMIT;

/// Bytes that a reader may stumble on.
const ODD_BYTES: [u8; 20] = *b" \n\r\t\0-+0019,.aeS\x7f\x80\xff\x0b";

/// A number as no sheet may write it, or as only just allowed.
const ODD_NUMBERS: [&str; 16] = [
    "-0", "00", "07", "-07", "+1", "1234567890", "-1234567890", "999999999", "-999999999", "0000000001", "-", "--1", "1e3", "", "99999999999999999999",
    "4294967297",
];

pub fn sheet(random: &mut Random) -> Vec<u8> {
    match random.below(100) {
        0..=59 => {
            let lines = random.pick(&[20, 60, 200, 500, 1500, 4000]);
            drawn(random, lines)
        }
        60..=89 => {
            let lines = random.pick(&[5, 40, 120, 400]);
            let mut sheet = drawn(random, lines);
            let times = random.pick(&[1, 1, 2, 4, 10, 30]);
            for _ in 0..times {
                damage(random, &mut sheet);
            }
            sheet.truncate(SHEET_LIMIT + 7);
            sheet
        }
        90..=94 => noise(random),
        95..=97 => odd_lines(random),
        _ => long(random),
    }
}

/// A list of calls as a sheet, with at most so many lines.
fn drawn(random: &mut Random, lines: usize) -> Vec<u8> {
    let style = Style::random(random);
    let mut sheet = Vec::new();
    {
        let mut generator = Generator::new(random, style);
        for _ in 0..lines {
            let Some(call) = generator.next() else { break };
            let length = sheet.len();
            call.write(&mut sheet);
            if sheet.len() > SHEET_LIMIT {
                sheet.truncate(length);
                break;
            }
        }
    }
    if random.chance(200) {
        sheet.pop();
    }
    sheet
}

/// Spoils one place of a sheet.
fn damage(random: &mut Random, sheet: &mut Vec<u8>) {
    if sheet.is_empty() {
        sheet.push(random.pick(&ODD_BYTES));
        return;
    }
    let at = random.below(sheet.len());
    let line = sheet[..at].iter().rposition(|&b| b == b'\n').map_or(0, |i| i + 1);
    let end = sheet[at..].iter().position(|&b| b == b'\n').map_or(sheet.len(), |i| at + i);
    match random.below(13) {
        0 => sheet[at] ^= 1 << random.below(8),
        1 => sheet[at] = random.pick(&ODD_BYTES),
        2 => sheet.insert(at, random.pick(&ODD_BYTES)),
        3 => {
            sheet.remove(at);
        }
        // Cuts the line's end off.
        4 => {
            sheet.drain(at..end);
        }
        5 => sheet.insert(end, b'\r'),
        6 => {
            let all: Vec<u8> = sheet.iter().flat_map(|&b| if b == b'\n' { vec![b'\r', b'\n'] } else { vec![b] }).collect();
            if random.chance(200) {
                *sheet = all;
            }
        }
        // Another number in place of one.
        7 | 8 => {
            if let Some(space) = sheet[line..end].iter().rposition(|&b| b == b' ') {
                let from = line + space + 1;
                let number = random.pick(&ODD_NUMBERS);
                sheet.splice(from..end, number.bytes());
            }
        }
        // A second space, one at either end, or one more number.
        9 => {
            if let Some(space) = sheet[line..end].iter().position(|&b| b == b' ') {
                sheet.insert(line + space, b' ');
            }
        }
        10 => sheet.insert(random.pick(&[line, end]), b' '),
        11 => {
            let more = random.pick(&[" 0", " 1", "0", "\0"]);
            sheet.splice(end..end, more.bytes());
        }
        _ => sheet.truncate(at),
    }
}

/// Bytes that are hardly ever a line.
fn noise(random: &mut Random) -> Vec<u8> {
    let length = random.pick(&[0, 1, 2, 3, 10, 100, 1000]);
    let any = random.chance(300);
    (0..length).map(|_| if any { random.next() as u8 } else { random.pick(&ODD_BYTES) }).collect()
}

/// Names and numbers put together at random, in a blank plan or a drawn one.
fn odd_lines(random: &mut Random) -> Vec<u8> {
    let mut sheet = if random.chance(500) { b"measure 1\nmeasure 2\nopen\n".to_vec() } else { Vec::new() };
    for _ in 0..random.pick(&[1, 5, 50, 300]) {
        let (_, name, count) = random.pick(&NAMES);
        let mut name = name.as_bytes().to_vec();
        match random.below(12) {
            0 => name.truncate(random.below(name.len())),
            1 => name.push(random.pick(&ODD_BYTES)),
            2 => name.make_ascii_uppercase(),
            _ => {}
        }
        sheet.extend_from_slice(&name);
        let count = if random.chance(800) { count } else { random.below(8) };
        for _ in 0..count {
            sheet.extend_from_slice(random.pick(&[" ", " ", " ", " ", " ", " ", " ", " ", " ", "  ", "\t", ""]).as_bytes());
            if random.chance(150) {
                sheet.extend_from_slice(random.pick(&ODD_NUMBERS).as_bytes());
            } else {
                let n = random.pick(&[0, 1, 2, 9, 10, 99, -1, -9, -10, 123_456_789, 999_999_999, -999_999_999]);
                crate::call::write_number(&mut sheet, n);
            }
        }
        sheet.extend_from_slice(random.pick(&["\n", "\n", "\n", "\n", "\n", "\n", "\n", "\n", "\r\n", "\n\n", " \n"]).as_bytes());
    }
    sheet
}

/// A sheet whose length is at the limit or near it.
fn long(random: &mut Random) -> Vec<u8> {
    let length = SHEET_LIMIT + random.pick(&[0, 0, 0, 1, 1, 2, 100]) - random.pick(&[0, 0, 1]);
    let mut sheet = drawn(random, 6000);
    let line = random.pick(&["left\n", "fate 1\n", "\n", "x", "measure 1\n", "show 1\n"]);
    while sheet.len() < length {
        sheet.extend_from_slice(line.as_bytes());
    }
    sheet.truncate(length);
    sheet
}
