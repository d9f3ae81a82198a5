//! The sheet program and the screen: lines in, answer lines out.

use crate::plan::{Plan, Refusal};
use std::slice::Iter;

pub const SHEET_LIMIT: usize = 65_536;

/// No answer line is longer: 32 values of up to eight characters, each behind a space.
const LONGEST_ANSWER: usize = 320;

const LF: u8 = b'\n';

/// Answers a sheet into the area. Gives twice the bytes written, plus 1 if an answer did not fit.
pub fn screen_run(sheet: &[u8], area: &mut [u8]) -> u64 {
    // An empty sheet needs no plan.
    if sheet.is_empty() {
        return 0;
    }
    run_on(&mut Plan::new(), sheet, area)
}

/// Answers a sheet on a plan, with what `screen_run` gives.
pub fn run_on(plan: &mut Plan, sheet: &[u8], area: &mut [u8]) -> u64 {
    let length = area.len();
    let mut writer = Writer { rest: area };
    let fitted = if sheet.len() > SHEET_LIMIT {
        writer.refusal(Refusal::SheetTooLong)
    } else {
        run(plan, sheet, &mut writer)
    };
    let used = length - writer.rest.len();
    2 * used as u64 + fitted.is_none() as u64
}

/// Makes the calls of a sheet on a plan, with no answers.
pub(crate) fn make_calls(plan: &mut Plan, sheet: &[u8]) -> Result<(), Refusal> {
    if sheet.len() > SHEET_LIMIT {
        return Err(Refusal::SheetTooLong);
    }
    run(plan, sheet, &mut Dropped);
    Ok(())
}

/// All answers of a sheet.
pub fn answers(sheet: &[u8]) -> Vec<u8> {
    let mut length = sheet.len() + LONGEST_ANSWER;
    loop {
        let mut area = vec![0; length];
        let given = screen_run(sheet, &mut area);
        if given % 2 == 0 {
            area.truncate(given as usize / 2);
            return area;
        }
        length *= 4;
    }
}

/// Runs the lines one by one. None if an answer does not fit.
fn run(plan: &mut Plan, sheet: &[u8], answers: &mut impl Answers) -> Option<()> {
    let mut reader = Reader { rest: sheet.iter() };
    while !reader.rest.as_slice().is_empty() {
        match line(plan, &mut reader, answers) {
            Ok(fitted) => fitted?,
            Err(Unread { last }) => {
                if last != LF {
                    reader.skip_line();
                }
                answers.refusal(Refusal::Unreadable)?;
            }
        }
    }
    Some(())
}

/// A line that cannot be read, with the last byte taken from it.
struct Unread {
    last: u8,
}

/// Reads one line, makes its call and writes the answer. None if the answer does not fit.
#[inline(always)]
fn line(plan: &mut Plan, reader: &mut Reader, answers: &mut impl Answers) -> Result<Option<()>, Unread> {
    let start = reader.rest.clone();
    Ok(match reader.letters() {
        MEASURE => {
            reader.ending(b"ure")?;
            let [v] = reader.numbers()?;
            answers.given(plan.measure(v))
        }
        RULE => {
            let [a, c, b, f] = reader.numbers()?;
            answers.given(plan.rule(a, c, b, f))
        }
        OPEN => {
            let [] = reader.numbers()?;
            answers.nothing(plan.open())
        }
        SPLIT => {
            reader.ending(b"t")?;
            let [s] = reader.numbers()?;
            answers.given(plan.split(s))
        }
        EDIT => {
            let [s, client, after, m, kind, constant] = reader.numbers()?;
            answers.given(plan.edit(s, client, after, m, kind, constant))
        }
        JOIN => {
            let [] = reader.numbers()?;
            answers.nothing(plan.join())
        }
        SEND => {
            let [s] = reader.numbers()?;
            answers.given(plan.send(s))
        }
        REPLAY => {
            reader.ending(b"ay")?;
            let [n] = reader.numbers()?;
            answers.given(plan.replay(n).map(|fate| fate as u32))
        }
        STOP => {
            let [] = reader.numbers()?;
            answers.nothing(plan.stop())
        }
        CONFIRM => {
            reader.ending(b"irm")?;
            let [s] = reader.numbers()?;
            answers.nothing(plan.confirm(s))
        }
        INSTALL => {
            reader.ending(b"all")?;
            let [] = reader.numbers()?;
            answers.nothing(plan.install())
        }
        SHOW => {
            let [s] = reader.numbers()?;
            match plan.values_of(s) {
                Ok(values) => answers.values(values),
                Err(refusal) => answers.refusal(refusal),
            }
        }
        FATE => {
            let [n] = reader.numbers()?;
            let (fate, place) = plan.fate(n);
            answers.pair(fate as u32, place)
        }
        LEFT => {
            let [] = reader.numbers()?;
            answers.number(plan.left())
        }
        _ => {
            // A line feed may be among the letters.
            reader.rest = start;
            return Err(Unread { last: 0 });
        }
    })
}

// The first four letters of the names, which are all different.
const MEASURE: u32 = code(b"meas");
const RULE: u32 = code(b"rule");
const OPEN: u32 = code(b"open");
const SPLIT: u32 = code(b"spli");
const EDIT: u32 = code(b"edit");
const JOIN: u32 = code(b"join");
const SEND: u32 = code(b"send");
const REPLAY: u32 = code(b"repl");
const STOP: u32 = code(b"stop");
const CONFIRM: u32 = code(b"conf");
const INSTALL: u32 = code(b"inst");
const SHOW: u32 = code(b"show");
const FATE: u32 = code(b"fate");
const LEFT: u32 = code(b"left");

const fn code(letters: &[u8; 4]) -> u32 {
    u32::from_le_bytes(*letters)
}

struct Reader<'a> {
    rest: Iter<'a, u8>,
}

impl Reader<'_> {
    /// The next byte. A sheet ends as if by a line feed.
    #[inline(always)]
    fn byte(&mut self) -> u8 {
        self.rest.next().copied().unwrap_or(LF)
    }

    /// The first four letters of a line, which tell the names apart. Takes nothing if there are fewer bytes.
    #[inline(always)]
    fn letters(&mut self) -> u32 {
        match self.rest.as_slice().split_first_chunk() {
            Some((letters, rest)) => {
                self.rest = rest.iter();
                code(letters)
            }
            None => 0,
        }
    }

    /// The rest of a name. Takes nothing if it is another.
    #[inline(always)]
    fn ending<const N: usize>(&mut self, ending: &[u8; N]) -> Result<(), Unread> {
        match self.rest.as_slice().split_first_chunk() {
            Some((letters, rest)) if letters == ending => {
                self.rest = rest.iter();
                Ok(())
            }
            _ => Err(Unread { last: 0 }),
        }
    }

    /// The numbers up to the line's end, each behind one space. Takes the line feed too.
    #[inline(always)]
    fn numbers<const N: usize>(&mut self) -> Result<[i32; N], Unread> {
        let mut numbers = [0; N];
        let mut last = self.byte();
        for number in &mut numbers {
            if last != b' ' {
                return Err(Unread { last });
            }
            (*number, last) = self.number()?;
        }
        if last != LF {
            return Err(Unread { last });
        }
        Ok(numbers)
    }

    /// A number and the byte behind it: 0, or an optional minus and one to nine digits, the first not 0.
    #[inline(always)]
    fn number(&mut self) -> Result<(i32, u8), Unread> {
        let mut last = self.byte();
        let negative = last == b'-';
        if negative {
            last = self.byte();
        }
        let mut value = match last {
            b'1'..=b'9' => (last - b'0') as i32,
            b'0' if !negative => return Ok((0, self.byte())),
            _ => return Err(Unread { last }),
        };
        for length in 1..=9 {
            last = self.byte();
            let digit = last.wrapping_sub(b'0');
            if digit > 9 {
                return Ok((if negative { -value } else { value }, last));
            }
            if length < 9 {
                value = value * 10 + digit as i32;
            }
        }
        Err(Unread { last })
    }

    fn skip_line(&mut self) {
        self.rest.find(|&&b| b == LF);
    }
}

/// What becomes of the answers. None if one does not fit.
trait Answers {
    fn number(&mut self, n: u32) -> Option<()>;
    fn pair(&mut self, fate: u32, place: u32) -> Option<()>;
    fn values(&mut self, values: &[i32]) -> Option<()>;
    fn refusal(&mut self, refusal: Refusal) -> Option<()>;

    #[inline]
    fn given(&mut self, given: Result<u32, Refusal>) -> Option<()> {
        match given {
            Ok(n) => self.number(n),
            Err(refusal) => self.refusal(refusal),
        }
    }

    #[inline]
    fn nothing(&mut self, given: Result<(), Refusal>) -> Option<()> {
        self.given(given.map(|()| 0))
    }
}

/// No answer is wanted.
struct Dropped;

impl Answers for Dropped {
    fn number(&mut self, _: u32) -> Option<()> {
        Some(())
    }

    fn pair(&mut self, _: u32, _: u32) -> Option<()> {
        Some(())
    }

    fn values(&mut self, _: &[i32]) -> Option<()> {
        Some(())
    }

    fn refusal(&mut self, _: Refusal) -> Option<()> {
        Some(())
    }
}

/// The unused rest of the area. Each answer goes in whole, or None is given.
struct Writer<'a> {
    rest: &'a mut [u8],
}

impl Answers for Writer<'_> {
    #[inline]
    fn number(&mut self, n: u32) -> Option<()> {
        match n {
            0..=9 => self.sized_number::<5>(n),
            10..=99 => self.sized_number::<6>(n),
            100..=999 => self.sized_number::<7>(n),
            1_000..=9_999 => self.sized_number::<8>(n),
            10_000..=99_999 => self.sized_number::<9>(n),
            _ => self.sized_number::<10>(n),
        }
    }

    #[inline]
    fn pair(&mut self, fate: u32, place: u32) -> Option<()> {
        match place {
            0..=9 => self.sized_pair::<7>(fate, place),
            10..=99 => self.sized_pair::<8>(fate, place),
            _ => self.sized_pair::<9>(fate, place),
        }
    }

    fn values(&mut self, values: &[i32]) -> Option<()> {
        let length = match self.rest.first_chunk_mut() {
            Some(line) => put_values(values, line),
            None => {
                let mut line = [0; LONGEST_ANSWER];
                let length = put_values(values, &mut line);
                self.rest.get_mut(..length)?.copy_from_slice(&line[..length]);
                length
            }
        };
        self.rest = &mut std::mem::take(&mut self.rest)[length..];
        Some(())
    }
    #[inline]
    fn refusal(&mut self, refusal: Refusal) -> Option<()> {
        let n = refusal as u8;
        *self.take()? = [b'n', b'o', b' ', b'0' + n / 10, b'0' + n % 10, LF];
        Some(())
    }
}

impl Writer<'_> {
    /// Takes L bytes of the rest.
    #[inline]
    fn take<const L: usize>(&mut self) -> Option<&mut [u8; L]> {
        if self.rest.len() < L {
            return None;
        }
        let (line, rest) = std::mem::take(&mut self.rest).split_first_chunk_mut()?;
        self.rest = rest;
        Some(line)
    }

    /// A line of L bytes with one number.
    #[inline]
    fn sized_number<const L: usize>(&mut self, n: u32) -> Option<()> {
        let line = self.take::<L>()?;
        line[..3].copy_from_slice(b"ok ");
        put_digits(n, &mut line[3..L - 1]);
        line[L - 1] = LF;
        Some(())
    }

    /// A line of L bytes with a fate, which is one digit, and a place.
    #[inline]
    fn sized_pair<const L: usize>(&mut self, fate: u32, place: u32) -> Option<()> {
        let line = self.take::<L>()?;
        line[..5].copy_from_slice(&[b'o', b'k', b' ', b'0' + fate as u8, b' ']);
        put_digits(place, &mut line[5..L - 1]);
        line[L - 1] = LF;
        Some(())
    }
}

/// Puts a line of values to the front and gives its length.
fn put_values(values: &[i32], line: &mut [u8; LONGEST_ANSWER]) -> usize {
    line[..2].copy_from_slice(b"ok");
    let mut at = 2;
    for &value in values {
        line[at] = b' ';
        at += 1;
        if value < 0 {
            line[at] = b'-';
            at += 1;
        }
        let n = value.unsigned_abs();
        at += match n {
            0..=9 => put_sized::<1>(n, &mut line[at..]),
            10..=99 => put_sized::<2>(n, &mut line[at..]),
            100..=999 => put_sized::<3>(n, &mut line[at..]),
            1_000..=9_999 => put_sized::<4>(n, &mut line[at..]),
            10_000..=99_999 => put_sized::<5>(n, &mut line[at..]),
            100_000..=999_999 => put_sized::<6>(n, &mut line[at..]),
            _ => put_sized::<7>(n, &mut line[at..]),
        };
    }
    line[at] = LF;
    at + 1
}

/// Puts a number of D digits to the front.
#[inline]
fn put_sized<const D: usize>(n: u32, line: &mut [u8]) -> usize {
    put_digits(n, &mut line[..D]);
    D
}

/// Fills the place with the number's digits.
#[inline]
fn put_digits(mut n: u32, place: &mut [u8]) {
    for digit in place.iter_mut().rev() {
        *digit = b'0' + (n % 10) as u8;
        n /= 10;
    }
}
