//! Reads a line of a sheet and an answer (01, "The sheet program"). Whether a line can be read is for its answer to say; so this
//! reader need not be strict.

#[derive(Clone, Copy, PartialEq, Eq, Debug)]
pub enum Call {
    Measure { value: i64 },
    Rule(Rule),
    Open,
    Split { side: i64 },
    Edit(Edit),
    Join,
    Send { side: i64 },
    Replay { edit: i64 },
    Stop,
    Confirm { side: i64 },
    Install,
    Show { side: i64 },
    Fate { edit: i64 },
    Left,
}

/// Measure `low` plus `gap` is less than measure `high`.
#[derive(Clone, Copy, PartialEq, Eq, Debug)]
pub struct Rule {
    pub low: i64,
    pub gap: i64,
    pub high: i64,
    pub firm: bool,
}

impl Rule {
    pub fn names(&self, measure: i64) -> bool {
        self.low == measure || self.high == measure
    }
}

#[derive(Clone, Copy, PartialEq, Eq, Debug)]
pub struct Edit {
    pub side: i64,
    pub client: i64,
    pub earlier: i64,
    pub measure: i64,
    pub change: Change,
}

/// `Unknown` stands for every number that is no kind. It is never accepted.
#[derive(Clone, Copy, PartialEq, Eq, Debug)]
pub enum Change {
    Set(i64),
    Add(i64),
    Multiply(i64),
    Divide(i64),
    Unknown,
}

impl Change {
    fn new(kind: i64, constant: i64) -> Change {
        match kind {
            1 => Change::Set(constant),
            2 => Change::Add(constant),
            3 => Change::Multiply(constant),
            4 => Change::Divide(constant),
            _ => Change::Unknown,
        }
    }

    /// Never fails, whatever numbers a damaged file of answers led to.
    pub fn made_on(self, value: i64) -> i64 {
        match self {
            Change::Set(constant) => constant,
            Change::Add(constant) => value.saturating_add(constant),
            Change::Multiply(constant) => value.saturating_mul(constant),
            Change::Divide(constant) => value.checked_div(constant).unwrap_or(value),
            Change::Unknown => value,
        }
    }
}

/// The names, each with what its numbers are.
pub const CALLS: [(&str, &[&str]); 14] = [
    ("measure", &["its value"]),
    ("rule", &["a measure", "an allowance", "the measure above it", "1 if firm or else 0"]),
    ("open", &[]),
    ("split", &["a side"]),
    ("edit", &["a side", "a client", "an earlier edit or 0", "a measure", "a kind", "a constant"]),
    ("join", &[]),
    ("send", &["a side"]),
    ("replay", &["an edit"]),
    ("stop", &[]),
    ("confirm", &["a side"]),
    ("install", &[]),
    ("show", &["a side"]),
    ("fate", &["an edit"]),
    ("left", &[]),
];

impl Call {
    pub fn read(line: &[u8]) -> Option<Call> {
        let (name, numbers) = words(line)?;
        Some(match (name, numbers.as_slice()) {
            ("measure", &[value]) => Call::Measure { value },
            ("rule", &[low, gap, high, firm]) => Call::Rule(Rule { low, gap, high, firm: firm == 1 }),
            ("open", []) => Call::Open,
            ("split", &[side]) => Call::Split { side },
            ("edit", &[side, client, earlier, measure, kind, constant]) => {
                Call::Edit(Edit { side, client, earlier, measure, change: Change::new(kind, constant) })
            }
            ("join", []) => Call::Join,
            ("send", &[side]) => Call::Send { side },
            ("replay", &[edit]) => Call::Replay { edit },
            ("stop", []) => Call::Stop,
            ("confirm", &[side]) => Call::Confirm { side },
            ("install", []) => Call::Install,
            ("show", &[side]) => Call::Show { side },
            ("fate", &[edit]) => Call::Fate { edit },
            ("left", []) => Call::Left,
            _ => return None,
        })
    }
}

/// What seems to be wrong with a line that was answered with 51.
pub fn fault(line: &[u8]) -> String {
    if line.is_empty() {
        return "It is empty.".to_string();
    }
    if line.ends_with(b"\r") {
        return "It ends in a carriage return, as lines of a Windows file do.".to_string();
    }
    let spaced =
        line.starts_with(b" ") || line.ends_with(b" ") || line.windows(2).any(|pair| pair == b"  ") || line.contains(&b'\t');
    if spaced {
        return "It has a space too many, or a tab.".to_string();
    }
    let mut parts = line.split(|&byte| byte == b' ');
    let name = parts.next().unwrap_or(b"");
    let Some((name, takes)) = CALLS.iter().find(|(known, _)| known.as_bytes() == name) else {
        return "It does not begin with the name of a call.".to_string();
    };
    if parts.count() != takes.len() {
        return match takes {
            [] => format!("`{name}` takes no number."),
            _ => format!("`{name}` takes {}.", takes.join(", ")),
        };
    }
    "A number is written plainly: no leading zero, no plus sign, at most nine digits.".to_string()
}

#[derive(Clone, PartialEq, Eq, Debug)]
pub enum Answer {
    Given(Vec<i64>),
    Refused(i64),
}

impl Answer {
    pub fn read(line: &[u8]) -> Option<Answer> {
        match words(line)? {
            ("ok", numbers) if !numbers.is_empty() => Some(Answer::Given(numbers)),
            ("no", numbers) if numbers.len() == 1 => Some(Answer::Refused(numbers[0])),
            _ => None,
        }
    }
}

/// A name and the numbers behind it. Nine digits are the most that a number has.
fn words(line: &[u8]) -> Option<(&str, Vec<i64>)> {
    let mut words = std::str::from_utf8(line).ok()?.split(' ');
    let name = words.next()?;
    let numbers = words.map(|word| word.parse().ok().filter(|number: &i64| number.abs() < 1_000_000_000));
    Some((name, numbers.collect::<Option<_>>()?))
}

#[cfg(test)]
mod tests {
    use super::*;

    #[test]
    fn every_call_is_read() {
        for (name, takes) in CALLS {
            let numbers: String = (1..=takes.len()).map(|number| format!(" {number}")).collect();
            assert!(Call::read(format!("{name}{numbers}").as_bytes()).is_some(), "{name}");
            assert!(Call::read(format!("{name}{numbers} 1").as_bytes()).is_none(), "{name}");
        }
        let edit = Edit { side: 1, client: 5, earlier: 0, measure: 2, change: Change::Multiply(-4) };
        assert_eq!(Call::read(b"edit 1 5 0 2 3 -4"), Some(Call::Edit(edit)));
    }

    #[test]
    fn an_answer_is_read() {
        assert_eq!(Answer::read(b"ok 7 -12"), Some(Answer::Given(vec![7, -12])));
        assert_eq!(Answer::read(b"no 29"), Some(Answer::Refused(29)));
        for other in [&b""[..], b"ok", b"no", b"no 1 2", b"yes 1", b"ok x", b"\xff"] {
            assert_eq!(Answer::read(other), None);
        }
    }

    #[test]
    fn a_fault_is_found() {
        for (line, part) in [
            (&b""[..], "empty"),
            (b"open\r", "carriage return"),
            (b"open ", "space"),
            (b"edit\t1", "tab"),
            (b"mesure 3", "name of a call"),
            (b"\x00\xff", "name of a call"),
            (b"open 1", "`open` takes no number"),
            (b"rule 1 2", "`rule` takes a measure"),
            (b"measure 07", "plainly"),
        ] {
            assert!(fault(line).contains(part), "{}", fault(line));
        }
    }
}
