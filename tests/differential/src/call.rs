//! A call as a line of a sheet.

use separate::Plan;

#[derive(Clone, Copy, PartialEq, Eq, Debug)]
pub enum Name {
    Measure,
    Rule,
    Open,
    Split,
    Edit,
    Join,
    Send,
    Replay,
    Stop,
    Confirm,
    Install,
    Show,
    Fate,
    Left,
}

/// Name, text and count of numbers, in the order of the enum.
pub const NAMES: [(Name, &str, usize); 14] = [
    (Name::Measure, "measure", 1),
    (Name::Rule, "rule", 4),
    (Name::Open, "open", 0),
    (Name::Split, "split", 1),
    (Name::Edit, "edit", 6),
    (Name::Join, "join", 0),
    (Name::Send, "send", 1),
    (Name::Replay, "replay", 1),
    (Name::Stop, "stop", 0),
    (Name::Confirm, "confirm", 1),
    (Name::Install, "install", 0),
    (Name::Show, "show", 1),
    (Name::Fate, "fate", 1),
    (Name::Left, "left", 0),
];

#[derive(Clone, Copy, Debug)]
pub struct Call {
    pub name: Name,
    pub numbers: [i32; 6],
}

impl Call {
    pub fn new(name: Name, numbers: &[i32]) -> Call {
        let mut call = Call { name, numbers: [0; 6] };
        call.numbers[..numbers.len()].copy_from_slice(numbers);
        call
    }

    pub fn numbers(&self) -> &[i32] {
        &self.numbers[..NAMES[self.name as usize].2]
    }

    /// Adds the call's line with its line feed.
    pub fn write(&self, sheet: &mut Vec<u8>) {
        sheet.extend_from_slice(NAMES[self.name as usize].1.as_bytes());
        for &n in self.numbers() {
            sheet.push(b' ');
            write_number(sheet, n);
        }
        sheet.push(b'\n');
    }

    /// Makes the call on the model. Gives whether it was accepted.
    pub fn make(&self, plan: &mut Plan) -> bool {
        let [a, b, c, d, e, f] = self.numbers;
        match self.name {
            Name::Measure => plan.measure(a).is_ok(),
            Name::Rule => plan.rule(a, b, c, d).is_ok(),
            Name::Open => plan.open().is_ok(),
            Name::Split => plan.split(a).is_ok(),
            Name::Edit => plan.edit(a, b, c, d, e, f).is_ok(),
            Name::Join => plan.join().is_ok(),
            Name::Send => plan.send(a).is_ok(),
            Name::Replay => plan.replay(a).is_ok(),
            Name::Stop => plan.stop().is_ok(),
            Name::Confirm => plan.confirm(a).is_ok(),
            Name::Install => plan.install().is_ok(),
            Name::Show => plan.values_of(a).is_ok(),
            Name::Fate | Name::Left => true,
        }
    }

    /// How many rules the call's change would break in the model as it is.
    pub fn breaks(&self, plan: &Plan) -> usize {
        let [a, _, _, measure, kind, constant] = self.numbers;
        match self.name {
            Name::Edit => plan.broken_by_edit(a, measure, kind, constant).len(),
            Name::Replay => plan.broken_by_replay(a).len(),
            _ => 0,
        }
    }
}

pub fn write_number(out: &mut Vec<u8>, n: i32) {
    let mut digits = [0; 10];
    let mut at = digits.len();
    let mut rest = n.unsigned_abs();
    loop {
        at -= 1;
        digits[at] = b'0' + (rest % 10) as u8;
        rest /= 10;
        if rest == 0 {
            break;
        }
    }
    if n < 0 {
        out.push(b'-');
    }
    out.extend_from_slice(&digits[at..]);
}
