//! The plan and its calls. Each call changes the plan in place.

pub const MEASURE_LIMIT: usize = 32;
pub const RULE_LIMIT: usize = 64;
pub const SIDE_LIMIT: usize = 8;
pub const KEPT_LIMIT: usize = 256;
pub const LAST_NUMBER: u32 = 999_999;

const VALUE_LIMIT: i32 = 1_000_000;
const OFFSET_LIMIT: i32 = 2_000_000;
const FACTOR_LIMIT: i32 = 10;
const CLIENT_LIMIT: i32 = 999;

/// Marks the end of a chain and the absence of an earlier edit.
const NONE: u16 = u16::MAX;

#[derive(Clone, Copy, PartialEq, Eq, Debug)]
pub enum Mode {
    Blank,
    Whole,
    Split,
    Joining,
    Closing,
}

#[derive(Clone, Copy, PartialEq, Eq, Debug)]
pub enum Fate {
    NotKept = 0,
    Unsent = 1,
    Waiting = 2,
    Accepted = 3,
    Revoked = 4,
}

#[derive(Clone, Copy, PartialEq, Eq, Debug)]
pub enum Refusal {
    ValueRange = 11,
    TooManyMeasures = 12,
    TooManyRules = 13,
    RuleMeasure = 14,
    RuleNumbers = 15,
    NoMeasure = 16,
    RuleFails = 17,
    NoSide = 21,
    Client = 22,
    NoSuchMeasure = 23,
    Change = 24,
    Earlier = 25,
    Frozen = 26,
    KeptFull = 27,
    ResultRange = 28,
    RuleBroken = 29,
    NumbersUsedUp = 30,
    WrongMode = 31,
    TooManySides = 32,
    NothingToSend = 33,
    LogMissing = 34,
    NotWaiting = 35,
    EarlierWaiting = 36,
    EditsWaiting = 37,
    EditsUnsent = 38,
    AlreadyConfirmed = 39,
    NotAllConfirmed = 40,
    AreaShort = 41,
    FileLength = 44,
    FileSum = 45,
    FileForm = 46,
    Unreadable = 51,
    SheetTooLong = 52,
}

use Refusal::*;

type Values = [i32; MEASURE_LIMIT];

#[derive(Clone, Copy)]
enum Change {
    Set(i32),
    Add(i32),
    Multiply(i32),
    Divide(i32),
}

impl Change {
    fn new(kind: i32, constant: i32) -> Option<Change> {
        let value = (-VALUE_LIMIT..=VALUE_LIMIT).contains(&constant);
        let factor = constant != 0 && (-FACTOR_LIMIT..=FACTOR_LIMIT).contains(&constant);
        match kind {
            1 if value => Some(Change::Set(constant)),
            2 if value => Some(Change::Add(constant)),
            3 if factor => Some(Change::Multiply(constant)),
            4 if factor => Some(Change::Divide(constant)),
            _ => None,
        }
    }

    /// The result fits: a value is at most a million and a factor at most ten.
    fn apply(self, value: i32) -> i32 {
        match self {
            Change::Set(c) => c,
            Change::Add(c) => value + c,
            Change::Multiply(c) => value * c,
            Change::Divide(c) => value / c,
        }
    }
}

#[derive(Clone, Copy)]
pub(crate) struct Rule {
    /// Indices of the measures.
    pub(crate) low: u8,
    pub(crate) high: u8,
    pub(crate) firm: bool,
    pub(crate) offset: i32,
}

/// A rule seen from one of its two measures: with x the measure's own value and v the other's,
/// it holds where sign * (x - v) + offset < 0. Eight bytes without a gap, so that a new plan is cleared and opened faster.
#[derive(Clone, Copy)]
struct Bound {
    offset: i32,
    sign: i8,
    other: u8,
    /// The rule's number.
    rule: u16,
}

#[derive(Clone, Copy)]
struct Kept {
    change: Change,
    fate: Fate,
    replied: bool,
    side: u8,
    measure: u8,
    client: u16,
    /// Index of the earlier edit, or NONE.
    earlier: u16,
    place: u16,
    /// Next in the chain of the side's unsent edits, or NONE.
    next: u16,
}

/// What can be read of a kept edit.
#[derive(Clone, Copy, Debug)]
pub struct Edit {
    pub side: i32,
    pub client: i32,
    pub earlier: i32,
    pub measure: i32,
    pub fate: Fate,
    pub replied: bool,
}

pub struct Plan {
    mode: Mode,
    measures: u8,
    rules: u8,
    sides: u8,
    /// One bit for each side.
    arrived: u8,
    confirmed: u8,
    with_unsent: u8,
    /// One bit for each measure that a firm rule names.
    firm: u32,
    next_number: u32,
    /// Number of the first kept edit; the others follow without gaps.
    first_number: u32,
    unsent: u16,
    waiting: u16,
    settled: u16,
    /// First in the chain of a side's unsent edits, or NONE.
    chain: [u16; SIDE_LIMIT],
    /// bounds[starts[m]..starts[m + 1]] are the rules that name measure m. Made by open.
    starts: [u8; MEASURE_LIMIT + 1],
    rule: [Rule; RULE_LIMIT],
    bounds: [Bound; 2 * RULE_LIMIT],
    base: Values,
    draft: Values,
    values: [Values; SIDE_LIMIT],
    edits: Vec<Kept>,
}

impl Default for Plan {
    fn default() -> Self {
        Self::new()
    }
}

impl Plan {
    /// The blank plan.
    pub fn new() -> Plan {
        Plan {
            mode: Mode::Blank,
            measures: 0,
            rules: 0,
            sides: 0,
            arrived: 0,
            confirmed: 0,
            with_unsent: 0,
            firm: 0,
            next_number: 1,
            first_number: 1,
            unsent: 0,
            waiting: 0,
            settled: 0,
            chain: [NONE; SIDE_LIMIT],
            starts: [0; MEASURE_LIMIT + 1],
            rule: [Rule { low: 0, high: 0, firm: false, offset: 0 }; RULE_LIMIT],
            bounds: [Bound { offset: 0, sign: 0, other: 0, rule: 0 }; 2 * RULE_LIMIT],
            base: [0; MEASURE_LIMIT],
            draft: [0; MEASURE_LIMIT],
            values: [[0; MEASURE_LIMIT]; SIDE_LIMIT],
            // Room is made by the first split, so that a plan that stays whole asks for none.
            edits: Vec::new(),
        }
    }

    pub fn measure(&mut self, value: i32) -> Result<u32, Refusal> {
        self.need(self.mode == Mode::Blank)?;
        let at = self.measures as usize;
        if at == MEASURE_LIMIT {
            return Err(TooManyMeasures);
        }
        if !in_range(value) {
            return Err(ValueRange);
        }
        self.values[0][at] = value;
        self.measures += 1;
        Ok(self.measures as u32)
    }

    pub fn rule(&mut self, a: i32, c: i32, b: i32, f: i32) -> Result<u32, Refusal> {
        self.need(self.mode == Mode::Blank)?;
        let at = self.rules as usize;
        if at == RULE_LIMIT {
            return Err(TooManyRules);
        }
        let (Some(low), Some(high)) = (self.measure_index(a), self.measure_index(b)) else {
            return Err(RuleMeasure);
        };
        if low == high {
            return Err(RuleMeasure);
        }
        if !(-OFFSET_LIMIT..=OFFSET_LIMIT).contains(&c) || !(0..=1).contains(&f) {
            return Err(RuleNumbers);
        }
        self.rule[at] = Rule { low: low as u8, high: high as u8, firm: f == 1, offset: c };
        self.rules += 1;
        Ok(self.rules as u32)
    }

    pub fn open(&mut self) -> Result<(), Refusal> {
        self.need(self.mode == Mode::Blank)?;
        if self.measures == 0 {
            return Err(NoMeasure);
        }
        if self.broken_as_drawn() != 0 {
            return Err(RuleFails);
        }
        self.index_rules();
        self.mode = Mode::Whole;
        self.sides = 1;
        Ok(())
    }

    /// Sorts the rules by the measures that they name: counts them, then puts each behind those before it.
    fn index_rules(&mut self) {
        let rules = &self.rule[..self.rules as usize];
        let mut ends = [0u8; MEASURE_LIMIT];
        for r in rules {
            ends[r.low as usize] += 1;
            ends[r.high as usize] += 1;
            if r.firm {
                self.firm |= 1 << r.low | 1 << r.high;
            }
        }
        let mut at = 0;
        for (start, end) in self.starts.iter_mut().zip(&mut ends) {
            *start = at;
            at += *end;
            *end = *start;
        }
        self.starts[MEASURE_LIMIT] = at;
        for (rule, r) in (1..).zip(rules) {
            for (measure, sign, other) in [(r.low, 1, r.high), (r.high, -1, r.low)] {
                let end = &mut ends[measure as usize];
                self.bounds[*end as usize] = Bound { offset: r.offset, sign, other, rule };
                *end += 1;
            }
        }
    }

    /// Whether the plan is blank with nothing drawn.
    pub(crate) fn is_new(&self) -> bool {
        self.mode == Mode::Blank && self.measures == 0 && self.rules == 0
    }

    /// Takes back what is drawn of a blank plan.
    pub(crate) fn undraw(&mut self) {
        self.measures = 0;
        self.rules = 0;
    }

    /// Says which number the next edit gets. No edit is kept.
    pub(crate) fn number_from(&mut self, next: u32) {
        self.next_number = next;
        self.first_number = next;
    }

    /// The values of side 1.
    pub(crate) fn first_values(&self) -> &[i32] {
        &self.values[0][..self.measures as usize]
    }

    pub(crate) fn drawn_rules(&self) -> &[Rule] {
        &self.rule[..self.rules as usize]
    }

    pub fn split(&mut self, s: i32) -> Result<u32, Refusal> {
        self.need(matches!(self.mode, Mode::Whole | Mode::Split))?;
        let from = self.side_index(s)?;
        let to = self.sides as usize;
        if to == SIDE_LIMIT {
            return Err(TooManySides);
        }
        if self.mode == Mode::Whole {
            self.base = self.values[0];
            self.edits.clear();
            self.edits.reserve(KEPT_LIMIT);
            self.first_number = self.next_number;
            self.mode = Mode::Split;
        }
        self.values[to] = self.values[from];
        self.sides += 1;
        Ok(self.sides as u32)
    }

    pub fn edit(&mut self, s: i32, client: i32, after: i32, m: i32, kind: i32, constant: i32) -> Result<u32, Refusal> {
        self.need(matches!(self.mode, Mode::Whole | Mode::Split | Mode::Joining))?;
        let side = self.side_index(s)?;
        if !(1..=CLIENT_LIMIT).contains(&client) {
            return Err(Client);
        }
        let Some(measure) = self.measure_index(m) else {
            return Err(NoSuchMeasure);
        };
        let Some(change) = Change::new(kind, constant) else {
            return Err(Refusal::Change);
        };
        let mut earlier = NONE;
        if after != 0 {
            match self.kept_index(after) {
                Some(i) if self.edits[i].replied && self.edits[i].client as i32 == client => earlier = i as u16,
                _ => return Err(Earlier),
            }
        }
        let keep = self.mode != Mode::Whole;
        if keep {
            if self.firm >> measure & 1 == 1 {
                return Err(Frozen);
            }
            if self.edits.len() == KEPT_LIMIT {
                return Err(KeptFull);
            }
        }
        let number = self.next_number;
        if number > LAST_NUMBER {
            return Err(NumbersUsedUp);
        }
        let value = change.apply(self.values[side][measure]);
        if !in_range(value) {
            return Err(ResultRange);
        }
        let broken = self.first_broken(&self.values[side], measure, value);
        if broken != 0 {
            return Err(RuleBroken);
        }
        self.values[side][measure] = value;
        self.next_number += 1;
        if keep {
            let at = self.edits.len() as u16;
            self.edits.push(Kept {
                change,
                fate: Fate::Unsent,
                replied: self.mode == Mode::Split,
                side: side as u8,
                measure: measure as u8,
                client: client as u16,
                earlier,
                place: 0,
                next: self.chain[side],
            });
            self.chain[side] = at;
            self.with_unsent |= 1 << side;
            self.unsent += 1;
        }
        Ok(number)
    }

    pub fn join(&mut self) -> Result<(), Refusal> {
        self.need(self.mode == Mode::Split)?;
        self.mode = Mode::Joining;
        self.draft = self.base;
        self.arrived = 0;
        self.confirmed = 0;
        self.settled = 0;
        Ok(())
    }

    pub fn send(&mut self, s: i32) -> Result<u32, Refusal> {
        self.need(self.settling())?;
        let side = self.side_index(s)?;
        let mut at = self.chain[side];
        if at == NONE && self.arrived >> side & 1 == 1 {
            return Err(NothingToSend);
        }
        let mut sent = 0;
        while at != NONE {
            let edit = &mut self.edits[at as usize];
            edit.fate = Fate::Waiting;
            edit.replied = true;
            at = edit.next;
            sent += 1;
        }
        self.chain[side] = NONE;
        self.with_unsent &= !(1 << side);
        self.arrived |= 1 << side;
        self.unsent -= sent;
        self.waiting += sent;
        Ok(sent as u32)
    }

    pub fn replay(&mut self, n: i32) -> Result<Fate, Refusal> {
        self.need(self.settling())?;
        self.need_logs()?;
        let at = match self.kept_index(n) {
            Some(i) if self.edits[i].fate == Fate::Waiting => i,
            _ => return Err(NotWaiting),
        };
        let Kept { change, measure, earlier, .. } = self.edits[at];
        let earlier = if earlier == NONE { Fate::NotKept } else { self.edits[earlier as usize].fate };
        if earlier == Fate::Waiting {
            return Err(EarlierWaiting);
        }
        let measure = measure as usize;
        let value = change.apply(self.draft[measure]);
        // An edit whose earlier edit was revoked is not tested (02, S-2).
        let tested = earlier != Fate::Revoked && in_range(value);
        let broken = if tested { self.first_broken(&self.draft, measure, value) } else { 0 };
        let fate = if tested && broken == 0 {
            self.draft[measure] = value;
            Fate::Accepted
        } else {
            Fate::Revoked
        };
        self.waiting -= 1;
        self.settled += 1;
        let edit = &mut self.edits[at];
        edit.fate = fate;
        edit.place = self.settled;
        Ok(fate)
    }

    pub fn stop(&mut self) -> Result<(), Refusal> {
        self.need(self.mode == Mode::Joining)?;
        self.need_logs()?;
        if self.waiting != 0 {
            return Err(EditsWaiting);
        }
        self.mode = Mode::Closing;
        Ok(())
    }

    pub fn confirm(&mut self, s: i32) -> Result<(), Refusal> {
        self.need(self.mode == Mode::Closing)?;
        let bit = 1 << self.side_index(s)?;
        if self.confirmed & bit != 0 {
            return Err(AlreadyConfirmed);
        }
        if self.with_unsent & bit != 0 {
            return Err(EditsUnsent);
        }
        self.confirmed |= bit;
        Ok(())
    }

    pub fn install(&mut self) -> Result<(), Refusal> {
        self.need(self.mode == Mode::Closing)?;
        if self.confirmed != self.all_sides() {
            return Err(NotAllConfirmed);
        }
        if self.waiting != 0 {
            return Err(EditsWaiting);
        }
        self.values[0] = self.draft;
        self.sides = 1;
        self.mode = Mode::Whole;
        Ok(())
    }

    /// Copies a side's values to the front of the area and hands that part back.
    pub fn show<'a>(&self, s: i32, area: &'a mut [i32]) -> Result<&'a mut [i32], Refusal> {
        let values = self.values_of(s)?;
        let part = area.get_mut(..values.len()).ok_or(AreaShort)?;
        part.copy_from_slice(values);
        Ok(part)
    }

    /// A side's values, lent and not copied.
    pub fn values_of(&self, s: i32) -> Result<&[i32], Refusal> {
        self.need(self.mode != Mode::Blank)?;
        let side = self.side_index(s)?;
        Ok(&self.values[side][..self.measures as usize])
    }

    /// Fate and place.
    pub fn fate(&self, n: i32) -> (Fate, u32) {
        match self.kept_index(n) {
            Some(i) => (self.edits[i].fate, self.edits[i].place as u32),
            None => (Fate::NotKept, 0),
        }
    }

    pub fn left(&self) -> u32 {
        if !self.settling() {
            return 0;
        }
        let all = self.all_sides();
        let to_send = all & (!self.arrived | self.with_unsent);
        let to_confirm = all & !self.confirmed;
        u16::from_le_bytes([to_send, to_confirm]).count_ones()
            + self.unsent as u32
            + self.waiting as u32
            + (self.mode == Mode::Joining) as u32
            + 1
    }

    pub fn mode(&self) -> Mode {
        self.mode
    }

    pub fn measures(&self) -> i32 {
        self.measures as i32
    }

    pub fn rules(&self) -> i32 {
        self.rules as i32
    }

    pub fn sides(&self) -> i32 {
        self.sides as i32
    }

    /// Number that the next accepted edit gets.
    pub fn next_number(&self) -> i32 {
        self.next_number as i32
    }

    /// First number and count of the kept edits.
    pub fn kept(&self) -> (i32, i32) {
        (self.first_number as i32, self.edits.len() as i32)
    }

    pub fn waiting(&self) -> i32 {
        self.waiting as i32
    }

    pub fn unsent(&self) -> i32 {
        self.unsent as i32
    }

    pub fn has_unsent(&self, s: i32) -> bool {
        self.side_index(s).is_ok_and(|side| self.with_unsent >> side & 1 == 1)
    }

    pub fn has_arrived(&self, s: i32) -> bool {
        self.side_index(s).is_ok_and(|side| self.arrived >> side & 1 == 1)
    }

    pub fn has_confirmed(&self, s: i32) -> bool {
        self.side_index(s).is_ok_and(|side| self.confirmed >> side & 1 == 1)
    }

    /// The numbers of rule r, with which it was drawn: a, c, b.
    pub fn rule_terms(&self, r: i32) -> Option<[i32; 3]> {
        let Rule { low, high, offset, .. } = self.rule[index(r, 1, self.rules as u32)?];
        Some([low as i32 + 1, offset, high as i32 + 1])
    }

    pub fn is_firm(&self, m: i32) -> bool {
        self.measure_index(m).is_some_and(|measure| self.firm >> measure & 1 == 1)
    }

    pub fn kept_edit(&self, n: i32) -> Option<Edit> {
        let edit = &self.edits[self.kept_index(n)?];
        Some(Edit {
            side: edit.side as i32 + 1,
            client: edit.client as i32,
            earlier: if edit.earlier == NONE { 0 } else { self.first_number as i32 + edit.earlier as i32 },
            measure: edit.measure as i32 + 1,
            fate: edit.fate,
            replied: edit.replied,
        })
    }

    /// The number that open's walk over all rules gives (02, S-3): that of the last drawn of those which the drawn values
    /// break, 0 if none is broken.
    pub fn broken_as_drawn(&self) -> u32 {
        let values = &self.values[0];
        let breaks = |r: &Rule| values[r.low as usize] + r.offset >= values[r.high as usize];
        self.drawn_rules().iter().rposition(breaks).map_or(0, |at| at as u32 + 1)
    }

    /// The number that the walk gives for an edit of measure m of side s to a value (02, S-3). 0 where there is no such side
    /// or measure, or the value is out of range: such an edit is refused untested.
    pub fn broken_rule(&self, s: i32, m: i32, value: i32) -> u32 {
        match (self.side_index(s), self.measure_index(m)) {
            (Ok(side), Some(measure)) if in_range(value) => self.first_broken(&self.values[side], measure, value),
            _ => 0,
        }
    }

    /// The rules that an edit's change breaks on its side, last drawn first; none where there is no such side, measure or change.
    pub fn broken_by_edit(&self, s: i32, m: i32, kind: i32, constant: i32) -> Vec<u32> {
        match (self.side_index(s), self.measure_index(m), Change::new(kind, constant)) {
            (Ok(side), Some(measure), Some(change)) => self.broken_by(&self.values[side], measure, change),
            _ => Vec::new(),
        }
    }

    /// The rules that a kept edit's change breaks on the draft, last drawn first, whatever became of its earlier edit.
    pub fn broken_by_replay(&self, n: i32) -> Vec<u32> {
        match self.kept_index(n) {
            Some(at) => self.broken_by(&self.draft, self.edits[at].measure as usize, self.edits[at].change),
            None => Vec::new(),
        }
    }

    /// A result out of range is not tested.
    fn broken_by(&self, values: &Values, measure: usize, change: Change) -> Vec<u32> {
        let value = change.apply(values[measure]);
        if in_range(value) {
            self.broken_rules(values, measure, value).collect()
        } else {
            Vec::new()
        }
    }

    /// The numbers of the rules that a list of values breaks once one of its measures changes, last drawn first. The list
    /// meets every rule before, so those that do not name the measure hold as they did.
    fn broken_rules<'a>(&'a self, values: &'a Values, measure: usize, value: i32) -> impl Iterator<Item = u32> + 'a {
        let from = self.starts[measure] as usize;
        let to = self.starts[measure + 1] as usize;
        let breaks = move |b: &&Bound| b.sign as i32 * (value - values[b.other as usize]) + b.offset >= 0;
        self.bounds[from..to].iter().rev().filter(breaks).map(|b| b.rule as u32)
    }

    /// The walk ends at the first of them; 0 if there is none (02, S-3).
    fn first_broken(&self, values: &Values, measure: usize, value: i32) -> u32 {
        self.broken_rules(values, measure, value).next().unwrap_or(0)
    }

    pub(crate) fn need(&self, mode_fits: bool) -> Result<(), Refusal> {
        if mode_fits {
            Ok(())
        } else {
            Err(WrongMode)
        }
    }

    fn need_logs(&self) -> Result<(), Refusal> {
        if self.arrived == self.all_sides() {
            Ok(())
        } else {
            Err(LogMissing)
        }
    }

    fn settling(&self) -> bool {
        matches!(self.mode, Mode::Joining | Mode::Closing)
    }

    fn all_sides(&self) -> u8 {
        ((1u16 << self.sides) - 1) as u8
    }

    fn side_index(&self, s: i32) -> Result<usize, Refusal> {
        index(s, 1, self.sides as u32).ok_or(NoSide)
    }

    fn measure_index(&self, m: i32) -> Option<usize> {
        index(m, 1, self.measures as u32)
    }

    fn kept_index(&self, n: i32) -> Option<usize> {
        index(n, self.first_number as i32, self.edits.len() as u32)
    }
}

/// Index of a number among `count` that follow each other from `first`.
fn index(number: i32, first: i32, count: u32) -> Option<usize> {
    let at = number.wrapping_sub(first) as u32;
    (at < count).then_some(at as usize)
}

fn in_range(value: i32) -> bool {
    (-VALUE_LIMIT..=VALUE_LIMIT).contains(&value)
}
