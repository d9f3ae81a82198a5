//! What is remembered of the accepted lines, from their numbers and answers alone (01, "The book").

use crate::call::{Call, Edit, Rule};
use crate::saved::Saved;
use std::collections::BTreeMap;

#[derive(Clone, Copy, PartialEq, Eq, Debug)]
pub enum Mode {
    Blank,
    Whole,
    Split,
    Joining,
    Closing,
}

#[derive(Clone, Copy, PartialEq, Eq, Debug)]
pub enum Fate {
    Unsent,
    Waiting,
    Accepted,
    Revoked,
}

/// What was in the way of an edit that was revoked.
#[derive(Clone, PartialEq, Eq, Debug)]
pub enum Against {
    /// The edit that it builds on, revoked before it (02, S-2).
    Earlier(i64),
    Range,
    /// These rules.
    Rules(Vec<i64>),
}

pub struct Kept {
    pub edit: Edit,
    pub fate: Fate,
    /// Of a revoked edit, where the book knows it.
    pub against: Option<Against>,
}

impl Kept {
    pub fn is_unsent_of(&self, side: i64) -> bool {
        self.fate == Fate::Unsent && self.edit.side == side
    }
}

pub type Values = BTreeMap<i64, i64>;

/// An install leaves side 1 as new, so no join knows of an earlier one's messages.
#[derive(Default)]
pub struct Side {
    pub values: Values,
    pub sent: bool,
    pub confirmed: bool,
}

/// The most that a measure can be, either way (01, "The plan").
const LIMIT: u64 = 1_000_000;

/// A change tried on some values.
pub struct Trial {
    pub before: i64,
    pub after: i64,
    /// In a measure's range.
    pub fits: bool,
    pub broken: Vec<Broken>,
}

/// A rule that does not hold, with the two lengths that it compares.
pub struct Broken {
    pub rule: i64,
    pub low: i64,
    pub high: i64,
}

pub struct Book {
    pub mode: Mode,
    pub rules: BTreeMap<i64, Rule>,
    pub sides: BTreeMap<i64, Side>,
    pub edits: BTreeMap<i64, Kept>,
    /// The last whole plan, and the joined plan as far as it has come.
    pub base: Values,
    pub draft: Values,
}

impl Default for Book {
    fn default() -> Book {
        Book {
            mode: Mode::Blank,
            rules: BTreeMap::new(),
            sides: BTreeMap::from([(1, Side::default())]),
            edits: BTreeMap::new(),
            base: Values::new(),
            draft: Values::new(),
        }
    }
}

impl Book {
    /// A loaded plan: whole, with no kept edits.
    pub fn on(plan: &Saved) -> Book {
        let values = (1..).zip(plan.values.iter().copied()).collect();
        let rules = (1..).zip(plan.rules.iter().copied()).collect();
        let sides = BTreeMap::from([(1, Side { values, ..Side::default() })]);
        Book { mode: Mode::Whole, rules, sides, ..Book::default() }
    }

    /// Enters an accepted line. `given` are the answer's numbers, at least one.
    pub fn enter(&mut self, call: Call, given: &[i64]) {
        match call {
            Call::Measure { value } => {
                self.side(1).values.insert(given[0], value);
            }
            Call::Rule(rule) => {
                self.rules.insert(given[0], rule);
            }
            Call::Open => self.mode = Mode::Whole,
            Call::Split { side } => {
                let values = self.values(side).clone();
                if self.mode == Mode::Whole {
                    self.edits.clear();
                    self.base = values.clone();
                }
                self.mode = Mode::Split;
                self.sides.insert(given[0], Side { values, ..Side::default() });
            }
            Call::Edit(edit) => {
                make(&mut self.side(edit.side).values, &edit);
                if self.mode != Mode::Whole {
                    self.edits.insert(given[0], Kept { edit, fate: Fate::Unsent, against: None });
                }
            }
            Call::Join => {
                self.mode = Mode::Joining;
                self.draft = self.base.clone();
            }
            Call::Send { side } => {
                self.side(side).sent = true;
                for kept in self.edits.values_mut().filter(|kept| kept.is_unsent_of(side)) {
                    kept.fate = Fate::Waiting;
                }
            }
            Call::Replay { edit } => self.settle(edit, given[0] == 3),
            Call::Stop => self.mode = Mode::Closing,
            Call::Confirm { side } => self.side(side).confirmed = true,
            Call::Install => {
                self.mode = Mode::Whole;
                let values = std::mem::take(&mut self.draft);
                self.sides = BTreeMap::from([(1, Side { values, ..Side::default() })]);
            }
            Call::Show { .. } | Call::Fate { .. } | Call::Left => {}
        }
    }

    fn settle(&mut self, number: i64, accepted: bool) {
        let Some(kept) = self.edits.get(&number) else { return };
        let edit = kept.edit;
        let (fate, against) = if accepted {
            make(&mut self.draft, &edit);
            (Fate::Accepted, None)
        } else {
            (Fate::Revoked, self.against(&edit))
        };
        self.edits.insert(number, Kept { edit, fate, against });
    }

    pub fn is_revoked(&self, number: i64) -> bool {
        self.edits.get(&number).is_some_and(|kept| kept.fate == Fate::Revoked)
    }

    /// What is in the way of an edit on the joined plan as it is now, for one that was revoked. None if nothing is.
    pub fn against(&self, edit: &Edit) -> Option<Against> {
        if self.is_revoked(edit.earlier) {
            return Some(Against::Earlier(edit.earlier));
        }
        let trial = self.tried(&self.draft, edit)?;
        let rules: Vec<i64> = trial.broken.iter().map(|broken| broken.rule).collect();
        match (trial.fits, rules.is_empty()) {
            (false, _) => Some(Against::Range),
            (true, false) => Some(Against::Rules(rules)),
            (true, true) => None,
        }
    }

    /// A side that an accepted line names.
    fn side(&mut self, number: i64) -> &mut Side {
        self.sides.entry(number).or_default()
    }

    pub fn values(&self, side: i64) -> &Values {
        static NONE: Values = Values::new();
        self.sides.get(&side).map_or(&NONE, |side| &side.values)
    }

    /// What the change would lead to. Whether it is made is never decided here; this only finds words for a refusal.
    pub fn tried(&self, values: &Values, edit: &Edit) -> Option<Trial> {
        let before = *values.get(&edit.measure)?;
        let after = edit.change.made_on(before);
        let mut changed = values.clone();
        changed.insert(edit.measure, after);
        Some(Trial { before, after, fits: after.unsigned_abs() <= LIMIT, broken: self.broken(&changed) })
    }

    /// The rules that do not hold of the values.
    pub fn broken(&self, values: &Values) -> Vec<Broken> {
        let compared = |(&rule, terms): (&i64, &Rule)| {
            let low = values.get(&terms.low)?.saturating_add(terms.gap);
            Some(Broken { rule, low, high: *values.get(&terms.high)? })
        };
        self.rules.iter().filter_map(compared).filter(|broken| broken.low >= broken.high).collect()
    }

    fn edits_where(&self, test: impl Fn(&Kept) -> bool) -> Vec<i64> {
        self.edits.iter().filter(|(_, kept)| test(kept)).map(|(&number, _)| number).collect()
    }

    pub fn edits_with(&self, fate: Fate) -> Vec<i64> {
        self.edits_where(|kept| kept.fate == fate)
    }

    pub fn unsent_of(&self, side: i64) -> Vec<i64> {
        self.edits_where(|kept| kept.is_unsent_of(side))
    }

    pub fn to_send(&self) -> Vec<i64> {
        self.sides_where(|number, side| !side.sent || !self.unsent_of(number).is_empty())
    }

    pub fn to_replay(&self) -> Vec<i64> {
        self.edits_where(|kept| matches!(kept.fate, Fate::Unsent | Fate::Waiting))
    }

    pub fn to_confirm(&self) -> Vec<i64> {
        self.sides_where(|_, side| !side.confirmed)
    }

    pub fn sides_where(&self, test: impl Fn(i64, &Side) -> bool) -> Vec<i64> {
        self.sides.iter().filter(|(&number, side)| test(number, side)).map(|(&number, _)| number).collect()
    }
}

fn make(values: &mut Values, edit: &Edit) {
    if let Some(value) = values.get_mut(&edit.measure) {
        *value = edit.change.made_on(*value);
    }
}
