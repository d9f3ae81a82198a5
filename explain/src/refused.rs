//! The words for a refusal: what it means, what the book knows about the case, and what helps.

use crate::book::{Fate, Mode};
use crate::call::{fault, Call};
use crate::phrases::{capital, numbered};
use crate::refusals::refusal;
use crate::words::Teller;

impl Teller {
    pub fn too_long(&self) -> Vec<String> {
        vec![format!("The answer to the whole sheet is no 52. {}", self.refusal(52, b"", None))]
    }

    pub(crate) fn refusal(&self, number: i64, line: &[u8], call: Option<Call>) -> String {
        let Some(known) = refusal(number) else {
            return format!("Refused with {number}, a number that has no meaning here.");
        };
        let detail = match number {
            51 => Some(fault(line)),
            _ => call.and_then(|call| self.detail(number, call)),
        };
        let detail = detail.map_or(String::new(), |detail| format!(" {detail}"));
        // Only a run without a file begins with a blank plan.
        let advice = match number {
            52 if self.is_on_a_file() => "cut the sheet in two; save what the first leaves whole, and run the second on it.",
            _ => known.advice,
        };
        format!("Refused. {}{detail} To {}: {advice}", known.meaning, known.to)
    }

    /// What the book knows about the case, where that helps.
    fn detail(&self, number: i64, call: Call) -> Option<String> {
        let book = &self.book;
        match (number, call) {
            (14 | 23, _) => Some(format!("The plan has {}.", up_to(book.values(1).len(), "measure"))),
            (17, _) => self.broken_rules(&book.broken(book.values(1))).map(|rules| format!("{}.", capital(&rules))),
            (21, _) => Some(format!("The plan has {}.", up_to(book.sides.len(), "side"))),
            (25, Call::Edit(edit)) => Some(match book.edits.get(&edit.earlier) {
                None if self.is_from_before(edit.earlier) => {
                    format!("Edit {} was made before the plan was saved, and is not kept.", edit.earlier)
                }
                None => format!("No edit {} is kept.", edit.earlier),
                Some(kept) if kept.edit.client != edit.client => format!("Edit {} is {}.", edit.earlier, self.by(&kept.edit)),
                Some(_) => format!("Edit {} is not sent yet.", edit.earlier),
            }),
            (26, Call::Edit(edit)) => {
                let (number, rule) = book.rules.iter().find(|(_, rule)| rule.firm && rule.names(edit.measure))?;
                Some(format!("Rule {number} is firm: {}.", self.rule(rule)))
            }
            (28 | 29, Call::Edit(edit)) => {
                let trial = book.tried(book.values(edit.side), &edit)?;
                Some(format!("{} {}.", capital(&self.names.measure(edit.measure)), self.outcome(&trial)))
            }
            (31, _) => Some(stage(book.mode).to_string()),
            (34, _) => self.waited_for(&book.sides_where(|_, side| !side.sent)),
            (35, Call::Replay { edit }) => Some(match book.edits.get(&edit).map(|kept| kept.fate) {
                None => format!("No edit {edit} is kept."),
                Some(Fate::Unsent) => format!("Edit {edit} has not been sent."),
                Some(_) => format!("Edit {edit} has been tried already."),
            }),
            (36, Call::Replay { edit }) => book.edits.get(&edit).map(|kept| format!("That is edit {}.", kept.edit.earlier)),
            (37, _) => listed("Waiting", &book.edits_with(Fate::Waiting)),
            (38, Call::Confirm { side }) => listed("Unsent", &book.unsent_of(side)),
            (40, _) => self.waited_for(&book.to_confirm()),
            _ => None,
        }
    }

    fn waited_for(&self, sides: &[i64]) -> Option<String> {
        (!sides.is_empty()).then(|| format!("Waited for: {}.", self.sides(sides)))
    }
}

/// The mode in words, and the calls that it takes (01, "The calls").
fn stage(mode: Mode) -> &'static str {
    match mode {
        Mode::Blank => "The plan is still being drawn. Lines for now: measure, rule, open, fate, left.",
        Mode::Whole => "The plan is whole. Lines for now: split, edit, show, fate, left.",
        Mode::Split => "The plan is split. Lines for now: split, edit, join, show, fate, left.",
        Mode::Joining => "The join is running. Lines for now: edit, send, replay, stop, show, fate, left.",
        Mode::Closing => "The join is closing. Lines for now: send, replay, confirm, install, show, fate, left.",
    }
}

fn up_to(n: usize, what: &str) -> String {
    match n {
        0 => format!("no {what}"),
        1 => format!("{what} 1 only"),
        2 => format!("{what}s 1 and 2"),
        _ => format!("{what}s 1 to {n}"),
    }
}

fn listed(what: &str, edits: &[i64]) -> Option<String> {
    (!edits.is_empty()).then(|| format!("{what}: {}.", numbered("edit", edits)))
}
