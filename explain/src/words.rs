//! The words for each line, made from its answer and from the book as it was before the line.

use crate::book::{Against, Book, Broken, Fate, Kept, Mode, Trial};
use crate::call::{Answer, Call, Change, Edit, Rule};
use crate::names::Names;
use crate::phrases::{capital, count, mm, numbered};
use crate::saved::Saved;

const JOIN: &str =
    "The join begins, from the plan as it was at the split. Every side sends its edits; then they are tried on the \
                    joined plan, one at a time.";
const STOP: &str = "No more edits are taken. What was not sent has to be sent and tried, and every side confirms.";

/// The next number once every number has been given.
const LAST: i64 = 1_000_000;

pub struct Teller {
    pub(crate) book: Book,
    pub(crate) names: Names,
    refused: usize,
    /// The next edit's number in the file that the sheet is run on, 0 without a file. Earlier edits are not in the file.
    first: i64,
}

impl Teller {
    pub fn new(names: Names) -> Teller {
        Teller { book: Book::default(), names, refused: 0, first: 0 }
    }

    pub fn on(plan: &Saved, names: Names) -> Teller {
        Teller { book: Book::on(plan), names, refused: 0, first: plan.next }
    }

    /// What was loaded.
    pub fn loaded(&self) -> Vec<String> {
        let measures = count(self.book.values(1).len(), "measure");
        let rules = count(self.book.rules.len(), "rule");
        let side = self.names.introduced("side", 1);
        let edits = match self.first {
            ..=1 => "No edit was made on it yet.".to_string(),
            LAST.. => "Edit 999,999 was made on it, and there is none after it.".to_string(),
            next => format!("The next edit is number {next}; no earlier one is kept in the file."),
        };
        let mut words =
            vec![format!("Loaded: a whole plan with {measures} and {rules}. There is one copy of it, {side}. {edits}")];
        words.extend(self.book.values(1).iter().map(|(&number, &value)| format!("- {}", self.measured(number, value))));
        words.extend(self.book.rules.iter().map(|(&number, rule)| format!("- {}", self.ruled(number, rule))));
        words
    }

    pub(crate) fn is_on_a_file(&self) -> bool {
        self.first > 0
    }

    /// Whether the edit was made before the plan was saved.
    pub(crate) fn is_from_before(&self, edit: i64) -> bool {
        0 < edit && edit < self.first
    }

    /// Paragraphs for one line. Items begin with a dash.
    pub fn tell(&mut self, line: &[u8], answer: Option<&[u8]>) -> Vec<String> {
        let Some(answer) = answer else {
            return vec!["The program gave no answer to this line.".to_string()];
        };
        match (Answer::read(answer), Call::read(line)) {
            (Some(Answer::Given(given)), Some(call)) => {
                let words = self.accepted(call, &given);
                self.book.enter(call, &given);
                words
            }
            (Some(Answer::Refused(number)), call) => {
                self.refused += 1;
                vec![self.refusal(number, line, call)]
            }
            _ => vec!["This answer does not belong to this line.".to_string()],
        }
    }

    /// How things stand behind the last line.
    pub fn end(&self) -> Vec<String> {
        let refused = match self.refused {
            0 => "No line was refused.".to_string(),
            1 => "1 line was refused and changed nothing.".to_string(),
            n => format!("{n} lines were refused and changed nothing."),
        };
        let standing = match self.book.mode {
            Mode::Blank => "The plan is still being drawn.",
            Mode::Whole => "The plan is whole.",
            Mode::Split => "The plan is split, and no join has begun.",
            Mode::Joining | Mode::Closing => "The join is not finished. Still to do:",
        };
        let mut words = vec![format!("The sheet ends. {refused} {standing}")];
        words.extend(self.steps());
        words
    }

    fn accepted(&self, call: Call, given: &[i64]) -> Vec<String> {
        let number = given[0];
        vec![match call {
            Call::Measure { value } => self.measured(number, value),
            Call::Rule(rule) => self.ruled(number, &rule),
            Call::Open => self.opened(),
            Call::Split { side } => self.split(side, number),
            Call::Edit(edit) => self.edited(number, &edit),
            Call::Join => JOIN.to_string(),
            Call::Send { side } => self.sent(side, number),
            Call::Replay { edit } => self.replayed(edit, number == 3),
            Call::Stop => STOP.to_string(),
            Call::Confirm { side } => self.confirmed(side),
            Call::Install => return self.installed(),
            Call::Show { side } => self.shown(side, given),
            Call::Fate { edit } => self.fate(edit, number, given.get(1).copied().unwrap_or(0)),
            Call::Left => return self.left(number),
        }]
    }

    fn measured(&self, number: i64, value: i64) -> String {
        format!("{} is {}.", capital(&self.names.introduced("measure", number)), mm(value))
    }

    fn ruled(&self, number: i64, rule: &Rule) -> String {
        let freeze = if rule.firm { " It is firm: while copies are apart, neither measure may be edited." } else { "" };
        format!("Rule {number}: {}.{freeze}", self.rule(rule))
    }

    fn opened(&self) -> String {
        let measures = count(self.book.values(1).len(), "measure");
        let rules = count(self.book.rules.len(), "rule");
        let side = self.names.introduced("side", 1);
        format!("The plan is drawn and whole: {measures}, {rules}. There is one copy of it, {side}.")
    }

    fn split(&self, side: i64, new: i64) -> String {
        let first = match self.book.mode {
            Mode::Whole => " From now on edits are kept, and the join will start from the plan of this moment.",
            _ => "",
        };
        format!("{} begins as a copy of {}.{first}", capital(&self.names.introduced("side", new)), self.names.side(side))
    }

    fn edited(&self, number: i64, edit: &Edit) -> String {
        let by = match self.book.mode {
            Mode::Whole => format!("by {}", self.names.client(edit.client)),
            _ => self.by(edit),
        };
        let effect = match (self.book.values(edit.side).get(&edit.measure), edit.change) {
            (Some(&before), Change::Set(_)) => format!(" (it was {})", mm(before)),
            (Some(&before), change) => format!(", from {} to {}", mm(before), mm(change.made_on(before))),
            (None, _) => String::new(),
        };
        let ground = match edit.earlier {
            0 => String::new(),
            earlier if self.book.mode == Mode::Joining && self.book.is_revoked(earlier) => {
                format!(" It builds on edit {earlier}, which was revoked, so it will be revoked too.")
            }
            earlier => format!(" It builds on edit {earlier}."),
        };
        format!("Edit {number} {by}: {}{effect}.{ground} {}", self.change(edit), self.kept_for(edit.side))
    }

    /// What becomes of an edit on this side.
    fn kept_for(&self, side: i64) -> String {
        let name = self.names.side(side);
        match self.book.mode {
            Mode::Joining if self.book.sides.get(&side).is_some_and(|side| side.sent) => {
                format!("It comes while the join runs, after {name} has sent, so {name} has to send again.")
            }
            Mode::Joining => format!("It comes while the join runs and goes with what {name} sends."),
            Mode::Whole => "The plan is whole, so that is all.".to_string(),
            _ => "It is kept for the join.".to_string(),
        }
    }

    fn sent(&self, side: i64, given: i64) -> String {
        let name = capital(&self.names.side(side));
        let edits = self.book.unsent_of(side);
        match given {
            0 => format!("{name} has no edits to send, and says so."),
            1 if edits.len() == 1 => format!("{name} sends {}. It waits to be tried.", numbered("edit", &edits)),
            n if edits.len() as i64 == n => format!("{name} sends {}. They wait to be tried.", numbered("edit", &edits)),
            n => format!("{name} sends {n} edits, to be tried."),
        }
    }

    fn replayed(&self, number: i64, accepted: bool) -> String {
        let verdict = if accepted { "Accepted" } else { "Revoked" };
        let Some(Kept { edit, .. }) = self.book.edits.get(&number) else {
            return format!("{verdict}: edit {number}.");
        };
        let measure = self.names.measure(edit.measure);
        let trial = self.book.tried(&self.book.draft, edit);
        let effect = match (trial, self.book.against(edit)) {
            (Some(trial), _) if accepted => {
                format!(" In the joined plan {measure} goes from {} to {}.", mm(trial.before), mm(trial.after))
            }
            (_, Some(Against::Earlier(earlier))) if !accepted => {
                format!(" It builds on edit {earlier}, which was revoked, so it is revoked untried. The joined plan stays as it was.")
            }
            (Some(trial), _) => format!(" In the joined plan {measure} {}. So the joined plan stays as it was.", self.outcome(&trial)),
            (None, _) => String::new(),
        };
        format!("{verdict}: {}.{effect}", self.edit(number, edit))
    }

    fn confirmed(&self, side: i64) -> String {
        let others = self.book.sides_where(|other, state| other != side && !state.confirmed);
        let rest = match others.as_slice() {
            [] => "All sides have confirmed.".to_string(),
            _ => format!("Still to confirm: {}.", self.sides(&others)),
        };
        format!("{} confirms. {rest}", capital(&self.names.side(side)))
    }

    fn installed(&self) -> Vec<String> {
        let mut words = vec!["The joined plan is now the plan: one copy, whole again.".to_string()];
        let accepted = count(self.book.edits_with(Fate::Accepted).len(), "edit");
        let revoked = self.book.edits.iter().filter(|(_, kept)| kept.fate == Fate::Revoked);
        let revoked: Vec<String> =
            revoked.map(|(&number, kept)| format!("- {}{}", self.edit(number, &kept.edit), against(kept.against.as_ref()))).collect();
        words.push(match (self.book.edits.len(), revoked.len()) {
            (0, _) => "No edits had been kept.".to_string(),
            (_, 0) => format!("{accepted} accepted, none revoked."),
            _ => format!("{accepted} accepted. Revoked, so not in the plan; whoever entered them should know:"),
        });
        words.extend(revoked);
        let changed: Vec<String> = self.book.draft.iter().filter_map(|(&measure, &now)| self.moved(measure, now)).collect();
        words.push(match changed.len() {
            0 => "No measure differs from before the split.".to_string(),
            _ => "Changed since the split:".to_string(),
        });
        words.extend(changed);
        words
    }

    fn moved(&self, measure: i64, now: i64) -> Option<String> {
        let before = *self.book.base.get(&measure)?;
        (before != now).then(|| format!("- {} from {} to {}", self.names.measure(measure), mm(before), mm(now)))
    }

    fn shown(&self, side: i64, values: &[i64]) -> String {
        let owner = match self.book.mode {
            Mode::Whole => "The plan".to_string(),
            _ => format!("The copy of {}", self.names.side(side)),
        };
        let values = values.iter().zip(1..).map(|(&value, measure)| format!("{} at {}", self.names.measure(measure), mm(value)));
        format!("{owner}: {}.", values.collect::<Vec<_>>().join(", "))
    }

    fn fate(&self, number: i64, fate: i64, place: i64) -> String {
        let what = match self.book.edits.get(&number) {
            Some(kept) => capital(&self.edit(number, &kept.edit)),
            None => format!("Edit {number}"),
        };
        match fate {
            1 => format!("{what}: kept, not yet sent."),
            2 => format!("{what}: sent, waits to be tried."),
            3 => format!("{what}: accepted, number {place} of those settled."),
            4 => format!("{what}: revoked, number {place} of those settled."),
            _ if self.is_from_before(number) => format!("No edit {number} is kept: it was made before the plan was saved."),
            _ => format!("No edit {number} is kept: it was never made, or before the last split, or on the whole plan."),
        }
    }

    fn left(&self, number: i64) -> Vec<String> {
        let mut words = vec![match number {
            0 => "No join is running, so nothing is left to do.".to_string(),
            1 => "1 step is left until the plan is whole:".to_string(),
            n => format!("{n} steps are left until the plan is whole:"),
        }];
        words.extend(self.steps());
        words
    }

    /// What a join that is under way still needs, one item for each sort of step.
    fn steps(&self) -> Vec<String> {
        let book = &self.book;
        if !matches!(book.mode, Mode::Joining | Mode::Closing) {
            return Vec::new();
        }
        let mut steps = Vec::new();
        if let to_send @ [_, ..] = book.to_send().as_slice() {
            steps.push(format!("- send: {}", self.sides(to_send)));
        }
        if let to_replay @ [_, ..] = book.to_replay().as_slice() {
            steps.push(format!("- replay: {}", numbered("edit", to_replay)));
        }
        if book.mode == Mode::Joining {
            steps.push("- stop".to_string());
        }
        if let to_confirm @ [_, ..] = book.to_confirm().as_slice() {
            steps.push(format!("- confirm: {}", self.sides(to_confirm)));
        }
        steps.push("- install".to_string());
        steps
    }

    pub(crate) fn rule(&self, rule: &Rule) -> String {
        let gap = match rule.gap {
            0 => String::new(),
            gap if gap < 0 => format!(" minus {}", mm(-gap)),
            gap => format!(" plus {}", mm(gap)),
        };
        format!("{}{gap} must be less than {}", self.names.measure(rule.low), self.names.measure(rule.high))
    }

    /// What a change would do, as the end of a sentence about the measure.
    pub(crate) fn outcome(&self, trial: &Trial) -> String {
        let step = format!("would go from {} to {}", mm(trial.before), mm(trial.after));
        match self.broken_rules(&trial.broken) {
            _ if !trial.fits => format!("{step}, out of range"),
            Some(rules) => format!("{step}, and then {rules}"),
            None => step,
        }
    }

    /// The first of the rules that fail, and how many more there are.
    pub(crate) fn broken_rules(&self, broken: &[Broken]) -> Option<String> {
        let first = broken.first()?;
        let rule = self.rule(self.book.rules.get(&first.rule)?);
        let more = match broken.len() - 1 {
            0 => String::new(),
            n => format!("; {} too", count(n, "more rule")),
        };
        Some(format!("rule {} fails: {rule} ({} is not less than {}){more}", first.rule, mm(first.low), mm(first.high)))
    }

    fn edit(&self, number: i64, edit: &Edit) -> String {
        format!("edit {number} {}, {}", self.by(edit), self.change(edit))
    }

    pub(crate) fn by(&self, edit: &Edit) -> String {
        format!("by {} ({})", self.names.client(edit.client), self.names.side(edit.side))
    }

    fn change(&self, edit: &Edit) -> String {
        let measure = self.names.measure(edit.measure);
        match edit.change {
            Change::Set(constant) => format!("set {measure} to {}", mm(constant)),
            Change::Add(constant) if constant < 0 => format!("take {} off {measure}", mm(-constant)),
            Change::Add(constant) => format!("add {} to {measure}", mm(constant)),
            Change::Multiply(constant) => format!("multiply {measure} by {constant}"),
            Change::Divide(constant) => format!("divide {measure} by {constant}"),
            Change::Unknown => format!("change {measure}"),
        }
    }

    pub(crate) fn sides(&self, sides: &[i64]) -> String {
        sides.iter().map(|&side| self.names.side(side)).collect::<Vec<_>>().join(", ")
    }
}

/// Why an edit was revoked, for the list at the install.
fn against(what: Option<&Against>) -> String {
    match what {
        Some(Against::Earlier(earlier)) => format!("; it builds on edit {earlier}, which was revoked"),
        Some(Against::Range) => "; its result would be out of range".to_string(),
        Some(Against::Rules(rules)) => format!("; it would break {}", numbered("rule", rules)),
        None => String::new(),
    }
}
