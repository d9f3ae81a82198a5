//! Keeps the specification's book beside a list of calls, from the calls and the library's answers alone, and holds the
//! claim about whole lists against those answers. A list begins on a blank plan or on a loaded one (02, S-1: "Demand 3 covers
//! loaded plans too").

use crate::call::{Call, Name};
use crate::compare::{answers_of_library, answers_of_separate};
use crate::files::{self, Drawing};
use crate::generate::{Generator, Style};
use crate::random::Random;
use separate::{Mode, Plan, SHEET_LIMIT};

/// The last number of an edit (01, refusal 30).
const LAST_NUMBER: i32 = 999_999;

/// Most bytes of a call's line with `left` and `show 1` behind it, and of a line that asks for a fate.
const LONGEST_CALL: usize = 100;
const LONGEST_FATE: usize = 12;

struct Edit {
    number: i32,
    side: i32,
    after: i32,
    measure: usize,
    kind: i32,
    constant: i32,
    settlings: u32,
    accepted: bool,
    /// How many edits before it along its chain were revoked, where the one that it names was; 0 if not.
    built: u32,
}

/// The last send or edit of a side since the join.
#[derive(Clone, Copy, PartialEq)]
enum Last {
    None,
    Send,
    Edit,
}

struct Book {
    mode: Mode,
    values: Vec<i32>,
    rules: Vec<[i32; 4]>,
    sides: usize,
    /// The next edit's number: 1 after open, the file's after a load.
    next: i32,
    edits: Vec<Edit>,
    /// Indices of edits in the order of settling.
    settlings: Vec<usize>,
    last: [Last; 9],
    confirmed: [bool; 9],
}

impl Book {
    fn new() -> Book {
        Book {
            mode: Mode::Blank,
            values: Vec::new(),
            rules: Vec::new(),
            sides: 0,
            next: 1,
            edits: Vec::new(),
            settlings: Vec::new(),
            last: [Last::None; 9],
            confirmed: [false; 9],
        }
    }

    /// The book just after a load, which is entered as the calls that draw the file (01, "A call that does the work of several"). The
    /// next number is the file's (02, S-1).
    fn loaded(drawing: &Drawing) -> Result<Book, String> {
        let mut book = Book::new();
        for (number, &value) in (1..).zip(&drawing.values) {
            book.enter(&Call::new(Name::Measure, &[value]), number)?;
        }
        for (number, rule) in (1..).zip(&drawing.rules) {
            book.enter(&Call::new(Name::Rule, &[rule.a.into(), rule.c, rule.b.into(), rule.firm.into()]), number)?;
        }
        book.enter(&Call::new(Name::Open, &[]), 0)?;
        book.next = drawing.next_number as i32;
        Ok(book)
    }

    fn settling(&self) -> bool {
        matches!(self.mode, Mode::Joining | Mode::Closing)
    }

    /// The number left, from the book.
    fn left(&self) -> i32 {
        if !self.settling() {
            return 0;
        }
        let to_send = (1..=self.sides).filter(|&s| self.last[s] != Last::Send).count();
        let open = self.edits.iter().filter(|edit| edit.settlings == 0).count();
        let to_confirm = (1..=self.sides).filter(|&s| !self.confirmed[s]).count();
        (to_send + open + to_confirm + (self.mode == Mode::Joining) as usize + 1) as i32
    }

    fn change(&mut self, measure: usize, kind: i32, constant: i32) {
        let value = &mut self.values[measure];
        match kind {
            1 => *value = constant,
            2 => *value += constant,
            3 => *value *= constant,
            _ => *value /= constant,
        }
    }

    /// Enters an accepted call. Gives by how much the number left has to move where the claim says so.
    fn enter(&mut self, call: &Call, given: i32) -> Result<i32, String> {
        let [a, b, c, d, e, f] = call.numbers;
        let side = a as usize;
        let mut moved = 0;
        match call.name {
            Name::Measure => self.values.push(a),
            Name::Rule => self.rules.push([a, b, c, d]),
            Name::Open => {
                self.mode = Mode::Whole;
                self.sides = 1;
            }
            Name::Split => {
                if self.mode == Mode::Whole {
                    self.edits.clear();
                    self.settlings.clear();
                    self.sides = 1;
                }
                self.mode = Mode::Split;
                self.sides += 1;
                if given != self.sides as i32 {
                    return Err(format!("split gives {given}, the book has {} sides", self.sides));
                }
            }
            Name::Edit => {
                // 01, "edit": it gives the next number, and numbers rise by one with each.
                if given != self.next || given > LAST_NUMBER {
                    return Err(format!("the edit gets number {given}, the book's next is {}", self.next));
                }
                self.next += 1;
                let measure = d as usize - 1;
                if self.mode == Mode::Whole {
                    self.change(measure, e, f);
                } else {
                    let late = self.mode == Mode::Joining && self.last[side] == Last::Send;
                    if self.mode == Mode::Joining {
                        moved = 1 + late as i32;
                        self.last[side] = Last::Edit;
                    }
                    self.edits.push(Edit {
                        number: given,
                        side: a,
                        after: c,
                        measure,
                        kind: e,
                        constant: f,
                        settlings: 0,
                        accepted: false,
                        built: 0,
                    });
                }
            }
            Name::Join => {
                self.mode = Mode::Joining;
                self.last = [Last::None; 9];
                self.confirmed = [false; 9];
                moved = self.left();
            }
            Name::Send => {
                self.last[side] = Last::Send;
                moved = -1;
            }
            Name::Replay => {
                let Some(at) = self.edits.iter().position(|edit| edit.number == a) else {
                    return Err(format!("replay of {a}, which is not in the book"));
                };
                if self.edits[at].settlings > 0 {
                    return Err(format!("edit {a} is settled twice"));
                }
                let after = self.edits[at].after;
                let earlier = self.edits.iter().find(|edit| edit.number == after);
                if earlier.is_some_and(|edit| edit.settlings == 0) {
                    return Err(format!("edit {a} is settled before edit {after}, which it names"));
                }
                // 02, S-2.
                let built = earlier.filter(|edit| !edit.accepted).map_or(0, |edit| edit.built + 1);
                if built > 0 && given != 4 {
                    return Err(format!("replay gives {given}, and edit {after}, which edit {a} names, was revoked"));
                }
                self.edits[at].built = built;
                self.edits[at].settlings = 1;
                self.edits[at].accepted = match given {
                    3 => true,
                    4 => false,
                    _ => return Err(format!("replay gives {given}")),
                };
                self.settlings.push(at);
                moved = -1;
            }
            Name::Stop => {
                self.mode = Mode::Closing;
                moved = -1;
            }
            Name::Confirm => {
                self.confirmed[side] = true;
                moved = -1;
            }
            Name::Install => {
                if self.edits.iter().any(|edit| edit.settlings != 1) {
                    return Err("install with an edit that is not settled".into());
                }
                for i in 0..self.settlings.len() {
                    let Edit { measure, kind, constant, accepted, .. } = self.edits[self.settlings[i]];
                    if accepted {
                        self.change(measure, kind, constant);
                    }
                }
                self.mode = Mode::Whole;
                self.sides = 1;
                moved = -1;
            }
            Name::Show | Name::Fate | Name::Left => {}
        }
        if self.mode == Mode::Whole {
            let broken = self.rules.iter().any(|&[a, c, b, _]| self.values[a as usize - 1] + c >= self.values[b as usize - 1]);
            if broken || self.values.iter().any(|v| v.abs() > 1_000_000) {
                return Err("the whole plan breaks a rule or a range".into());
            }
        }
        Ok(moved)
    }
}

/// What a line of the sheet is for.
enum Line {
    /// A call, and how many rules its change would break.
    Move(Call, usize),
    Left,
    Whole,
    /// Fate of the edit of this index in the book.
    Fate(usize),
}

/// Of the lists that begin on a blank plan, or of those on a loaded one.
#[derive(Default)]
pub struct Tally {
    pub lists: u64,
    pub moves: u64,
    pub installs: u64,
    pub late: u64,
    pub revoked: u64,
    /// Edits built on a revoked one, and those among them at least third in a chain of revoked ones.
    pub built: u64,
    pub deep: u64,
    /// Edits refused as 29 for two rules or more, and edits revoked for as many.
    pub refused_by_several: u64,
    pub revoked_by_several: u64,
    pub prefixes: u64,
    /// Edits refused as 30.
    pub used_up: u64,
}

/// A list of calls, each with what is asked behind it.
pub struct List {
    /// The file of the plan that it begins on. None for a blank plan.
    pub file: Option<Box<[u8]>>,
    pub sheet: Vec<u8>,
    lines: Vec<Line>,
}

/// One random list of calls, probed after every line. On a failure gives the list too.
pub fn check(random: &mut Random, loaded: bool, tally: &mut Tally) -> Result<(), (List, String)> {
    let mut plan = Plan::new();
    let (file, book) = if loaded {
        let (file, drawing) = stored(random);
        let book = match plan.load(&file) {
            Ok(()) => Book::loaded(&drawing),
            Err(refusal) => Err(format!("the separate program refuses the file as {}", refusal as u64)),
        };
        (Some(file), book)
    } else {
        (None, Ok(Book::new()))
    };
    let list = list(random, file, plan);
    match book.and_then(|book| walk(&list, book, random, tally)) {
        Ok(()) => Ok(()),
        Err(what) => Err((list, what)),
    }
}

/// A file that loads, and what it says. In half of them the numbers are nearly used up, so that 30 is met.
fn stored(random: &mut Random) -> (Box<[u8]>, Drawing) {
    loop {
        let mut drawing = files::drawing(random);
        if random.chance(500) {
            let most = random.pick(&[10, 100, 300]);
            drawing.next_number = LAST_NUMBER as u32 + 1 - random.below(most) as u32;
        }
        if drawing.loads() {
            let file = drawing.file();
            let file = if random.chance(500) { file.shuffled(random) } else { file };
            return (file.bytes(), drawing);
        }
    }
}

/// A random list on the plan, which is the file's or blank.
fn list(random: &mut Random, file: Option<Box<[u8]>>, plan: Plan) -> List {
    let mut style = Style::random(random);
    style.kept = style.kept.min(100);
    let length = random.pick(&[50, 200, 800]);
    let mut sheet = Vec::new();
    let mut lines = Vec::new();
    let mut generator = Generator::on(plan, random, style);
    ask(&generator.plan, &mut sheet, &mut lines);
    for _ in 0..length {
        let Some(call) = generator.next() else { break };
        let (first, kept) = generator.plan.kept();
        if sheet.len() + LONGEST_CALL + LONGEST_FATE * kept as usize > SHEET_LIMIT {
            break;
        }
        call.write(&mut sheet);
        lines.push(Line::Move(call, generator.broken));
        ask(&generator.plan, &mut sheet, &mut lines);
        if generator.plan.mode() == Mode::Whole && call.name == Name::Install {
            for i in 0..kept {
                Call::new(Name::Fate, &[first + i]).write(&mut sheet);
                lines.push(Line::Fate(i as usize));
            }
        }
    }
    List { file, sheet, lines }
}

fn ask(plan: &Plan, sheet: &mut Vec<u8>, lines: &mut Vec<Line>) {
    sheet.extend_from_slice(b"left\n");
    lines.push(Line::Left);
    if plan.mode() == Mode::Whole {
        sheet.extend_from_slice(b"show 1\n");
        lines.push(Line::Whole);
    }
}

/// The library's whole output for a sheet, on the plan that the list begins on.
fn library_answers(list: &List, sheet: &[u8]) -> Result<String, String> {
    match answers_of_library(list.file.as_deref(), sheet) {
        Ok(answers) => Ok(String::from_utf8_lossy(&answers).into_owned()),
        Err(refusal) => Err(format!("the library refuses the file as {refusal}")),
    }
}

/// Holds the claim against the answers. The book is the one at the list's beginning.
fn walk(list: &List, mut book: Book, random: &mut Random, tally: &mut Tally) -> Result<(), String> {
    let all = library_answers(list, &list.sheet)?;
    let answers: Vec<&str> = all.lines().collect();
    if answers.len() != list.lines.len() {
        return Err(format!("{} answers to {} lines", answers.len(), list.lines.len()));
    }
    let texts: Vec<&[u8]> = list.sheet.split_inclusive(|&b| b == b'\n').collect();
    let mut left = 0;
    let mut moved = 0;
    let mut fates_due = 0;
    tally.lists += 1;
    for (at, (line, answer)) in list.lines.iter().zip(&answers).enumerate() {
        let mut words = answer.split(' ');
        let accepted = words.next() == Some("ok");
        let numbers: Vec<i32> = words.filter_map(|word| word.parse().ok()).collect();
        let fail = |what: String| Err(format!("line {}: {}: {what}", at + 1, String::from_utf8_lossy(texts[at]).trim_end()));
        match line {
            Line::Move(call, broken) => {
                let several = *broken > 1;
                if fates_due > 0 {
                    return fail("the fates after the install were not all asked for".into());
                }
                moved = 0;
                if accepted {
                    tally.moves += 1;
                    moved = match book.enter(call, numbers.first().copied().unwrap_or(0)) {
                        Ok(moved) => moved,
                        Err(what) => return fail(what),
                    };
                    tally.late += (moved == 2 && call.name == Name::Edit) as u64;
                    if let (Name::Replay, Some(&at)) = (call.name, book.settlings.last()) {
                        let Edit { accepted, built, .. } = book.edits[at];
                        tally.revoked += !accepted as u64;
                        tally.built += (built > 0) as u64;
                        tally.deep += (built > 1) as u64;
                        // One built on a revoked edit is not tested (02, S-2).
                        tally.revoked_by_several += (several && !accepted && built == 0) as u64;
                    }
                    if call.name == Name::Install {
                        tally.installs += 1;
                        fates_due = book.edits.len();
                    }
                } else if numbers == [29] {
                    tally.refused_by_several += several as u64;
                } else if numbers == [30] {
                    tally.used_up += 1;
                    if book.next <= LAST_NUMBER {
                        return fail(format!("refused as 30, the book's next number is {}", book.next));
                    }
                }
            }
            Line::Left => {
                let Some(&now) = numbers.first() else {
                    return fail(format!("left gives {answer}"));
                };
                if now != book.left() {
                    return fail(format!("{now} left, the book has {}", book.left()));
                }
                if now != left + moved {
                    return fail(format!("left moved from {left} to {now}, by the claim it moves by {moved}"));
                }
                left = now;
                if book.settling() && random.chance(15) {
                    tally.prefixes += 1;
                    if !closing_move(list, &texts[..=at], &book)? {
                        return fail("no closing move is accepted here".into());
                    }
                }
            }
            Line::Whole => {
                if book.mode == Mode::Whole && (!accepted || numbers != book.values) {
                    return fail(format!("show 1 gives {answer}, the book has {:?}", book.values));
                }
            }
            Line::Fate(index) => {
                let Some(edit) = book.edits.get(*index) else {
                    return fail("an edit that is not in the book".into());
                };
                let place = book.settlings.iter().position(|i| i == index).map_or(0, |i| i as i32 + 1);
                if numbers != [if edit.accepted { 3 } else { 4 }, place] {
                    return fail(format!("{answer} for edit {} of side {}, place {place} in the book", edit.number, edit.side));
                }
                fates_due = fates_due.saturating_sub(1);
            }
        }
    }
    if fates_due > 0 {
        return Err("the fates after the install were not all asked for".into());
    }
    match answers_of_separate(list.file.as_deref(), &list.sheet) {
        Ok(others) if others == all.as_bytes() => Ok(()),
        _ => Err("the separate program answers otherwise".into()),
    }
}

/// Whether some send, replay, stop, confirm or install is accepted after the lines. Refused ones change nothing, so all are
/// tried in one sheet.
fn closing_move(list: &List, lines: &[&[u8]], book: &Book) -> Result<bool, String> {
    let mut sheet = lines.concat();
    let mut tries = 2;
    for s in 1..=book.sides as i32 {
        Call::new(Name::Confirm, &[s]).write(&mut sheet);
        Call::new(Name::Send, &[s]).write(&mut sheet);
        tries += 2;
    }
    for edit in &book.edits {
        Call::new(Name::Replay, &[edit.number]).write(&mut sheet);
        tries += 1;
    }
    Call::new(Name::Stop, &[]).write(&mut sheet);
    Call::new(Name::Install, &[]).write(&mut sheet);
    if sheet.len() > SHEET_LIMIT {
        return Ok(true);
    }
    let answers = library_answers(list, &sheet)?;
    let answers: Vec<&str> = answers.lines().collect();
    Ok(answers.len() == lines.len() + tries && answers[lines.len()..].iter().any(|answer| answer.starts_with("ok")))
}
