//! Random lists of calls. A model of the plan guides the choice, so that most calls mean something in the state they meet.

use crate::call::{Call, Name, NAMES};
use crate::random::Random;
use separate::{Fate, Mode, Plan};

/// Numbers at the edges of every range, and beyond.
const EDGES: [i32; 46] = [
    0, 1, 2, 3, 4, 5, 7, 8, 9, 10, 11, 31, 32, 33, 63, 64, 65, 255, 256, 257, 998, 999, 1000, 9_999, 10_000, 99_999, 100_000, 999_998, 999_999,
    1_000_000, 1_000_001, 1_999_999, 2_000_000, 2_000_001, 999_999_999, -1, -2, -10, -11, -999_999, -1_000_000, -1_000_001, -2_000_000,
    -2_000_001, -999_999_999, 6,
];

/// What a sheet is like. Chances are in thousandths.
pub struct Style {
    pub measures: usize,
    pub rules: usize,
    /// Chance that a rule is firm.
    pub firm: usize,
    /// Values drawn lie between minus and plus this.
    pub spread: i32,
    /// Most room that a rule leaves when it is drawn.
    pub slack: i32,
    /// Chance that a rule names the measures of the one before, so that a change breaks several at once.
    pub crowded: usize,
    /// Chance that one rule of the drawing does not hold.
    pub failing: bool,
    /// Chance of a call that only reads.
    pub probe: usize,
    /// Chance of a call with any numbers.
    pub wild: usize,
    /// Chance of a call of this mode at a wrong moment.
    pub early: usize,
    /// Most edits of a whole plan before the next split.
    pub whole: usize,
    /// Most edits tried in a split, and in a join.
    pub kept: usize,
    pub late: usize,
    pub sides: usize,
    pub clients: i32,
    /// Chance that an edit names an earlier one.
    pub chained: usize,
    /// Chance that an edit's constant is an edge.
    pub harsh: usize,
    /// Chance that an edit of a copy takes all the room that a rule leaves there, so that another copy's edit is in its way.
    pub greedy: usize,
}

impl Style {
    pub fn random(random: &mut Random) -> Style {
        let few = random.chance(500);
        Style {
            measures: if few { 1 + random.below(4) } else { random.pick(&[1, 2, 5, 8, 16, 31, 32, 32, 33, 35]) },
            rules: if random.chance(600) { random.below(7) } else { random.pick(&[0, 10, 20, 40, 63, 64, 64, 65, 67]) },
            firm: random.pick(&[0, 0, 100, 300, 1000]),
            spread: random.pick(&[0, 5, 20, 1000, 50_000, 1_000_000]),
            slack: random.pick(&[0, 2, 10, 40, 1000, 100_000]),
            crowded: random.pick(&[0, 0, 300, 900]),
            failing: random.chance(20),
            probe: random.pick(&[0, 50, 150, 400]),
            wild: random.pick(&[0, 10, 50, 200]),
            early: random.pick(&[0, 20, 100, 250]),
            whole: random.pick(&[0, 1, 5, 40]),
            kept: random.pick(&[0, 3, 10, 30, 100, 300]),
            late: random.pick(&[0, 2, 8, 40, 150]),
            sides: random.pick(&[2, 2, 3, 4, 5, 8, 8, 9]),
            clients: random.pick(&[1, 2, 5, 999]),
            chained: random.pick(&[0, 200, 500, 900]),
            harsh: random.pick(&[0, 20, 150]),
            greedy: random.pick(&[0, 0, 100, 400]),
        }
    }
}

pub struct Generator<'a> {
    random: &'a mut Random,
    style: Style,
    pub plan: Plan,
    /// How many rules the last call's change would break as it came, whatever it was answered.
    pub broken: usize,
    /// Values drawn, which the blank plan does not show.
    drawn: Vec<i32>,
    /// Moves still to try before the next phase.
    measures_due: usize,
    rules_due: usize,
    whole_due: usize,
    kept_due: usize,
    late_due: usize,
    splits_due: usize,
    opened: usize,
}

impl<'a> Generator<'a> {
    pub fn new(random: &'a mut Random, style: Style) -> Generator<'a> {
        Generator::on(Plan::new(), random, style)
    }

    /// Goes on from a plan that is blank with nothing drawn, or was loaded.
    pub fn on(plan: Plan, random: &'a mut Random, style: Style) -> Generator<'a> {
        let mut generator = Generator {
            measures_due: style.measures,
            rules_due: style.rules,
            whole_due: 0,
            kept_due: 0,
            late_due: 0,
            splits_due: 0,
            opened: 0,
            plan,
            broken: 0,
            drawn: Vec::new(),
            random,
            style,
        };
        generator.new_round();
        generator
    }

    /// Chooses how long the next round from a whole plan to the next will be.
    fn new_round(&mut self) {
        self.whole_due = self.random.below(self.style.whole + 1);
        self.kept_due = if self.random.chance(250) { self.style.kept } else { self.random.below(self.style.kept + 1) };
        self.late_due = self.random.below(self.style.late + 1);
        self.splits_due = 1 + self.random.below(self.style.sides - 1);
    }

    /// The next call, made on the model too. None where the plan can never open.
    pub fn next(&mut self) -> Option<Call> {
        let roll = self.random.below(1000);
        let probe = self.style.probe;
        let wild = probe + self.style.wild;
        let early = wild + self.style.early;
        let call = if roll < probe {
            self.probe()
        } else if roll < wild {
            self.wild()
        } else if roll < early {
            self.early()
        } else {
            self.useful()?
        };
        let before = self.plan.mode();
        self.broken = call.breaks(&self.plan);
        let accepted = call.make(&mut self.plan);
        if accepted && before == Mode::Blank {
            match call.name {
                Name::Measure => self.drawn.push(call.numbers[0]),
                Name::Open => self.new_round(),
                _ => {}
            }
        }
        if accepted && call.name == Name::Install {
            self.new_round();
        }
        Some(call)
    }

    fn edge(&mut self) -> i32 {
        self.random.pick(&EDGES)
    }

    fn side(&mut self) -> i32 {
        if self.random.chance(20) {
            return self.edge();
        }
        1 + self.random.below(self.plan.sides().max(1) as usize) as i32
    }

    fn some_measure(&mut self) -> i32 {
        1 + self.random.below(self.plan.measures().max(1) as usize) as i32
    }

    fn kept_number(&mut self) -> i32 {
        let (first, count) = self.plan.kept();
        if count == 0 || self.random.chance(30) {
            return match self.random.below(4) {
                0 => first - 1,
                1 => first + count,
                2 => self.plan.next_number(),
                _ => self.edge(),
            };
        }
        first + self.random.below(count as usize) as i32
    }

    /// A kept edit of the fate, looked for from a random place on.
    fn kept_with(&mut self, fate: Fate) -> Option<i32> {
        let (first, count) = self.plan.kept();
        let from = self.random.below(count.max(1) as usize) as i32;
        (0..count).map(|i| first + (from + i) % count).find(|&n| self.plan.fate(n).0 == fate)
    }

    fn probe(&mut self) -> Call {
        match self.random.below(4) {
            0 => Call::new(Name::Show, &[self.side()]),
            1 | 2 => Call::new(Name::Fate, &[self.kept_number()]),
            _ => Call::new(Name::Left, &[]),
        }
    }

    /// Any call; its numbers fit the plan or lie at an edge.
    fn wild(&mut self) -> Call {
        let (name, _, count) = self.random.pick(&NAMES);
        let mut call = match name {
            Name::Edit => self.edit(),
            Name::Rule => self.rule(),
            Name::Replay | Name::Fate => Call::new(name, &[self.kept_number()]),
            Name::Measure => Call::new(name, &[self.edge()]),
            _ if count == 1 => Call::new(name, &[self.side()]),
            _ => Call::new(name, &[]),
        };
        if count > 0 && self.random.chance(600) {
            call.numbers[self.random.below(count)] = self.edge();
        }
        call
    }

    /// A call of the mode, whether or not its moment has come.
    fn early(&mut self) -> Call {
        match self.plan.mode() {
            Mode::Blank => match self.random.below(3) {
                0 => Call::new(Name::Measure, &[self.edge()]),
                1 => self.rule(),
                // Mostly refused: opening here would end the drawing.
                _ if self.plan.measures() == 0 => Call::new(Name::Open, &[]),
                _ => {
                    let a = self.some_measure();
                    Call::new(Name::Rule, &[a, self.edge(), self.some_measure(), self.random.between(-1, 2)])
                }
            },
            Mode::Whole => self.edit(),
            Mode::Split => match self.random.below(3) {
                0 => Call::new(Name::Split, &[self.side()]),
                _ => self.edit(),
            },
            Mode::Joining => match self.random.below(5) {
                0 => Call::new(Name::Stop, &[]),
                1 => Call::new(Name::Send, &[self.side()]),
                2 => self.edit(),
                _ => Call::new(Name::Replay, &[self.kept_number()]),
            },
            Mode::Closing => match self.random.below(5) {
                0 => Call::new(Name::Install, &[]),
                1 => Call::new(Name::Send, &[self.side()]),
                2 => Call::new(Name::Replay, &[self.kept_number()]),
                _ => Call::new(Name::Confirm, &[self.side()]),
            },
        }
    }

    /// A call that carries the list on.
    fn useful(&mut self) -> Option<Call> {
        Some(match self.plan.mode() {
            Mode::Blank => {
                if self.measures_due > 0 {
                    self.measures_due -= 1;
                    let spread = self.style.spread;
                    let value = if self.random.chance(30) { self.edge() } else { self.random.between(-spread, spread) };
                    Call::new(Name::Measure, &[value])
                } else if self.rules_due > 0 {
                    self.rules_due -= 1;
                    self.rule()
                } else {
                    self.opened += 1;
                    if self.opened > 4 {
                        return None;
                    }
                    if self.plan.measures() == 0 {
                        self.measures_due = 2;
                    }
                    Call::new(Name::Open, &[])
                }
            }
            Mode::Whole => {
                if self.whole_due > 0 {
                    self.whole_due -= 1;
                    self.edit()
                } else {
                    self.splits_due = self.splits_due.saturating_sub(1);
                    Call::new(Name::Split, &[1])
                }
            }
            Mode::Split => {
                if self.splits_due > 0 && self.random.chance(300) {
                    self.splits_due -= 1;
                    Call::new(Name::Split, &[self.side()])
                } else if self.kept_due > 0 {
                    self.kept_due -= 1;
                    self.edit()
                } else if self.splits_due > 0 {
                    self.splits_due -= 1;
                    Call::new(Name::Split, &[self.side()])
                } else {
                    Call::new(Name::Join, &[])
                }
            }
            Mode::Joining => {
                if self.late_due > 0 && self.random.chance(250) {
                    self.late_due -= 1;
                    return Some(self.edit());
                }
                match self.side_to_send(false) {
                    Some(s) => Call::new(Name::Send, &[s]),
                    None if self.random.chance(150) => match self.side_to_send(true) {
                        Some(s) => Call::new(Name::Send, &[s]),
                        None => self.replay_or(Name::Stop),
                    },
                    None => self.replay_or(Name::Stop),
                }
            }
            Mode::Closing => {
                if self.random.chance(500) {
                    if let Some(s) = self.side_to_send(true) {
                        return Some(Call::new(Name::Send, &[s]));
                    }
                }
                let sides = self.plan.sides();
                let from = self.random.below(sides as usize) as i32;
                let side = (0..sides).map(|i| 1 + (from + i) % sides).find(|&s| !self.plan.has_confirmed(s));
                match side {
                    Some(s) if self.plan.waiting() == 0 || self.random.chance(400) => Call::new(Name::Confirm, &[s]),
                    _ => self.replay_or(Name::Install),
                }
            }
        })
    }

    /// A side whose first log has not arrived or, if asked for, one with unsent edits.
    fn side_to_send(&mut self, unsent: bool) -> Option<i32> {
        let sides = self.plan.sides();
        let from = self.random.below(sides as usize) as i32;
        (0..sides)
            .map(|i| 1 + (from + i) % sides)
            .find(|&s| !self.plan.has_arrived(s) || unsent && self.plan.has_unsent(s))
    }

    /// Replays a waiting edit, or makes the other call where none waits.
    fn replay_or(&mut self, name: Name) -> Call {
        match self.kept_with(Fate::Waiting) {
            Some(mut n) => {
                // Mostly the first of a chain of waiting edits.
                while self.random.chance(900) {
                    match self.plan.kept_edit(n) {
                        Some(edit) if edit.earlier != 0 && self.plan.fate(edit.earlier).0 == Fate::Waiting => n = edit.earlier,
                        _ => break,
                    }
                }
                Call::new(Name::Replay, &[n])
            }
            None => Call::new(name, &[]),
        }
    }

    fn rule(&mut self) -> Call {
        let (a, b) = match self.plan.rule_terms(self.plan.rules()) {
            Some([a, _, b]) if self.random.chance(self.style.crowded) => (a, b),
            _ => (self.some_measure(), self.some_measure()),
        };
        let firm = self.random.chance(self.style.firm) as i32;
        if self.drawn.len() < 2 || a == b && self.random.chance(50) {
            return Call::new(Name::Rule, &[a, 0, b, firm]);
        }
        let b = if a == b { 1 + a % self.drawn.len() as i32 } else { b };
        let room = self.drawn[b as usize - 1] - self.drawn[a as usize - 1] - 1;
        if self.style.failing && self.random.chance(100) {
            return Call::new(Name::Rule, &[a, room + 1, b, firm]);
        }
        let offset = if self.random.chance(30) { -2_000_000 } else { room - self.random.between(0, self.style.slack) };
        Call::new(Name::Rule, &[a, offset, b, firm])
    }

    /// A measure of a soft rule, and the last value that the rule leaves it on a side.
    fn last_room(&mut self, side: i32) -> Option<(i32, i32)> {
        let rule = 1 + self.random.below(self.plan.rules().max(1) as usize) as i32;
        let [a, c, b] = self.plan.rule_terms(rule)?;
        let values = self.plan.values_of(side).ok()?;
        let (measure, value) =
            if self.random.chance(500) { (a, values[b as usize - 1] - c - 1) } else { (b, values[a as usize - 1] + c + 1) };
        (!self.plan.is_firm(measure) && value.abs() <= 1_000_000).then_some((measure, value))
    }

    fn edit(&mut self) -> Call {
        let side = self.side();
        let mut client = self.random.between(1, self.style.clients);
        let mut after = 0;
        if self.random.chance(if self.plan.kept().1 == 0 { 20 } else { self.style.chained }) {
            after = self.kept_number();
            if let Some(edit) = self.plan.kept_edit(after) {
                if self.random.chance(950) {
                    client = edit.client;
                }
                if !edit.replied && self.random.chance(800) {
                    after = 0;
                }
            }
        }
        let mut measure = self.some_measure();
        for _ in 0..4 {
            if !self.plan.is_firm(measure) || self.plan.mode() == Mode::Whole {
                break;
            }
            measure = self.some_measure();
        }
        if self.plan.mode() != Mode::Whole && self.random.chance(self.style.greedy) {
            if let Some((measure, value)) = self.last_room(side) {
                return Call::new(Name::Edit, &[side, client, after, measure, 1, value]);
            }
        }
        let value = match self.plan.values_of(side) {
            Ok(values) => values[measure as usize - 1],
            Err(_) => 0,
        };
        let kind = self.random.pick(&[1, 1, 2, 2, 2, 3, 4]);
        let reach = self.random.pick(&[1, 3, 20, 1000]);
        let constant = if self.random.chance(self.style.harsh) {
            self.edge()
        } else {
            match kind {
                1 => (value + self.random.between(-reach, reach)).clamp(-1_000_000, 1_000_000),
                2 => self.random.between(-reach, reach),
                3 => self.random.pick(&[1, 1, 2, -1, 3, 10, -10]),
                _ => self.random.pick(&[1, 1, 2, -1, 3, -3, 7, 10, -10]),
            }
        };
        let mut call = Call::new(Name::Edit, &[side, client, after, measure, kind, constant]);
        if self.random.chance(20) {
            call.numbers[self.random.below(6)] = self.edge();
        }
        call
    }
}
