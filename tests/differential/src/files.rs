//! Files of saved plans: laid out by hand, in any order of slots, and with faults. The layout is written down here once more, so that no
//! program under test makes the files that it is tried on.

use crate::random::Random;

pub const SLOT: usize = 16;
pub const SLOT_LIMIT: usize = 97;

/// Where the fields of slot 0 begin.
const FIRST_MEASURE: usize = 0;
const FIRST_RULE: usize = 2;
const NEXT_NUMBER: usize = 4;
const CHECK: usize = 8;
const COUNT: usize = 12;

/// Where the fields of the others begin.
const NEXT: usize = 0;
const MARK: usize = 2;
const VALUE: usize = 4;
const A: usize = 4;
const B: usize = 6;
const C: usize = 8;

/// Links, measures and counts at their edges.
const ODD_SHORTS: [u16; 16] = [0, 1, 2, 3, 31, 32, 33, 64, 96, 97, 98, 127, 255, 256, 257, 65_535];

const ODD_VALUES: [i32; 12] =
    [0, 1, -1, 999_999, 1_000_000, 1_000_001, -999_999, -1_000_000, -1_000_001, 16_777_216, i32::MAX, i32::MIN];

const ODD_GAPS: [i32; 12] =
    [0, 1, -1, 1_000_001, 1_999_999, 2_000_000, 2_000_001, -1_999_999, -2_000_000, -2_000_001, i32::MAX, i32::MIN];

const ODD_NUMBERS: [u32; 14] = [
    0, 1, 2, 65_535, 65_536, 999_998, 999_999, 1_000_000, 1_000_001, 1_065_536, 16_777_217, 0x7fff_ffff, 0x8000_0001, 0xffff_ffff,
];

const ODD_MARKS: [u8; 12] = [0, 1, 2, 3, 4, 5, 6, 7, 9, 0x42, 0x81, 0xff];

#[derive(Clone, Copy)]
pub struct Rule {
    pub a: u16,
    pub c: i32,
    pub b: u16,
    pub firm: bool,
}

#[derive(Clone)]
pub struct File {
    pub slots: Vec<[u8; SLOT]>,
}

impl File {
    /// Slots in rising order, measures first, with the count and the sum that they need.
    pub fn new(next_number: u32, values: &[i32], rules: &[Rule]) -> File {
        let (first_rule, end) = (1 + values.len(), 1 + values.len() + rules.len());
        let link = |at: usize, end: usize| if at < end { at as u16 } else { 0 };
        let mut file = File { slots: vec![[0; SLOT]; end] };
        file.short(0, FIRST_MEASURE, link(1, first_rule));
        file.short(0, FIRST_RULE, link(first_rule, end));
        file.word(0, NEXT_NUMBER, next_number);
        for (at, &value) in (1..).zip(values) {
            file.short(at, NEXT, link(at + 1, first_rule));
            file.slots[at][MARK] = 1;
            file.word(at, VALUE, value as u32);
        }
        for (at, rule) in (first_rule..).zip(rules) {
            file.short(at, NEXT, link(at + 1, end));
            file.slots[at][MARK] = if rule.firm { 6 } else { 2 };
            file.short(at, A, rule.a);
            file.short(at, B, rule.b);
            file.word(at, C, rule.c as u32);
        }
        file.mended()
    }

    /// The whole slots of some bytes.
    pub fn of(bytes: &[u8]) -> File {
        File { slots: bytes.as_chunks().0.to_vec() }
    }

    /// A block of exactly its length, so that a memory checker sees a read behind the end.
    pub fn bytes(&self) -> Box<[u8]> {
        self.slots.concat().into_boxed_slice()
    }

    fn short(&mut self, slot: usize, byte: usize, value: u16) {
        self.slots[slot][byte..byte + 2].copy_from_slice(&value.to_le_bytes());
    }

    fn word(&mut self, slot: usize, byte: usize, value: u32) {
        self.slots[slot][byte..byte + 4].copy_from_slice(&value.to_le_bytes());
    }

    fn read_short(&self, slot: usize, byte: usize) -> u16 {
        u16::from_le_bytes([self.slots[slot][byte], self.slots[slot][byte + 1]])
    }

    pub fn number_from(&mut self, next_number: u32) {
        self.word(0, NEXT_NUMBER, next_number);
        self.mend_sum();
    }

    pub fn mend_count(&mut self) {
        self.short(0, COUNT, self.slots.len() as u16);
    }

    /// Sets the check word so that all words add up to 0.
    pub fn mend_sum(&mut self) {
        self.word(0, CHECK, 0);
        let words = self.slots.iter().flat_map(|slot| slot.as_chunks::<4>().0);
        let sum = words.fold(0u32, |sum, &word| sum.wrapping_add(u32::from_le_bytes(word)));
        self.word(0, CHECK, sum.wrapping_neg());
    }

    fn mended(mut self) -> File {
        self.mend_count();
        self.mend_sum();
        self
    }

    /// Puts the slots into another order and mends the links.
    pub fn shuffled(&self, random: &mut Random) -> File {
        let count = self.slots.len();
        let mut place: Vec<u16> = (0..count as u16).collect();
        for at in (2..count).rev() {
            place.swap(at, 1 + random.below(at));
        }
        let moved = |link: u16| place.get(link as usize).copied().unwrap_or(link);
        let mut file = self.clone();
        for (at, &to) in place.iter().enumerate() {
            file.slots[to as usize] = self.slots[at];
        }
        for (slot, byte) in [(0, FIRST_MEASURE), (0, FIRST_RULE)].into_iter().chain((1..count).map(|slot| (slot, NEXT))) {
            file.short(slot, byte, moved(file.read_short(slot, byte)));
        }
        file.mend_sum();
        file
    }

    /// Spoils one place.
    pub fn damage(&mut self, random: &mut Random) {
        let count = self.slots.len();
        let slot = random.below(count);
        let other = random.below(count);
        let measure = 1 + random.below(count) as u16;
        match random.below(15) {
            // A link within the file or to an odd place.
            0 => self.short(slot, NEXT, other as u16),
            1 => self.short(slot, NEXT, random.pick(&ODD_SHORTS)),
            2 => self.short(0, random.pick(&[FIRST_MEASURE, FIRST_RULE]), other as u16),
            3 => self.short(slot, NEXT, count as u16),
            4 => self.slots[slot][MARK] = random.pick(&ODD_MARKS),
            5 => self.slots[slot][random.pick(&[3, 8, 9, 11, 12, 13, 14, 15])] = random.pick(&[1, 0x80, 0xff]),
            6 => self.word(0, NEXT_NUMBER, random.pick(&ODD_NUMBERS)),
            7 => self.word(slot, VALUE, random.pick(&ODD_VALUES) as u32),
            8 => self.word(slot, C, random.pick(&ODD_GAPS) as u32),
            9 => self.short(slot, random.pick(&[A, B]), random.pick(&ODD_SHORTS)),
            10 => self.short(slot, random.pick(&[A, B]), measure),
            11 => self.short(0, COUNT, (count as u16).wrapping_add(random.pick(&[1, 2, 256, 65_535]))),
            12 => self.slots[slot][random.below(SLOT)] ^= 1 << random.below(8),
            13 => self.slots.swap(slot, other),
            _ if random.chance(500) => self.slots.truncate(1 + other),
            _ => self.slots.push(self.slots[slot]),
        }
    }
}

/// What the file of a plan says.
pub struct Drawing {
    pub next_number: u32,
    pub values: Vec<i32>,
    pub rules: Vec<Rule>,
}

impl Drawing {
    pub fn file(&self) -> File {
        File::new(self.next_number, &self.values, &self.rules)
    }

    /// Whether its file loads (02, S-1), given that the rules are in range: 46 by the next number, 12, 13, 16 and 17.
    pub fn loads(&self) -> bool {
        let value = |m: u16| self.values[m as usize - 1];
        (1..=1_000_000).contains(&self.next_number)
            && (1..=32).contains(&self.values.len())
            && self.rules.len() <= 64
            && self.rules.iter().all(|rule| value(rule.a) + rule.c < value(rule.b))
    }
}

/// A plan's file, as a rule one that loads.
pub fn drawn(random: &mut Random) -> File {
    drawing(random).file()
}

pub fn drawing(random: &mut Random) -> Drawing {
    let most = random.pick(&[1, 2, 4, 8, 32, 32, 33, 35]);
    let measures = if most < 32 { 1 + random.below(most) } else { most };
    let spread = random.pick(&[0, 5, 1000, 1_000_000]);
    let values: Vec<i32> = (0..measures).map(|_| random.between(-spread, spread)).collect();
    let most = if measures < 2 { 0 } else { random.pick(&[0, 1, 3, 8, 63, 64, 64, 65]) };
    let firm = random.pick(&[0, 200, 1000]);
    let slack = random.pick(&[0, 3, 1000]);
    let rules: Vec<Rule> = (0..most).map(|_| rule(random, &values, firm, slack)).collect();
    let next_number = if random.chance(700) { 1 + random.below(1000) as u32 } else { random.pick(&ODD_NUMBERS) };
    Drawing { next_number, values, rules }
}

/// A rule that holds of the values.
fn rule(random: &mut Random, values: &[i32], firm: usize, slack: i32) -> Rule {
    let a = random.below(values.len());
    let b = (a + 1 + random.below(values.len() - 1)) % values.len();
    let c = values[b] - values[a] - 1 - random.between(0, slack);
    Rule { a: a as u16 + 1, c: c.max(-2_000_000), b: b as u16 + 1, firm: random.chance(firm) }
}

/// Slots of which each is likely by itself, with links that may form anything.
pub fn tangled(random: &mut Random) -> File {
    let most = random.pick(&[2, 4, 8, SLOT_LIMIT]);
    let count = 1 + random.below(most);
    let any = random.chance(100);
    let mut file = File { slots: vec![[0; SLOT]; count] };
    file.word(0, NEXT_NUMBER, random.pick(&ODD_NUMBERS));
    for slot in 0..count {
        if any {
            file.slots[slot].fill_with(|| random.next() as u8);
        }
        file.short(slot, NEXT, random.below(count) as u16);
        if slot == 0 {
            file.short(0, FIRST_RULE, random.below(count) as u16);
        } else {
            file.slots[slot][MARK] = random.pick(&[1, 2, 6]);
            file.word(slot, VALUE, random.pick(&[0, 1, 0x0001_0002, 0x0002_0001]));
        }
    }
    file.mended()
}

/// A small plan with a firm rule, a negative value and negative gaps.
pub fn kitchen() -> File {
    let rules = [
        Rule { a: 1, c: -2_000_000, b: 2, firm: true },
        Rule { a: 2, c: 7, b: 3, firm: false },
        Rule { a: 1, c: -1, b: 3, firm: true },
    ];
    File::new(17, &[-600, 0, 1_000_000], &rules)
}

pub fn pair() -> File {
    File::new(1, &[3, 12], &[Rule { a: 1, c: 1, b: 2, firm: false }])
}

/// As many measures and rules as are asked for. The rules hold while the measures are two or more.
pub fn counted(measures: usize, rules: usize) -> File {
    let values: Vec<i32> = (0..measures as i32).map(|m| 10 * m - 100).collect();
    let rules: Vec<Rule> = (0..rules as u16)
        .map(|r| {
            let a = r % (measures as u16).saturating_sub(1).max(1) + 1;
            Rule { a, c: 9 - r as i32, b: a + 1, firm: r % 3 == 0 }
        })
        .collect();
    File::new(999_999, &values, &rules)
}

/// Hands over the files that are tried in every run, each with a name.
pub fn each(visit: &mut dyn FnMut(&str, &[u8])) {
    lengths(visit);
    sizes(visit);
    for (name, file) in [("the pair", pair()), ("a kitchen", kitchen()), ("no measure", counted(0, 0))] {
        links(name, &file, visit);
        numbers(name, &file, visit);
        changed(name, &file, &|_| (0..=255).collect(), visit);
    }
    let largest = counted(32, 64).shuffled(&mut Random::item(0, 0));
    links("97 slots", &largest, visit);
    let few = |old: u8| [0, 1, 2, 3, 6, 0x80, 0xff, old.wrapping_add(1), old.wrapping_sub(1), old ^ 4, old ^ 64].to_vec();
    changed("97 slots", &largest, &few, visit);
}

/// Files that are cut, go on behind their end, or have another count.
fn lengths(visit: &mut dyn FnMut(&str, &[u8])) {
    for (measures, rules) in [(2, 1), (32, 64), (32, 65)] {
        let file = counted(measures, rules);
        let bytes = file.bytes();
        for length in 0..bytes.len() {
            visit(&format!("the first {length} bytes"), &bytes[..length]);
        }
        let end = file.slots.len();
        for count in [0, 1, end - 1, end, end + 1, end + 256, 97, 98, 65_535] {
            let mut other = file.clone();
            other.short(0, COUNT, count as u16);
            other.mend_sum();
            visit(&format!("{end} slots, count {count}"), &other.bytes());
            other.slots.push([0; SLOT]);
            visit(&format!("{end} slots and a zero slot, count {count}"), &other.bytes());
        }
        for more in 1..=SLOT {
            visit(&format!("{more} bytes more"), &[&bytes[..], &vec![0; more]].concat());
        }
        // So long that a count of two bytes is right again.
        let mut longest = file.clone();
        longest.slots.resize(65_536 + end, [0; SLOT]);
        visit("65,536 slots more", &longest.mended().bytes());
    }
}

/// Plans with any count of measures and of rules, up to more slots than a file may have.
fn sizes(visit: &mut dyn FnMut(&str, &[u8])) {
    for measures in (0..=34).chain(60..=97) {
        for rules in (0..=3).chain(30..=34).chain(61..=67).chain(95..=97) {
            if measures + rules <= SLOT_LIMIT {
                visit(&format!("{measures} measures, {rules} rules"), &counted(measures, rules).bytes());
            }
        }
    }
    // At the limits, the last measure and rule out of range too, and the one before.
    for (measures, rules) in [(33, 0), (33, 63), (31, 65), (2, 65)] {
        let file = counted(measures, rules);
        for (slot, byte) in [(32, VALUE), (33, VALUE), (1, VALUE), (file.slots.len() - 1, C), (file.slots.len() - 2, C)] {
            let mut other = file.clone();
            other.word(slot.min(file.slots.len() - 1), byte, 0x7000_0000);
            other.mend_sum();
            visit(&format!("{measures} measures, {rules} rules, slot {slot} out of range"), &other.bytes());
        }
    }
}

/// Every link led to every slot, and out of the file.
fn links(name: &str, file: &File, visit: &mut dyn FnMut(&str, &[u8])) {
    let count = file.slots.len();
    let from = [(0, FIRST_MEASURE), (0, FIRST_RULE)].into_iter().chain((1..count).map(|slot| (slot, NEXT)));
    for (slot, byte) in from {
        for to in (0..=count as u16 + 1).chain(ODD_SHORTS) {
            let mut other = file.clone();
            other.short(slot, byte, to);
            other.mend_sum();
            visit(&format!("{name}, link at byte {byte} of slot {slot} to {to}"), &other.bytes());
        }
    }
}

/// Numbers at the edges of their ranges, in every slot.
fn numbers(name: &str, file: &File, visit: &mut dyn FnMut(&str, &[u8])) {
    let mut try_word = |slot: usize, byte: usize, value: u32| {
        let mut other = file.clone();
        other.word(slot, byte, value);
        other.mend_sum();
        visit(&format!("{name}, {value:#x} at byte {byte} of slot {slot}"), &other.bytes());
    };
    for number in ODD_NUMBERS {
        try_word(0, NEXT_NUMBER, number);
    }
    for slot in 1..file.slots.len() {
        for value in ODD_VALUES.into_iter().chain(-20..20).chain(999_980..1_000_010) {
            try_word(slot, VALUE, value as u32);
        }
        for gap in ODD_GAPS.into_iter().chain(-20..20).chain(999_980..1_000_010) {
            try_word(slot, C, gap as u32);
        }
        for a in 0..6 {
            for b in (0..6).chain([255, 256, 257, 258, 65_535]) {
                try_word(slot, A, a << 16 | b);
                try_word(slot, A, b << 16 | a);
            }
        }
    }
}

/// Every byte changed, with the sum mended and not.
fn changed(name: &str, file: &File, values: &dyn Fn(u8) -> Vec<u8>, visit: &mut dyn FnMut(&str, &[u8])) {
    for slot in 0..file.slots.len() {
        for byte in 0..SLOT {
            for value in values(file.slots[slot][byte]) {
                let mut other = file.clone();
                other.slots[slot][byte] = value;
                let label = format!("{name}, byte {byte} of slot {slot} is {value}");
                visit(&label, &other.bytes());
                other.mend_sum();
                visit(&format!("{label}, sum mended"), &other.bytes());
            }
        }
    }
}
