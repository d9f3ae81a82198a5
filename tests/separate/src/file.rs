//! Saved plans: slots of 16 bytes, linked by slot numbers, and the entries that load and save them.

use crate::plan::{Mode, Plan, Refusal, LAST_NUMBER, MEASURE_LIMIT, RULE_LIMIT};
use crate::sheet::{make_calls, run_on};

/// Bytes of a slot.
pub const SLOT: usize = 16;
pub const SLOT_LIMIT: usize = 1 + MEASURE_LIMIT + RULE_LIMIT;

// The mark and the zero byte behind it, as one number.
const MEASURE: u16 = 1;
const RULE: u16 = 2;
const FIRM: u16 = 4;

/// Loads a file into a blank plan and answers the sheet on it.
pub fn screen_load(file: &[u8], sheet: &[u8], area: &mut [u8]) -> u64 {
    let mut plan = Plan::new();
    number(plan.load(file).map(|()| run_on(&mut plan, sheet, area)))
}

/// Saves the plan that a sheet leaves.
pub fn screen_save(sheet: &[u8], area: &mut [u8]) -> u64 {
    number(saved(&mut Plan::new(), sheet, area))
}

/// Saves the plan that a sheet leaves of a loaded one.
pub fn screen_save_on(file: &[u8], sheet: &[u8], area: &mut [u8]) -> u64 {
    let mut plan = Plan::new();
    number(plan.load(file).and_then(|()| saved(&mut plan, sheet, area)))
}

fn saved(plan: &mut Plan, sheet: &[u8], area: &mut [u8]) -> Result<u64, Refusal> {
    make_calls(plan, sheet)?;
    Ok(plan.save(area)?.len() as u64)
}

/// An entry's one number: the refusal below the value.
fn number(given: Result<u64, Refusal>) -> u64 {
    match given {
        Ok(value) => 256 * value,
        Err(refusal) => refusal as u64,
    }
}

/// The halves of a slot. Every field lies in one of them.
#[derive(Clone, Copy)]
struct Slot {
    front: u64,
    back: u64,
}

impl Slot {
    fn read(bytes: &[u8; SLOT]) -> Slot {
        let all = u128::from_le_bytes(*bytes);
        Slot { front: all as u64, back: (all >> 64) as u64 }
    }

    fn write(self, bytes: &mut [u8; SLOT]) {
        *bytes = (self.front as u128 | (self.back as u128) << 64).to_le_bytes();
    }

    /// The sum of the four words.
    fn sum(self) -> u32 {
        let halves = [self.front, self.back];
        halves.iter().fold(0u32, |sum, half| sum.wrapping_add(*half as u32).wrapping_add((half >> 32) as u32))
    }

    fn next(self) -> usize {
        self.front as u16 as usize
    }

    fn mark(self) -> u16 {
        (self.front >> 16) as u16
    }
}

/// Goes along the chains of a file, through each slot once.
struct Walk<'a> {
    slots: &'a [[u8; SLOT]],
    /// One bit for each slot met.
    met: u128,
}

impl Walk<'_> {
    fn meet(&mut self, at: usize) -> Result<Slot, Refusal> {
        let slot = Slot::read(self.slots.get(at).ok_or(Refusal::FileForm)?);
        let bit = 1 << at;
        need(self.met & bit == 0)?;
        self.met |= bit;
        Ok(slot)
    }

    fn met_all(&self) -> bool {
        self.met == (1 << self.slots.len()) - 1
    }
}

fn need(well_formed: bool) -> Result<(), Refusal> {
    if well_formed {
        Ok(())
    } else {
        Err(Refusal::FileForm)
    }
}

impl Plan {
    /// Draws and opens the plan of a file.
    pub fn load(&mut self, file: &[u8]) -> Result<(), Refusal> {
        self.need(self.is_new())?;
        let (slots, rest) = file.as_chunks::<SLOT>();
        let head = Slot::read(slots.first().ok_or(Refusal::FileLength)?);
        let count = (head.back >> 32) as u16 as usize;
        if !rest.is_empty() || slots.len() > SLOT_LIMIT || slots.len() != count {
            return Err(Refusal::FileLength);
        }
        if slots.iter().fold(0u32, |sum, slot| sum.wrapping_add(Slot::read(slot).sum())) != 0 {
            return Err(Refusal::FileSum);
        }
        let opened = self.draw(head, slots).and_then(|()| self.open());
        if opened.is_err() {
            self.undraw();
            return opened;
        }
        self.number_from((head.front >> 32) as u32);
        Ok(())
    }

    /// Draws what is on the chains. A fault of any slot comes before a refusal by the drawing, and the first such refusal is given.
    fn draw(&mut self, head: Slot, slots: &[[u8; SLOT]]) -> Result<(), Refusal> {
        need(head.back >> 48 == 0 && (1..=LAST_NUMBER + 1).contains(&((head.front >> 32) as u32)))?;
        // Slot 0 is on no chain, and no link leads there.
        let mut walk = Walk { slots, met: 1 };
        let mut drawn = Ok(0);
        let mut at = head.front as u16 as usize;
        while at != 0 {
            let slot = walk.meet(at)?;
            need(slot.mark() == MEASURE && slot.back == 0)?;
            drawn = drawn.and_then(|_| self.measure((slot.front >> 32) as i32));
            at = slot.next();
        }
        at = (head.front >> 16) as u16 as usize;
        while at != 0 {
            let slot = walk.meet(at)?;
            need(slot.mark() & !FIRM == RULE && slot.back >> 32 == 0)?;
            let (a, b) = ((slot.front >> 32) as u16, (slot.front >> 48) as u16);
            let firm = (slot.mark() & FIRM != 0) as i32;
            drawn = drawn.and_then(|_| self.rule(a as i32, slot.back as i32, b as i32, firm));
            at = slot.next();
        }
        need(walk.met_all())?;
        drawn.map(|_| ())
    }

    /// Fills the front of the area with the file of a whole plan and hands that part back: measures first, by rising slots.
    pub fn save<'a>(&self, area: &'a mut [u8]) -> Result<&'a mut [u8], Refusal> {
        self.need(self.mode() == Mode::Whole)?;
        let measures = self.measures() as usize;
        let count = 1 + measures + self.rules() as usize;
        let part = area.get_mut(..SLOT * count).ok_or(Refusal::AreaShort)?;
        let (slots, _) = part.as_chunks_mut::<SLOT>();
        let (first, slots) = slots.split_first_mut().ok_or(Refusal::AreaShort)?;
        let (measure_slots, rule_slots) = slots.split_at_mut(measures);
        let chains = link(1, count) | link(1 + measures, count) << 16;
        let mut head = Slot { front: chains | (self.next_number() as u64) << 32, back: (count as u64) << 32 };
        let sum = head.sum().wrapping_add(self.save_measures(measure_slots)).wrapping_add(self.save_rules(rule_slots));
        head.back |= sum.wrapping_neg() as u64;
        head.write(first);
        Ok(part)
    }

    /// Gives the sum of the slots written.
    fn save_measures(&self, slots: &mut [[u8; SLOT]]) -> u32 {
        let end = 1 + slots.len();
        let mut sum = 0u32;
        for (at, (bytes, &value)) in slots.iter_mut().zip(self.first_values()).enumerate() {
            let front = link(at + 2, end) | (MEASURE as u64) << 16 | (value as u32 as u64) << 32;
            let slot = Slot { front, back: 0 };
            sum = sum.wrapping_add(slot.sum());
            slot.write(bytes);
        }
        sum
    }

    fn save_rules(&self, slots: &mut [[u8; SLOT]]) -> u32 {
        let first = 1 + self.measures() as usize;
        let end = first + slots.len();
        let mut sum = 0u32;
        for (at, (bytes, rule)) in slots.iter_mut().zip(self.drawn_rules()).enumerate() {
            let mark = RULE | if rule.firm { FIRM } else { 0 };
            let named = (rule.low as u64 + 1) << 32 | (rule.high as u64 + 1) << 48;
            let slot = Slot { front: link(first + at + 1, end) | (mark as u64) << 16 | named, back: rule.offset as u32 as u64 };
            sum = sum.wrapping_add(slot.sum());
            slot.write(bytes);
        }
        sum
    }
}

/// The slot's number, or 0 where the chain has ended.
fn link(at: usize, end: usize) -> u64 {
    if at < end {
        at as u64
    } else {
        0
    }
}
