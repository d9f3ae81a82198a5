//! Reads a saved plan (02, S-1), so that the book can begin with it. The library has loaded the file before, so this reader tests nothing;
//! other bytes give some plan or none, and never a failure.

use crate::call::Rule;

const SLOT: usize = 16;
/// A file has at most so many slots. It ends a chain that runs in a circle.
const MOST: usize = 97;

#[derive(Clone, PartialEq, Eq, Debug, Default)]
pub struct Saved {
    /// In the order of their chains, which gives the numbers from 1 on.
    pub values: Vec<i64>,
    pub rules: Vec<Rule>,
    /// The number that the next edit gets.
    pub next: i64,
}

impl Saved {
    pub fn read(file: &[u8]) -> Saved {
        let front = Slot { file, at: 0 };
        Saved {
            values: chain(file, front.short(0)).map(|slot| slot.signed(4)).collect(),
            rules: chain(file, front.short(2)).map(|slot| slot.rule()).collect(),
            next: i64::from(u32::from_le_bytes(front.bytes(4))),
        }
    }
}

/// The slots from the first on, each naming the next; 0 ends them.
fn chain(file: &[u8], first: u16) -> impl Iterator<Item = Slot<'_>> {
    let slot = move |at: u16| (at != 0 && usize::from(at) < file.len() / SLOT).then_some(Slot { file, at });
    std::iter::successors(slot(first), move |here| slot(here.short(0))).take(MOST)
}

struct Slot<'a> {
    file: &'a [u8],
    at: u16,
}

impl Slot<'_> {
    /// The bytes at a place of the slot; noughts where the file has none.
    fn bytes<const N: usize>(&self, place: usize) -> [u8; N] {
        let from = usize::from(self.at) * SLOT + place;
        self.file.get(from..from + N).and_then(|bytes| bytes.try_into().ok()).unwrap_or([0; N])
    }

    fn short(&self, place: usize) -> u16 {
        u16::from_le_bytes(self.bytes(place))
    }

    fn signed(&self, place: usize) -> i64 {
        i64::from(i32::from_le_bytes(self.bytes(place)))
    }

    /// The third bit of a rule's mark says that it is firm.
    fn rule(&self) -> Rule {
        let [mark] = self.bytes(2);
        Rule { low: self.short(4).into(), gap: self.signed(8), high: self.short(6).into(), firm: mark & 4 != 0 }
    }
}

#[cfg(test)]
mod tests {
    use super::*;

    /// Slots in any order: measure 1 in slot 3, measure 2 in slot 1, a firm rule in slot 2. The check word is not looked at.
    const FILE: [[u8; SLOT]; 4] = [
        [3, 0, 2, 0, 0x40, 0x42, 0x0f, 0, 0, 0, 0, 0, 4, 0, 0, 0],
        [0, 0, 1, 0, 12, 0, 0, 0, 0, 0, 0, 0, 0, 0, 0, 0],
        [0, 0, 6, 0, 1, 0, 2, 0, 0xfd, 0xff, 0xff, 0xff, 0, 0, 0, 0],
        [1, 0, 1, 0, 0xf9, 0xff, 0xff, 0xff, 0, 0, 0, 0, 0, 0, 0, 0],
    ];

    #[test]
    fn chains_give_the_numbers() {
        let rule = Rule { low: 1, gap: -3, high: 2, firm: true };
        assert_eq!(Saved::read(&FILE.concat()), Saved { values: vec![-7, 12], rules: vec![rule], next: 1_000_000 });
    }

    #[test]
    fn a_circle_ends() {
        let mut file = FILE.concat();
        file[16] = 3;
        assert_eq!(Saved::read(&file).values.len(), MOST);
    }

    #[test]
    fn any_length_is_read() {
        let file = FILE.concat();
        for length in 0..file.len() {
            assert!(Saved::read(&file[..length]).values.len() < 3);
        }
        assert_eq!(Saved::read(&[]), Saved::default());
        assert!(Saved::read(&[0xff; 4096]).values.len() <= MOST);
    }
}
