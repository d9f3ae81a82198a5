//! What a refusal of loading or saving means, for someone who plans kitchens.

use crate::entry::Refused;

/// Refusals 11 to 17 come from a file alone: those of a sheet's own lines stand in its answers.
const REFUSALS: [(u64, &str); 13] = [
    (11, "a measure in the file is out of range, -100 m to 100 m"),
    (12, "the file has more than 32 measures"),
    (13, "the file has more than 64 rules"),
    (14, "a rule in the file names a measure that is not there, or the same one twice"),
    (15, "the allowance of a rule in the file is out of range, -200 m to 200 m"),
    (16, "the file has no measure"),
    (17, "a rule in the file does not hold of the measures there"),
    (31, "the sheet does not leave a whole plan: it must be opened, and a join that was begun must be installed"),
    (41, "the area lent for the file is too short"),
    (44, "the file has a wrong length: a part of it is missing, or it is no saved plan"),
    (45, "the file is damaged: its words do not add up"),
    (46, "the file adds up, but its slots do not fit together: it was not saved by this program"),
    (52, "the sheet is longer than 65,536 bytes"),
];

pub fn in_words(Refused(number): Refused) -> String {
    match REFUSALS.iter().find(|(known, _)| *known == number) {
        Some((_, meaning)) => format!("no {number}: {meaning}"),
        None => format!("no {number}"),
    }
}

#[cfg(test)]
mod tests {
    use super::*;

    #[test]
    fn each_has_words_of_its_own() {
        for (number, meaning) in REFUSALS {
            assert_eq!(in_words(Refused(number)), format!("no {number}: {meaning}"));
            assert!(REFUSALS.iter().all(|(other, words)| *other == number || *words != meaning), "{number}");
        }
        assert_eq!(in_words(Refused(99)), "no 99");
    }
}
