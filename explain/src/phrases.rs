//! Small pieces of text.

use crate::layout::TIE;

/// Tenths of a millimetre as millimetres, held together by a space that does not break.
pub fn mm(tenths: i64) -> String {
    let sign = if tenths < 0 { "-" } else { "" };
    let size = tenths.unsigned_abs();
    format!("{sign}{}.{}{TIE}mm", size / 10, size % 10)
}

pub fn count(n: usize, what: &str) -> String {
    format!("{n} {what}{}", if n == 1 { "" } else { "s" })
}

/// "edit 4", "edits 1 to 3, 5". The numbers rise.
pub fn numbered(what: &str, numbers: &[i64]) -> String {
    format!("{what}{} {}", if numbers.len() == 1 { "" } else { "s" }, runs(numbers))
}

/// Numbers that follow each other are drawn together.
fn runs(numbers: &[i64]) -> String {
    let mut runs: Vec<(i64, i64)> = Vec::new();
    for &number in numbers {
        match runs.last_mut() {
            Some((_, last)) if *last + 1 == number => *last = number,
            _ => runs.push((number, number)),
        }
    }
    let words = runs.iter().map(|&(first, last)| match last - first {
        0 => first.to_string(),
        1 => format!("{first}, {last}"),
        _ => format!("{first} to {last}"),
    });
    words.collect::<Vec<_>>().join(", ")
}

pub fn capital(words: &str) -> String {
    let mut letters = words.chars();
    match letters.next() {
        Some(first) => first.to_uppercase().chain(letters).collect(),
        None => String::new(),
    }
}

#[cfg(test)]
mod tests {
    use super::*;

    #[test]
    fn values_are_millimetres() {
        for (tenths, due) in [(5960, "596.0 mm"), (-5, "-0.5 mm"), (0, "0.0 mm"), (i64::MIN, "-922337203685477580.8 mm")] {
            assert_eq!(mm(tenths).replace(TIE, " "), due);
        }
    }

    #[test]
    fn numbers_in_a_row_are_drawn_together() {
        assert_eq!(numbered("edit", &[1, 2, 3, 5, 6, 9]), "edits 1 to 3, 5, 6, 9");
        assert_eq!(numbered("edit", &[4]), "edit 4");
    }

    #[test]
    fn one_is_not_many() {
        assert_eq!((count(1, "rule"), count(0, "rule")), ("1 rule".to_string(), "0 rules".to_string()));
    }
}
