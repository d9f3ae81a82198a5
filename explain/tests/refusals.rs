//! Every refusal of document 01 has words of its own.

use explain::refusals::{refusal, REFUSALS};
use explain::{explain, Names};

/// 01, "Who can be told no, and why".
const DOCUMENT: [i64; 30] =
    [11, 12, 13, 14, 15, 16, 17, 21, 22, 23, 24, 25, 26, 27, 28, 29, 30, 31, 32, 33, 34, 35, 36, 37, 38, 39, 40, 41, 51, 52];

#[test]
fn all_are_there_and_no_others() {
    assert_eq!(REFUSALS.map(|refusal| refusal.number), DOCUMENT);
}

#[test]
fn each_has_its_own_meaning() {
    for one in &REFUSALS {
        assert!(one.meaning.ends_with('.') && one.advice.ends_with('.'), "{}", one.number);
        assert!(REFUSALS.iter().all(|other| one.number == other.number || one.meaning != other.meaning), "{}", one.number);
    }
    assert!(refusal(18).is_none());
}

#[test]
fn each_is_explained_on_the_page() {
    for one in &REFUSALS {
        let text = explain(b"open\n", format!("no {}\n", one.number).as_bytes(), Names::default());
        let words = text.split_whitespace().collect::<Vec<_>>().join(" ");
        assert!(words.contains(one.meaning) && words.contains(&format!("To {}: {}", one.to, one.advice)), "{text}");
    }
}
