//! What measures, sides and clients are called. A file of names has on each line `measure`, `side` or `client`, its number, and
//! the name as one would say it in a sentence: `measure 2 the door`, `client 5 Anna`.

use crate::layout::TIE;
use std::collections::BTreeMap;

/// Longer names would spoil the layout.
const LONGEST: usize = 40;

#[derive(Default)]
pub struct Names {
    given: BTreeMap<(&'static str, i64), String>,
}

impl Names {
    pub fn read(text: &str) -> Result<Names, String> {
        let mut names = Names::default();
        for (at, line) in text.lines().enumerate().filter(|(_, line)| !line.trim().is_empty()) {
            let (thing, name) = entry(line)
                .ok_or_else(|| format!("line {} is not `measure`, `side` or `client`, a number and a name", at + 1))?;
            names.given.insert(thing, name);
        }
        Ok(names)
    }

    pub fn measure(&self, number: i64) -> String {
        self.name("measure", number)
    }

    pub fn side(&self, number: i64) -> String {
        self.name("side", number)
    }

    pub fn client(&self, number: i64) -> String {
        self.name("client", number)
    }

    /// The number with the name behind it, for the line that brings the thing in: "side 2 (the surveyor)".
    pub fn introduced(&self, kind: &'static str, number: i64) -> String {
        match self.given.get(&(kind, number)) {
            Some(name) => format!("{} ({name})", numbered(kind, number)),
            None => numbered(kind, number),
        }
    }

    fn name(&self, kind: &'static str, number: i64) -> String {
        self.given.get(&(kind, number)).cloned().unwrap_or_else(|| numbered(kind, number))
    }
}

fn numbered(kind: &str, number: i64) -> String {
    format!("{kind}{TIE}{number}")
}

fn entry(line: &str) -> Option<((&'static str, i64), String)> {
    let mut words = line.split_whitespace();
    let kind = words.next()?;
    let kind = ["measure", "side", "client"].into_iter().find(|known| *known == kind)?;
    let number = words.next()?.parse().ok()?;
    let name = words.collect::<Vec<_>>().join(" ");
    let name: String = name.chars().filter(|c| !c.is_control()).take(LONGEST).collect();
    (!name.is_empty()).then_some(((kind, number), name))
}

#[cfg(test)]
mod tests {
    use super::*;

    #[test]
    fn names_are_read_and_the_rest_is_numbered() {
        let names = Names::read("measure 2 the  door\n\nside 1 the showroom\nclient 5 Anna\n").unwrap();
        assert_eq!(names.measure(2), "the door");
        assert_eq!(names.measure(1).replace(TIE, " "), "measure 1");
        assert_eq!(names.introduced("side", 1).replace(TIE, " "), "side 1 (the showroom)");
        assert_eq!(names.introduced("side", 2).replace(TIE, " "), "side 2");
        assert_eq!(names.client(5), "Anna");
    }

    #[test]
    fn a_line_that_names_nothing_is_told() {
        for line in ["measure 2", "measure two the door", "door 2 the door", "2 the door"] {
            assert!(Names::read(line).is_err(), "{line}");
        }
        assert!(Names::read("side 1 here\nside").err().unwrap().starts_with("line 2 "));
    }

    #[test]
    fn a_name_cannot_spoil_the_page() {
        let names = Names::read(&format!("measure 1 a\u{1b}[31m{}", "b".repeat(100))).unwrap();
        assert!(names.measure(1).starts_with("a[31mb"));
        assert_eq!(names.measure(1).chars().count(), LONGEST);
    }
}
