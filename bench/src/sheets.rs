//! The sheets that are timed.

use std::fmt::Write;

const LIMIT: usize = separate::SHEET_LIMIT;

/// The time of the setup alone is taken off, so that a line of the body is what is timed.
pub struct Workload {
    pub name: String,
    pub setup: String,
    pub body: String,
}

impl Workload {
    fn new(name: &str, setup: String, body: String) -> Workload {
        Workload { name: name.to_string(), setup, body }
    }
}

/// Lines repeated while the sheet has room, and at most so often.
fn filled(setup: &str, lines: &str, most: usize) -> String {
    lines.repeat(((LIMIT - setup.len()) / lines.len()).min(most))
}

/// Measures 0, 100, 200 and on, with rules that hold between neighbours near and far.
pub fn drawn(measures: usize, rules: usize, firm: bool) -> String {
    let mut text = String::new();
    for m in 0..measures {
        writeln!(text, "measure {}", 100 * m).unwrap();
    }
    let mut count = 0;
    for step in 1..measures {
        for a in 1..=measures - step {
            if count < rules {
                writeln!(text, "rule {a} 1 {} {}", a + step, firm as u8).unwrap();
                count += 1;
            }
        }
    }
    assert_eq!(count, rules);
    text + "open\n"
}

/// Measure 1 between the other 31, with so many rules that name it, every second one as its upper measure.
fn naming(rules: usize) -> String {
    let mut text = String::from("measure 500\n");
    for m in 2..=32 {
        writeln!(text, "measure {}", if m % 2 == 0 { 1000 } else { 0 }).unwrap();
    }
    for rule in 0..rules {
        let other = rule % 31 + 2;
        let (lower, upper) = if other % 2 == 0 { (1, other) } else { (other, 1) };
        writeln!(text, "rule {lower} 1 {upper} 0").unwrap();
    }
    text + "open\n"
}

/// Accepted edits of a whole plan, of every kind, that leave its values as they were.
pub fn edits(measures: usize) -> String {
    let mut text = String::new();
    for m in 1..=measures {
        let value = 100 * (m - 1);
        writeln!(text, "edit 1 {m} 0 {m} 2 10").unwrap();
        writeln!(text, "edit 1 {m} 0 {m} 2 -10").unwrap();
        writeln!(text, "edit 1 {m} 0 {m} 1 {}", value + 5).unwrap();
        writeln!(text, "edit 1 {m} 0 {m} 3 1").unwrap();
        writeln!(text, "edit 1 {m} 0 {m} 4 1").unwrap();
        writeln!(text, "edit 1 {m} 0 {m} 1 {value}").unwrap();
    }
    text
}

/// From a whole plan, splits to so many sides and keeps so many edits. `first` is the next number.
fn parted(sides: usize, kept: usize, first: usize, measures: usize) -> String {
    let mut text = String::new();
    for _ in 1..sides {
        text += "split 1\n";
    }
    for i in 0..kept {
        let constant = if (i / sides / measures) % 2 == 0 { 3 } else { -3 };
        // Every fourth edit names the one that its side took before, by the same client.
        let side = i % sides;
        let after = if i % 4 == 3 && i >= sides { first + i - sides } else { 0 };
        writeln!(text, "edit {} {} {after} {} 2 {constant}", side + 1, side + 1, i / sides % measures + 1).unwrap();
    }
    text
}

/// One join from split to install.
fn cycle(sides: usize, kept: usize, first: usize, measures: usize) -> String {
    let mut text = parted(sides, kept, first, measures) + "join\n";
    for s in 1..=sides {
        writeln!(text, "send {s}").unwrap();
    }
    for n in first..first + kept {
        writeln!(text, "replay {n}").unwrap();
    }
    text += "stop\n";
    for s in 1..=sides {
        writeln!(text, "confirm {s}").unwrap();
    }
    text + "install\n"
}

/// As many joins as a sheet has room for.
fn cycles(sides: usize, kept: usize, measures: usize, rules: usize) -> (String, String) {
    let setup = drawn(measures, rules, false);
    let mut body = String::new();
    let mut first = 1;
    loop {
        let next = cycle(sides, kept, first, measures);
        if setup.len() + body.len() + next.len() > LIMIT {
            return (setup, body);
        }
        body += &next;
        first += kept;
    }
}

/// A joining plan with so many kept edits, half of them settled.
fn joining(sides: usize, kept: usize) -> String {
    let mut text = drawn(8, 4, false) + &parted(sides, kept, 1, 8) + "join\n";
    for s in 1..=sides {
        writeln!(text, "send {s}").unwrap();
    }
    for n in 1..=kept / 2 {
        writeln!(text, "replay {n}").unwrap();
    }
    text
}

fn fates(kept: usize) -> String {
    (1..=kept.max(1)).map(|n| format!("fate {n}\n")).collect()
}

const MALFORMED: &str = "measure 1234567890\nedit 1 5 0 1 2\nedit 1 5 0 1 2 1\r\nmesure 5\n\nedit  1 5 0 1 2 1\nreplay -0\nshow 1 2\n\
                         rule 1 07 2 0\nopen \nedit 1 5 0 1 2 1 1\n";

/// The kitchens of the examples, as they are, from the first line to the last.
const KITCHENS: [(&str, &str); 6] = [
    ("document", include_str!("../../examples/document.sheet")),
    ("door", include_str!("../../examples/door.sheet")),
    ("filler", include_str!("../../examples/filler.sheet")),
    ("firm", include_str!("../../examples/firm.sheet")),
    ("island", include_str!("../../examples/island.sheet")),
    ("three-sides", include_str!("../../examples/three-sides.sheet")),
];

/// Kitchens in which an edit builds on a revoked one: a program without 02's requests answers them otherwise.
const BUILT: [&str; 3] = ["door", "filler", "island"];

fn counted(count: usize, what: &str) -> String {
    format!("{count} {what}{}", if count == 1 { "" } else { "s" })
}

pub fn workloads() -> Vec<Workload> {
    let mut list = Vec::new();
    for rules in [1, 3] {
        let setup = drawn(4, rules, false);
        let body = filled(&setup, &edits(4), 1000);
        list.push(Workload::new(&format!("edit, {}", counted(rules, "rule")), setup, body));
    }
    let setup = drawn(32, 64, false);
    let body = filled(&setup, &edits(32), 1000);
    list.push(Workload::new("edit, 64 rules", setup, body));
    let (setup, body) = cycles(8, 256, 8, 4);
    list.push(Workload::new("joins, 8 sides, 256 edits", setup, body));
    let body = filled("", MALFORMED, 1000);
    list.push(Workload::new("malformed lines", String::new(), body));
    let setup = joining(8, 256);
    let body = filled(&setup, "left\n", 10_000);
    list.push(Workload::new("left, 256 kept edits", setup.clone(), body));
    let body = filled(&setup, &fates(256), 10_000);
    list.push(Workload::new("fate, 256 kept edits", setup, body));
    let mut setup: String = (0..32).map(|m| format!("measure {}\n", [0, 7, -45, 600, -7200, 45_000, 600_000, -1_000_000][m % 8])).collect();
    setup += "open\n";
    let body = filled(&setup, "show 1\n", 1500);
    list.push(Workload::new("show, 32 measures", setup, body));
    list
}

pub fn growth() -> Vec<(&'static str, Vec<Workload>)> {
    let mut rules = Vec::new();
    for count in [0, 1, 4, 16, 64] {
        let setup = drawn(32, count, false);
        let body = filled(&setup, &edits(32), 1000);
        rules.push(Workload::new(&format!("edit, {}", counted(count, "rule")), setup, body));
    }
    let mut names = Vec::new();
    for count in [0, 1, 3, 11, 64] {
        let setup = naming(count);
        let body = filled(&setup, "edit 1 1 0 1 2 10\nedit 1 1 0 1 2 -10\n", 1500);
        names.push(Workload::new(&format!("edit, {} naming its measure", counted(count, "rule")), setup, body));
    }
    // Refused at the last but one check, so that the plan stays as it is.
    let refused = |kept: usize| {
        let client = if kept == 0 { 1 } else { (kept - 1) % 8 + 1 };
        format!("edit 1 {client} {kept} 1 2 1000000\n")
    };
    let mut kept = Vec::new();
    for count in [0, 64, 256] {
        let setup = drawn(8, 4, false) + &parted(8, count.min(255), 1, 8);
        kept.push(Workload::new(&format!("edit naming the last, {} kept", count.min(255)), setup.clone(), filled(&setup, &refused(count.min(255)), 3000)));
    }
    for count in [0, 64, 256] {
        let setup = joining(8, count);
        kept.push(Workload::new(&format!("left, {count} kept"), setup.clone(), filled(&setup, "left\n", 10_000)));
    }
    for count in [0, 64, 256] {
        let setup = joining(8, count);
        kept.push(Workload::new(&format!("fate, {count} kept"), setup.clone(), filled(&setup, &fates(count), 10_000)));
    }
    for count in [0, 64, 256] {
        let (setup, body) = cycles(8, count, 8, 4);
        kept.push(Workload::new(&format!("joins, {count} kept"), setup, body));
    }
    let mut sides = Vec::new();
    for count in [1, 4, 8] {
        let setup = if count == 1 { drawn(8, 4, false) } else { joining(count, 64) };
        let line = format!("edit {count} 1 0 1 2 1000000\n");
        sides.push(Workload::new(&format!("edit, {}", counted(count, "side")), setup.clone(), filled(&setup, &line, 3000)));
    }
    for count in [1, 4, 8] {
        let setup = if count == 1 { drawn(8, 4, false) } else { joining(count, 64) };
        sides.push(Workload::new(&format!("left, {}", counted(count, "side")), setup.clone(), filled(&setup, "left\n", 10_000)));
    }
    for count in [1, 4, 8] {
        let setup = if count == 1 { drawn(8, 4, false) } else { joining(count, 64) };
        sides.push(Workload::new(&format!("show, {}", counted(count, "side")), setup.clone(), filled(&setup, &format!("show {count}\n"), 3000)));
    }
    for count in [2, 4, 8] {
        let (setup, body) = cycles(count, 64, 8, 4);
        sides.push(Workload::new(&format!("joins, {count} sides, 64 edits"), setup, body));
    }
    let mut run = vec![
        Workload::new("an empty sheet", String::new(), String::new()),
        Workload::new("one line", String::new(), "left".into()),
        Workload::new("a plan drawn up, 32 measures, 64 rules", String::new(), drawn(32, 64, false)),
    ];
    for (name, sheet) in KITCHENS.iter().filter(|(name, _)| cfg!(feature = "requests") || !BUILT.contains(name)) {
        run.push(Workload::new(&format!("examples/{name}, {} lines", sheet.lines().count()), String::new(), sheet.to_string()));
    }
    vec![("rules", rules), ("rules that name the measure", names), ("kept edits", kept), ("sides", sides), ("a whole run", run)]
}
