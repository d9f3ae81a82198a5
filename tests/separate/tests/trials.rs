//! The trials of the specification, each refusal, and the edges of the reader and the screen.

use separate::{answers, run_on, screen_run, Fate, Mode, Plan, Refusal};

/// Runs a table of input and output parted by a bar.
fn table(text: &str) {
    let mut sheet = String::new();
    let mut expected = String::new();
    for row in text.lines().filter(|row| !row.trim().is_empty()) {
        let (left, right) = row.split_once('|').expect("a bar in each row");
        sheet += left.trim();
        sheet += "\n";
        expected += right.trim();
        expected += "\n";
    }
    assert_eq!(text_of(&sheet), expected);
}

fn text_of(sheet: &str) -> String {
    String::from_utf8(answers(sheet.as_bytes())).unwrap()
}

/// The answer to the last line of a sheet.
fn last(sheet: &str) -> String {
    text_of(sheet).lines().last().unwrap_or("").to_string()
}

const PAIR: &str = "measure 3\nmeasure 12\nrule 1 1 2 0\nopen\n";
const FIRM_PAIR: &str = "measure 3\nmeasure 12\nrule 1 1 2 1\nopen\n";
/// The example up to its join, and to both sends.
const TO_JOIN: &str = "measure 3\nmeasure 12\nrule 1 1 2 0\nopen\nsplit 1\nedit 1 5 0 1 2 1\nedit 2 6 0 1 3 3\njoin\n";
const TO_SENT: &str = "measure 3\nmeasure 12\nrule 1 1 2 0\nopen\nsplit 1\nedit 1 5 0 1 2 1\nedit 2 6 0 1 3 3\njoin\n\
                       edit 1 5 1 1 2 3\nsend 1\nsend 2\n";
const EXAMPLE: &str = "
    measure 3            | ok 1
    measure 12           | ok 2
    rule 1 1 2 0         | ok 1
    open                 | ok 0
    split 1              | ok 2
    edit 1 5 0 1 2 1     | ok 1
    edit 2 6 0 1 3 3     | ok 2
    join                 | ok 0
    edit 1 5 1 1 2 3     | ok 3
    send 1               | ok 2
    send 2               | ok 1
    replay 1             | ok 3
    replay 2             | ok 4
    replay 3             | ok 3
    stop                 | ok 0
    confirm 1            | ok 0
    confirm 2            | ok 0
    install              | ok 0
    show 1               | ok 7 12
";

fn after(start: &str, lines: &str) -> String {
    last(&format!("{start}{lines}"))
}

#[test]
fn p1_example_in_full() {
    table(EXAMPLE);
}

#[test]
fn p2_largest_measure() {
    table("
        measure 1000000  | ok 1
        measure 1000001  | no 11
        measure -1000000 | ok 2
        measure -1000001 | no 11
    ");
}

#[test]
fn p3_rule_on_one_measure() {
    assert_eq!(last("measure 1\nmeasure 2\nrule 1 0 1 0\n"), "no 14");
}

#[test]
fn p4_division_drops_the_fraction() {
    assert_eq!(last("measure -7\nopen\nedit 1 1 0 1 4 2\nshow 1\n"), "ok -3");
    assert_eq!(last("measure 7\nopen\nedit 1 1 0 1 4 -2\nshow 1\n"), "ok -3");
}

#[test]
fn p5_rule_at_its_edge() {
    assert_eq!(after(PAIR, "edit 1 1 0 1 1 10\n"), "ok 1");
    assert_eq!(after(PAIR, "edit 1 1 0 1 1 11\n"), "no 29");
}

#[test]
fn p6_firm_measure_is_frozen_when_split() {
    assert_eq!(after(FIRM_PAIR, "edit 1 1 0 1 1 4\n"), "ok 1");
    assert_eq!(after(FIRM_PAIR, "split 1\nedit 1 1 0 1 1 4\n"), "no 26");
    assert_eq!(after(FIRM_PAIR, "split 1\nedit 2 1 0 2 1 13\n"), "no 26");
}

#[test]
fn p7_earlier_edit_of_another_client() {
    assert_eq!(after(TO_JOIN, "edit 2 6 1 1 2 1\n"), "no 25");
}

#[test]
fn p8_earlier_edit_first() {
    let lines = "split 1\nedit 1 5 0 1 2 1\nedit 2 5 1 1 2 1\njoin\nsend 1\nsend 2\nreplay 2\n";
    assert_eq!(after(PAIR, lines), "no 36");
}

#[test]
fn p9_empty_first_log() {
    assert_eq!(after(PAIR, "split 1\njoin\nsend 1\n"), "ok 0");
    assert_eq!(after(PAIR, "split 1\njoin\nsend 1\nsend 1\n"), "no 33");
}

#[test]
fn p10_stop_too_early() {
    assert_eq!(after(TO_JOIN, "stop\n"), "no 34");
    assert_eq!(after(TO_JOIN, "send 1\nstop\n"), "no 34");
    assert_eq!(after(TO_JOIN, "send 1\nsend 2\nstop\n"), "no 37");
}

#[test]
fn p11_unsent_edit_behind_a_stop() {
    table("
        measure 3        | ok 1
        measure 12       | ok 2
        open             | ok 0
        split 1          | ok 2
        join             | ok 0
        send 1           | ok 0
        send 2           | ok 0
        edit 1 5 0 1 2 1 | ok 1
        stop             | ok 0
        confirm 1        | no 38
        send 1           | ok 1
        confirm 1        | ok 0
        confirm 2        | ok 0
        install          | no 37
        replay 1         | ok 3
        install          | ok 0
        show 1           | ok 4 12
    ");
}

#[test]
fn p12_left() {
    assert_eq!(after(TO_JOIN, "left\n"), "ok 8");
    assert_eq!(after(TO_JOIN, "edit 1 5 1 1 2 3\nleft\n"), "ok 9");
}

#[test]
fn seventh_and_eighth_split() {
    assert_eq!(after(PAIR, &"split 1\n".repeat(7)), "ok 8");
    assert_eq!(after(PAIR, &"split 1\n".repeat(8)), "no 32");
}

#[test]
fn last_kept_edit() {
    let lines = format!("split 1\n{}", "edit 2 1 0 1 1 1\n".repeat(256));
    assert_eq!(after(PAIR, &lines), "ok 256");
    assert_eq!(after(PAIR, &format!("{lines}edit 1 1 0 1 1 1\n")), "no 27");
    assert_eq!(after(PAIR, &format!("{lines}join\nedit 1 1 0 1 1 1\n")), "no 27");
    assert_eq!(after(PAIR, &format!("{lines}edit 1 1 0 1 1 1000001\n")), "no 24");
}

#[test]
fn last_number() {
    let mut plan = Plan::new();
    plan.measure(0).unwrap();
    plan.open().unwrap();
    for n in 1..=999_999 {
        assert_eq!(plan.edit(1, 1, 0, 1, 1, n as i32), Ok(n));
    }
    assert_eq!(plan.edit(1, 1, 0, 1, 1, 0), Err(Refusal::NumbersUsedUp));
    assert_eq!(plan.edit(1, 1, 0, 1, 2, 2), Err(Refusal::NumbersUsedUp));
    assert_eq!(plan.edit(1, 1, 1, 1, 1, 0), Err(Refusal::Earlier));
    assert_eq!(plan.split(1), Ok(2));
    assert_eq!(plan.edit(2, 1, 0, 1, 1, 0), Err(Refusal::NumbersUsedUp));
    assert_eq!(plan.fate(999_999), (Fate::NotKept, 0));
}

#[test]
fn number_999_999_can_be_kept() {
    let mut plan = Plan::new();
    plan.measure(0).unwrap();
    plan.open().unwrap();
    for _ in 1..999_999 {
        plan.edit(1, 1, 0, 1, 1, 0).unwrap();
    }
    plan.split(1).unwrap();
    assert_eq!(plan.edit(2, 1, 0, 1, 1, 7), Ok(999_999));
    assert_eq!(plan.edit(2, 1, 999_999, 1, 1, 8), Err(Refusal::NumbersUsedUp));
    assert_eq!(plan.fate(999_999), (Fate::Unsent, 0));
    plan.join().unwrap();
    plan.send(1).unwrap();
    plan.send(2).unwrap();
    assert_eq!(plan.replay(999_999), Ok(Fate::Accepted));
}

#[test]
fn refusals_of_drawing() {
    table("
        open                   | no 16
        rule 1 0 2 0           | no 14
        measure 5              | ok 1
        rule 1 0 2 0           | no 14
        measure 5              | ok 2
        rule 0 0 2 0           | no 14
        rule 1 0 3 0           | no 14
        rule 2 3000000 2 7     | no 14
        rule 1 2000001 2 0     | no 15
        rule 1 -2000001 2 0    | no 15
        rule 1 0 2 2           | no 15
        rule 1 0 2 -1          | no 15
        rule 1 -2000000 2 1    | ok 1
        rule 1 -2000000 2 1    | ok 2
        rule 1 2000000 2 0     | ok 3
        open                   | no 17
        measure 6              | ok 3
    ");
    assert_eq!(last("measure 1\nmeasure 1\nrule 1 0 2 0\nopen\n"), "no 17");
    assert_eq!(last(&"measure 0\n".repeat(32)), "ok 32");
    assert_eq!(last(&"measure 0\n".repeat(33)), "no 12");
    assert_eq!(last(&format!("{}measure 1000001\n", "measure 0\n".repeat(32))), "no 12");
    let drawn = "measure 0\nmeasure 1\n";
    assert_eq!(after(drawn, &"rule 1 0 2 0\n".repeat(64)), "ok 64");
    assert_eq!(after(drawn, &"rule 1 0 2 0\n".repeat(65)), "no 13");
    assert_eq!(after(drawn, &format!("{}rule 1 0 1 0\n", "rule 1 0 2 0\n".repeat(64))), "no 13");
}

#[test]
fn refusals_of_an_edit_in_their_order() {
    for (lines, answer) in [
        ("edit 2 0 9 3 0 0", "no 21"),
        ("edit 0 0 9 3 0 0", "no 21"),
        ("edit -1 0 9 3 0 0", "no 21"),
        ("edit 1 0 9 3 0 0", "no 22"),
        ("edit 1 1000 9 3 0 0", "no 22"),
        ("edit 1 -1 9 3 0 0", "no 22"),
        ("edit 1 999 9 3 0 0", "no 23"),
        ("edit 1 999 9 0 0 0", "no 23"),
        ("edit 1 1 9 1 0 0", "no 24"),
        ("edit 1 1 9 1 5 1", "no 24"),
        ("edit 1 1 9 1 1 1000001", "no 24"),
        ("edit 1 1 9 1 2 -1000001", "no 24"),
        ("edit 1 1 9 1 3 0", "no 24"),
        ("edit 1 1 9 1 3 11", "no 24"),
        ("edit 1 1 9 1 4 0", "no 24"),
        ("edit 1 1 9 1 4 -11", "no 24"),
        ("edit 1 1 9 1 2 1000000", "no 25"),
        ("edit 1 1 -1 1 2 1000000", "no 25"),
        ("edit 1 1 0 1 2 1000000", "no 28"),
        ("edit 1 1 0 2 1 4", "no 29"),
        ("edit 1 1 0 2 1 5", "ok 1"),
        ("edit 1 1 0 1 1 -1000000", "ok 1"),
    ] {
        assert_eq!(after(PAIR, lines), answer, "{lines}");
    }
    assert_eq!(after(FIRM_PAIR, "split 1\nedit 1 1 1 1 2 1000000\n"), "no 25");
    assert_eq!(after(FIRM_PAIR, "split 1\nedit 1 1 0 1 2 1000000\n"), "no 26");
}

#[test]
fn earlier_edits() {
    // An edit of a whole plan is not kept.
    assert_eq!(after(PAIR, "edit 1 1 0 1 1 4\nedit 1 1 1 1 1 5\n"), "no 25");
    assert_eq!(after(PAIR, "edit 1 1 0 1 1 4\nsplit 1\nedit 1 1 1 1 1 5\n"), "no 25");
    // An unsent edit of the split is replied; one of the join is not until it is sent.
    assert_eq!(after(PAIR, "split 1\nedit 1 1 0 1 1 4\nedit 2 1 1 1 1 5\n"), "ok 2");
    assert_eq!(after(TO_JOIN, "edit 1 5 0 1 2 1\nedit 1 5 3 1 2 1\n"), "no 25");
    assert_eq!(after(TO_JOIN, "edit 1 5 0 1 2 1\nsend 1\nedit 1 5 3 1 2 1\n"), "ok 4");
    // A revoked edit may be named, and after an install too, until the next split.
    assert_eq!(after(TO_SENT, "replay 1\nreplay 2\nedit 2 6 2 1 2 1\n"), "ok 4");
    let installed = format!("{TO_SENT}replay 1\nreplay 2\nreplay 3\nstop\nconfirm 1\nconfirm 2\ninstall\n");
    assert_eq!(after(&installed, "edit 1 6 2 1 2 1\n"), "ok 4");
    assert_eq!(after(&installed, "edit 1 6 1 1 2 1\n"), "no 25");
    assert_eq!(after(&installed, "edit 1 6 0 1 2 1\nedit 1 6 4 1 2 1\n"), "no 25");
    assert_eq!(after(&installed, "fate 2\n"), "ok 4 2");
    assert_eq!(after(&installed, "split 2\nfate 2\n"), "ok 4 2");
    assert_eq!(after(&installed, "split 1\nfate 2\n"), "ok 0 0");
    assert_eq!(after(&installed, "split 1\nedit 1 6 2 1 2 1\n"), "no 25");
    assert_eq!(after(&installed, "split 1\nedit 1 6 0 1 2 1\n"), "ok 4");
}

/// Edit 2 is revoked. Edit 3, built on it, would do; edit 4 is built on edit 3, edit 6 on edit 2; edit 5 is built on an accepted edit.
#[test]
fn edits_built_on_a_revoked_one() {
    table(&format!("{}{}", EXAMPLE.split("    join").next().unwrap(), "
        edit 2 6 2 2 2 5     | ok 3
        edit 2 6 3 2 2 5     | ok 4
        edit 1 5 1 2 2 1     | ok 5
        join                 | ok 0
        send 1               | ok 2
        send 2               | ok 3
        replay 1             | ok 3
        replay 2             | ok 4
        replay 4             | no 36
        left                 | ok 7
        replay 3             | ok 4
        left                 | ok 6
        edit 2 6 2 2 2 5     | ok 6
        left                 | ok 8
        replay 4             | ok 4
        replay 5             | ok 3
        send 2               | ok 1
        replay 6             | ok 4
        left                 | ok 4
        fate 3               | ok 4 3
        fate 4               | ok 4 4
        fate 5               | ok 3 5
        fate 6               | ok 4 6
        stop                 | ok 0
        confirm 1            | ok 0
        confirm 2            | ok 0
        install              | ok 0
        show 1               | ok 4 13
        edit 1 6 3 2 2 5     | ok 7
        show 1               | ok 4 18
    "));
    // Revoked for its range alone.
    let lines = "measure 500000\nmeasure 0\nopen\nsplit 1\nedit 1 5 0 1 3 2\nedit 2 6 0 1 3 2\nedit 2 6 2 2 2 1\n\
                 join\nsend 1\nsend 2\nreplay 1\nreplay 2\nreplay 3\n";
    assert_eq!(text_of(lines).lines().rev().take(3).collect::<Vec<_>>(), ["ok 4", "ok 4", "ok 3"]);
}

/// A blank plan with these measures and these soft rules, each as a, c and b.
fn drawn(values: &[i32], rules: &[[i32; 3]]) -> Plan {
    let mut plan = Plan::new();
    for &value in values {
        plan.measure(value).unwrap();
    }
    for &[a, c, b] in rules {
        plan.rule(a, c, b, 0).unwrap();
    }
    plan
}

/// The numbers of the rules that the values break, in rising order.
fn broken(values: &[i32], rules: &[[i32; 3]]) -> Vec<u32> {
    let value = |m: i32| values[m as usize - 1];
    (1..).zip(rules).filter(|(_, &[a, c, b])| value(a) + c >= value(b)).map(|(number, _)| number).collect()
}

/// The values with another one of measure m.
fn changed(values: &[i32], m: i32, value: i32) -> Vec<i32> {
    let mut changed = values.to_vec();
    changed[m as usize - 1] = value;
    changed
}

/// Whether the walk over the rules gives the number where measure m gets the value, in a drawing that is opened and in an edit. The
/// answers say no more than whether a rule is broken.
fn walk_gives(number: u32, values: &[i32], rules: &[[i32; 3]], m: i32, value: i32) {
    let mut plan = drawn(&changed(values, m, value), rules);
    assert_eq!(plan.broken_as_drawn(), number, "measure {m} drawn as {value}");
    assert_eq!(plan.open(), if number == 0 { Ok(()) } else { Err(Refusal::RuleFails) });
    let mut plan = drawn(values, rules);
    plan.open().unwrap();
    assert_eq!(plan.broken_rule(1, m, value), number, "measure {m} set to {value}");
    assert_eq!(plan.edit(1, 1, 0, m, 1, value), if number == 0 { Ok(1) } else { Err(Refusal::RuleBroken) });
}

/// 02, S-3, worked out by hand.
#[test]
fn last_drawn_of_the_broken_rules() {
    let values = [100, 200, 300];
    let rules = [[3, -400, 1], [1, 50, 2], [1, 0, 3], [1, 150, 3], [2, 0, 3]];
    for (m, value, number) in [
        (1, -100, 1),
        (1, -99, 0),
        (1, 149, 0),
        (1, 150, 4), // and 2
        (1, 300, 4), // and 2, 3
        (2, 150, 2),
        (2, 151, 0),
        (2, 299, 0),
        (2, 300, 5),
        (3, 100, 5), // and 3, 4
        (3, 200, 5), // and 4
        (3, 250, 4),
        (3, 251, 0),
        (3, 499, 0),
        (3, 500, 1),
    ] {
        walk_gives(number, &values, &rules, m, value);
    }
    // Only a drawing can break rules that have no measure in common.
    let mut plan = drawn(&[5, 5, 5, 5], &[[3, -1, 4], [1, 0, 2], [3, 0, 4], [1, -1, 2]]);
    assert_eq!((plan.broken_as_drawn(), plan.open()), (3, Err(Refusal::RuleFails)));
    // Nothing is tested: no side yet, then no such side or measure, and values out of range.
    let mut plan = drawn(&values, &rules);
    assert_eq!(plan.broken_rule(1, 1, 150), 0);
    plan.open().unwrap();
    for (s, m, value) in [(0, 1, 150), (2, 1, 150), (1, 0, 150), (1, 4, 150), (1, 1, 1_000_001), (1, 1, i32::MIN)] {
        assert_eq!(plan.broken_rule(s, m, value), 0, "side {s}, measure {m} to {value}");
    }
    // A side is tested by its own values.
    plan.split(1).unwrap();
    plan.edit(2, 1, 0, 2, 1, 299).unwrap();
    assert_eq!([1, 2].map(|s| plan.broken_rule(s, 3, 280)), [0, 5]);
}

/// Xorshift: 0 to n - 1.
fn below(state: &mut u64, n: i32) -> i32 {
    *state ^= *state << 13;
    *state ^= *state >> 7;
    *state ^= *state << 17;
    (*state >> 33) as i32 % n
}

/// 02, S-3: of all broken rules the highest number, on random plans that hold.
#[test]
fn highest_number_of_a_broken_rule() {
    let mut state = 1;
    let mut random = |n| below(&mut state, n);
    // Changes that break no rule, one, and several.
    let mut met = [0; 3];
    for _ in 0..1_000 {
        let measures = 2 + random(4);
        let values: Vec<i32> = (0..measures).map(|_| random(100)).collect();
        let count = random(65);
        let rules: Vec<[i32; 3]> = (0..count)
            .map(|_| {
                let a = random(measures);
                let b = (a + 1 + random(measures - 1)) % measures;
                let room = random(40);
                [a + 1, values[b as usize] - values[a as usize] - 1 - room, b + 1]
            })
            .collect();
        for _ in 0..20 {
            let (m, value) = (1 + random(measures), random(200) - 50);
            let broken = broken(&changed(&values, m, value), &rules);
            met[broken.len().min(2)] += 1;
            walk_gives(broken.into_iter().max().unwrap_or(0), &values, &rules, m, value);
        }
    }
    assert!(met.iter().all(|&count| count > 1_000), "{met:?}");
}

/// Makes one call of a sheet on a plan and gives its answer.
fn made(plan: &mut Plan, call: &str) -> String {
    let mut area = [0; 32];
    let given = run_on(plan, call.as_bytes(), &mut area);
    String::from_utf8_lossy(&area[..given as usize / 2]).trim_end().to_string()
}

/// Whether the earlier edit of a kept one was revoked.
fn built_on_revoked(plan: &Plan, n: i32) -> bool {
    plan.kept_edit(n).is_some_and(|edit| plan.fate(edit.earlier).0 == Fate::Revoked)
}

/// The rule that a call breaks which gets this answer, 0 if none (02, S-3). An edit that is refused for another reason, a refused
/// replay, and one of an edit built on a revoked one (02, S-2) are not tested.
fn rule_behind(answer: &str, plan: &Plan, call: &str) -> u32 {
    let mut words = call.split(' ');
    let name = words.next();
    let numbers: Vec<i32> = words.map(|word| word.parse().unwrap()).collect();
    let tested = answer.starts_with("ok ") || answer == "no 29";
    let broken = match (name, &numbers[..]) {
        (Some("edit"), &[s, _, _, m, kind, constant]) if tested => plan.broken_by_edit(s, m, kind, constant),
        (Some("replay"), &[n]) if tested && !built_on_revoked(plan, n) => plan.broken_by_replay(n),
        _ => Vec::new(),
    };
    broken.first().copied().unwrap_or(0)
}

/// Makes the call of a stored line so many times, and holds the last answer and the rule behind it against the stored ones.
fn hold(plan: &mut Plan, line: &str, times: u32, rule: u32) {
    let (call, answer) = line.split_once("  ").expect("an answer behind each call");
    for _ in 1..times {
        made(plan, call);
    }
    assert_eq!(rule_behind(answer, plan, call), rule, "the rule of {line}");
    assert_eq!(made(plan, call), answer, "{call}");
}

fn number_at_end(line: &str) -> u32 {
    line.rsplit(' ').next().unwrap().parse().unwrap()
}

/// What the proved program answered and which rule it named (02, S-3), which no answer says. Its source tells how the lines are read.
#[test]
fn stored_trials() {
    let stored = std::fs::read_to_string(concat!(env!("CARGO_MANIFEST_DIR"), "/../../crates/trials/stdout")).unwrap();
    let mut lines = stored.lines().peekable();
    let mut plan = Plan::new();
    let mut times = 1;
    // The rules of edits and of replays.
    let mut named = [0; 2];
    while let Some(line) = lines.next() {
        if line.starts_with('*') {
            times = number_at_end(line);
            continue;
        }
        if line.starts_with('#') {
            plan = Plan::new();
        } else if line.starts_with("show ") {
            // Its buffer.
            lines.next();
        } else {
            let rule = lines.next_if(|next| next.starts_with("  rule ")).map_or(0, number_at_end);
            hold(&mut plan, line, times, rule);
            named[line.starts_with("replay ") as usize] += (rule != 0) as u32;
        }
        times = 1;
    }
    assert!(named[0] + named[1] >= 10 && named[1] >= 1, "{named:?}");
}

#[test]
fn refusals_of_the_join_in_their_order() {
    table(&format!("{}{}", EXAMPLE.split("    stop").next().unwrap(), "
        replay 3   | no 35
        replay 0   | no 35
        replay -1  | no 35
        replay 4   | no 35
        send 3     | no 21
        send 1     | no 33
        confirm 1  | no 31
        install    | no 31
        fate 1     | ok 3 1
        fate 2     | ok 4 2
        fate 3     | ok 3 3
        fate 4     | ok 0 0
        stop       | ok 0
        stop       | no 31
        edit 1 5 0 1 2 1 | no 31
        install    | no 40
        confirm 3  | no 21
        confirm 1  | ok 0
        confirm 1  | no 39
        install    | no 40
        confirm 2  | ok 0
        left       | ok 1
        install    | ok 0
        left       | ok 0
        show 2     | no 21
    "));
    assert_eq!(after(TO_JOIN, "replay 9\n"), "no 34");
    assert_eq!(after(TO_JOIN, "send 1\nreplay 1\n"), "no 34");
}

#[test]
fn calls_of_another_mode() {
    for lines in ["split 9", "edit 9 9 9 9 9 9", "join", "send 9", "replay 9", "stop", "confirm 9", "install", "show 9"] {
        assert_eq!(last(lines), "no 31", "{lines}");
    }
    assert_eq!(text_of("fate 1\nleft\n"), "ok 0 0\nok 0\n");
    for lines in ["measure 1000001", "rule 9 9 9 9", "open", "join", "send 1", "replay 1", "stop", "confirm 1", "install"] {
        assert_eq!(after(PAIR, lines), "no 31", "{lines}");
    }
    for lines in ["measure 1", "rule 1 0 2 0", "open", "send 1", "replay 1", "stop", "confirm 1", "install"] {
        assert_eq!(after(PAIR, &format!("split 1\n{lines}")), "no 31", "{lines}");
    }
    for lines in ["measure 1", "rule 1 0 2 0", "open", "split 1", "join", "confirm 1", "install"] {
        assert_eq!(after(TO_SENT, lines), "no 31", "{lines}");
    }
}

#[test]
fn flags_and_places_start_again_in_each_join() {
    let again = "split 1\njoin\nleft\nreplay 1\nstop\nsend 1\nsend 2\nstop\ninstall\nconfirm 1\n";
    let closed = format!("{TO_SENT}replay 2\nreplay 1\nreplay 3\nstop\nconfirm 1\nconfirm 2\ninstall\n");
    let expected = "ok 2\nok 0\nok 6\nno 34\nno 34\nok 0\nok 0\nok 0\nno 40\nok 0\n";
    assert!(text_of(&format!("{closed}{again}")).ends_with(expected));
    let places = "split 1\nedit 2 1 0 1 2 -1\njoin\nsend 2\nsend 1\nreplay 4\nfate 4\n";
    assert!(text_of(&format!("{closed}{places}")).ends_with("ok 4\nok 0\nok 1\nok 0\nok 3\nok 3 1\n"));
}

#[test]
fn a_later_split_copies_values_and_no_edits() {
    let lines = "split 1\nedit 2 1 0 1 1 5\nsplit 2\njoin\nsend 3\nsend 2\nsend 1\nreplay 1\nstop\nshow 3\n";
    assert!(text_of(&format!("{PAIR}{lines}")).ends_with("ok 3\nok 0\nok 0\nok 1\nok 0\nok 3\nok 0\nok 5 12\n"));
}

#[test]
fn unreadable_lines() {
    for line in [
        "", " ", "open ", " open", "open 1", "opens", "ope", "OPEN", "measure", "measure ", "measure  1", "measure 1 ", "measure 1 2",
        "measure -0", "measure 00", "measure 01", "measure -01", "measure +1", "measure -", "measure --1", "measure 1-",
        "measure 1234567890", "measure -1234567890", "measure 0000000000", "measure 1\t", "measure\t1", "measure 1\r", "\r",
        "measure 1\0", "\0", "measure1", "measure 1.0", "measure 0x1", "rule 1 2 3", "rule 1 2 3 4 5", "edit 1 2 3 4 5",
        "edit 1 2 3 4 5 6 7", "left 0", "replays 1 2", "run 1 2 3", "clear 1", "show", "fate", "fate 1 2",
    ] {
        assert_eq!(text_of(&format!("{line}\n")), "no 51\n", "{line:?}");
        assert_eq!(text_of(&format!("{line}\nleft")), "no 51\nok 0\n", "{line:?}");
    }
    assert_eq!(text_of("measure 999999999\nmeasure -999999999\nmeasure 0\n"), "no 11\nno 11\nok 1\n");
    assert_eq!(answers(b"left\xff\nleft\n"), b"no 51\nok 0\n");
}

#[test]
fn line_ends() {
    assert_eq!(text_of(""), "");
    assert_eq!(text_of("\n"), "no 51\n");
    assert_eq!(text_of("\n\n"), "no 51\nno 51\n");
    assert_eq!(text_of("left"), "ok 0\n");
    assert_eq!(text_of("left\n"), "ok 0\n");
    assert_eq!(text_of("left\r\nleft\n"), "no 51\nok 0\n");
    assert_eq!(text_of("left\n\nleft\n"), "ok 0\nno 51\nok 0\n");
}

#[test]
fn sheet_length() {
    let mut sheet = "left\n".repeat(13_107);
    sheet += "\n";
    assert_eq!(sheet.len(), 65_536);
    assert_eq!(text_of(&sheet), format!("{}no 51\n", "ok 0\n".repeat(13_107)));
    sheet += "\n";
    assert_eq!(text_of(&sheet), "no 52\n");
    for (length, given) in [(0, 1), (5, 1), (6, 12), (7, 12)] {
        let mut area = vec![b'#'; length];
        assert_eq!(screen_run(sheet.as_bytes(), &mut area), given);
        let mut expected = if given == 12 { b"no 52\n".to_vec() } else { Vec::new() };
        expected.resize(length, b'#');
        assert_eq!(area, expected);
    }
}

#[test]
fn screen_at_every_length() {
    let sheet = format!("{TO_SENT}show 1\nfate 1\nleft\nbad\nreplay 1\nshow 2\n");
    let all = text_of(&sheet);
    for length in 0..all.len() + 9 {
        let mut area = vec![b'#'; length];
        let given = screen_run(sheet.as_bytes(), &mut area);
        // The whole lines that fit.
        let fitting = all.bytes().take(length).collect::<Vec<u8>>();
        let used = fitting.iter().rposition(|&b| b == b'\n').map_or(0, |at| at + 1);
        assert_eq!(given, 2 * used as u64 + (used < all.len()) as u64);
        assert_eq!(&area[..used], &all.as_bytes()[..used]);
        assert!(area[used..].iter().all(|&b| b == b'#'));
    }
}

#[test]
fn no_shorter_answer_is_tried() {
    let mut area = [b'#'; 9];
    assert_eq!(screen_run(b"left\nbad\nleft\n", &mut area), 11);
    assert_eq!(&area, b"ok 0\n####");
    assert_eq!(screen_run(b"", &mut area), 0);
    assert_eq!(screen_run(b"", &mut []), 0);
    assert_eq!(screen_run(b"left", &mut []), 1);
}

#[test]
fn show_lends_an_area() {
    let mut plan = Plan::new();
    let mut area = [9; 3];
    assert_eq!(plan.show(1, &mut area), Err(Refusal::WrongMode));
    plan.measure(-4).unwrap();
    plan.measure(5).unwrap();
    plan.open().unwrap();
    assert_eq!(plan.mode(), Mode::Whole);
    assert_eq!(plan.show(2, &mut area), Err(Refusal::NoSide));
    assert_eq!(plan.show(2, &mut area[..1]), Err(Refusal::NoSide));
    assert_eq!(plan.show(1, &mut area[..1]), Err(Refusal::AreaShort));
    assert_eq!(area, [9; 3]);
    assert_eq!(plan.show(1, &mut area[..2]).unwrap(), [-4, 5]);
    assert_eq!(plan.show(1, &mut area).unwrap(), [-4, 5]);
    assert_eq!(area, [-4, 5, 9]);
}
