//! Words for cases that the examples do not have. The answers are those that document 01 asks for.

use explain::call::Rule;
use explain::{explain, explain_on, Names, Saved};

/// The sheet and the answers of lines written as `line | answer`.
fn halves(sheet: &str) -> [String; 2] {
    [0, 1].map(|at| sheet.lines().map(|line| format!("{}\n", line.split('|').nth(at).unwrap().trim())).collect())
}

fn without_breaks(page: String) -> String {
    page.split_whitespace().collect::<Vec<_>>().join(" ")
}

/// The page without its line breaks.
fn page(sheet: &str) -> String {
    let [sheet, answers] = halves(sheet);
    without_breaks(explain(sheet.as_bytes(), answers.as_bytes(), Names::default()))
}

/// The same for a sheet on a plan of two measures and a firm rule, whose next edit has this number.
fn page_on(next: i64, sheet: &str) -> String {
    let [sheet, answers] = halves(sheet);
    let plan = Saved { values: vec![-7, 12], rules: vec![Rule { low: 1, gap: -3, high: 2, firm: true }], next };
    without_breaks(explain_on(&plan, sheet.as_bytes(), answers.as_bytes(), Names::default()))
}

#[track_caller]
fn has(page: &str, parts: &[&str]) {
    for part in parts {
        assert!(page.contains(part), "`{part}` is not in {page}");
    }
}

#[track_caller]
fn says(sheet: &str, parts: &[&str]) {
    has(&page(sheet), parts);
}

/// A rule would be broken too, but the range is tested first.
#[test]
fn an_edit_revoked_for_its_range() {
    let sheet = "measure 500000 | ok 1\nmeasure 500000 | ok 2\nrule 1 -600000 2 0 | ok 1\nopen | ok 0\nsplit 1 | ok 2\n\
                 edit 1 1 0 1 3 2 | ok 1\nedit 2 2 0 1 3 2 | ok 2\njoin | ok 0\n\
                 send 1 | ok 1\nsend 2 | ok 1\nreplay 2 | ok 3\nreplay 1 | ok 4\nstop | ok 0\n\
                 confirm 1 | ok 0\nconfirm 2 | ok 0\ninstall | ok 0";
    says(
        sheet,
        &[
            "Revoked: edit 1 by client 1 (side 1), multiply measure 1 by 2. In the joined plan measure 1 would go from \
             100000.0 mm to 200000.0 mm, out of range.",
            "- edit 1 by client 1 (side 1), multiply measure 1 by 2; its result would be out of range",
        ],
    );
}

/// Edit 3 would do on the joined plan, edit 4 would break a rule: neither is tried.
#[test]
fn edits_built_on_a_revoked_one() {
    let sheet = "measure 3 | ok 1\nmeasure 12 | ok 2\nrule 1 1 2 0 | ok 1\nopen | ok 0\nsplit 1 | ok 2\nedit 1 5 0 1 2 1 | ok 1\n\
                 edit 2 6 0 1 3 3 | ok 2\nedit 2 6 2 2 2 5 | ok 3\nedit 2 6 3 1 2 7 | ok 4\nedit 1 5 1 2 2 1 | ok 5\njoin | ok 0\nsend 1 | ok 2\n\
                 send 2 | ok 3\nreplay 1 | ok 3\nreplay 2 | ok 4\nreplay 3 | ok 4\nreplay 4 | ok 4\nreplay 5 | ok 3\nfate 4 | ok 4 4\n\
                 edit 2 6 3 2 2 1 | ok 6\nsend 2 | ok 1\nreplay 6 | ok 4\nstop | ok 0\nconfirm 1 | ok 0\nconfirm 2 | ok 0\n\
                 install | ok 0\nedit 1 6 3 2 2 1 | ok 7";
    let page = page(sheet);
    has(
        &page,
        &[
            "Revoked: edit 3 by client 6 (side 2), add 0.5 mm to measure 2. It builds on edit 2, which was revoked, so it is revoked \
             untried. The joined plan stays as it was.",
            "Revoked: edit 4 by client 6 (side 2), add 0.7 mm to measure 1. It builds on edit 3, which was revoked, so it is revoked",
            "Accepted: edit 5 by client 5 (side 1), add 0.1 mm to measure 2. In the joined plan measure 2 goes from 1.2 mm to 1.3 mm.",
            "add 0.7 mm to measure 1: revoked, number 4 of those settled.",
            "- edit 2 by client 6 (side 2), multiply measure 1 by 3; it would break rule 1 - edit 3 by client 6 (side 2), add 0.5 mm \
             to measure 2; it builds on edit 2, which was revoked - edit 4 by client 6 (side 2), add 0.7 mm to measure 1; it builds on \
             edit 3, which was revoked",
            "from 1.7 mm to 1.8 mm. It builds on edit 3, which was revoked, so it will be revoked too. It comes while the join runs",
            "from 1.3 mm to 1.4 mm. It builds on edit 3. The plan is whole, so that is all.",
        ],
    );
    assert_eq!(page.matches("In the joined plan").count(), 3, "{page}");
}

/// The reason stands in the sheet alone: an answer that the book cannot explain is told as it is.
#[test]
fn an_edit_revoked_for_nothing_known() {
    let sheet = "measure 1 | ok 1\nopen | ok 0\nsplit 1 | ok 2\nedit 2 1 0 1 1 5 | ok 1\njoin | ok 0\nsend 1 | ok 0\nsend 2 | ok 1\n\
                 replay 1 | ok 4\nstop | ok 0\nconfirm 1 | ok 0\nconfirm 2 | ok 0\ninstall | ok 0";
    says(sheet, &["- edit 1 by client 1 (side 2), set measure 1 to 0.5 mm No measure differs from before the split."]);
}

#[test]
fn range_comes_before_rules() {
    let sheet = "measure 0 | ok 1\nmeasure 9 | ok 2\nrule 1 0 2 0 | ok 1\nopen | ok 0\nedit 1 1 0 1 1 5 | ok 1\n\
                 edit 1 1 0 1 2 1000000 | no 28";
    let page = page(sheet);
    assert!(page.contains("would go from 0.5 mm to 100000.5 mm, out of range.") && !page.contains("fails"), "{page}");
}

#[test]
fn several_rules_broken_at_once() {
    let plan =
        "measure 1 | ok 1\nmeasure 9 | ok 2\nrule 1 0 2 0 | ok 1\nrule 1 2 2 0 | ok 2\nrule 1 -9 2 0 | ok 3\nopen | ok 0\n";
    says(
        &format!("{plan}edit 1 1 0 1 1 9 | no 29"),
        &["rule 1 fails: measure 1 must be less than measure 2 (0.9 mm is not less than 0.9 mm); 1 more rule too."],
    );
    let join = "split 1 | ok 2\nedit 1 1 0 1 1 3 | ok 1\nedit 2 2 0 2 1 4 | ok 2\njoin | ok 0\nsend 1 | ok 1\nsend 2 | ok 1\n\
                replay 1 | ok 3\nreplay 2 | ok 4\nstop | ok 0\nconfirm 1 | ok 0\nconfirm 2 | ok 0\ninstall | ok 0";
    says(&format!("{plan}{join}"), &["set measure 2 to 0.4 mm; it would break rule 2"]);
}

#[test]
fn a_join_with_nothing_kept() {
    let sheet = "measure 1 | ok 1\nopen | ok 0\nsplit 1 | ok 2\njoin | ok 0\nsend 1 | ok 0\nsend 2 | ok 0\nstop | ok 0\n\
                 confirm 1 | ok 0\nconfirm 2 | ok 0\ninstall | ok 0";
    says(sheet, &["No edits had been kept. No measure differs from before the split."]);
}

#[test]
fn a_sheet_that_ends_within_a_join() {
    let sheet = "measure 1 | ok 1\nopen | ok 0\nsplit 1 | ok 2\nedit 2 1 0 1 1 5 | ok 1\njoin | ok 0\nsend 1 | ok 0";
    says(
        sheet,
        &["The join is not finished. Still to do: - send: side 2 - replay: edit 1 - stop - confirm: side 1, side 2 - install"],
    );
}

#[test]
fn an_answer_that_does_not_belong() {
    says("open | ok", &["This answer does not belong to this line."]);
    says("opened | ok 0", &["This answer does not belong to this line."]);
    says("open | no 99", &["Refused with 99, a number that has no meaning here."]);
}

#[test]
fn what_was_loaded() {
    let held =
        "- Measure 1 is -0.7 mm. - Measure 2 is 1.2 mm. - Rule 1: measure 1 minus 0.3 mm must be less than measure 2. It is firm";
    let whole = "Loaded: a whole plan with 2 measures and 1 rule. There is one copy of it, side 1.";
    for (next, edits) in [
        (1, "No edit was made on it yet."),
        (2, "The next edit is number 2; no earlier one is kept in the file."),
        (1_000_000, "Edit 999,999 was made on it, and there is none after it."),
    ] {
        has(&page_on(next, "show 1 | ok -7 12"), &[&format!("{whole} {edits} {held}"), "The plan: measure 1 at -0.7 mm"]);
    }
}

#[test]
fn edits_made_before_the_plan_was_saved() {
    let sheet = "fate 3 | ok 0 0\nfate 4 | ok 0 0\nedit 1 5 3 1 2 1 | no 25\nedit 1 5 4 1 2 1 | no 25\nedit 1 5 0 1 2 1 | ok 4";
    has(
        &page_on(4, sheet),
        &[
            "No edit 3 is kept: it was made before the plan was saved.",
            "No edit 4 is kept: it was never made, or before the last split, or on the whole plan.",
            "Edit 3 was made before the plan was saved, and is not kept.",
            "No edit 4 is kept. To whoever",
            "Edit 4 by client 5: add 0.1 mm to measure 1, from -0.7 mm to -0.6 mm.",
        ],
    );
    says("fate 0 | ok 0 0", &["No edit 0 is kept: it was never made"]);
}

#[test]
fn a_loaded_plan_is_joined_with_its_own_rules() {
    let sheet = "split 1 | ok 2\nedit 2 5 0 1 2 1 | no 26\njoin | ok 0\nsend 1 | ok 0\nsend 2 | ok 0\nstop | ok 0\n\
                 confirm 1 | ok 0\nconfirm 2 | ok 0\ninstall | ok 0\nedit 1 5 0 1 1 15 | no 29";
    has(
        &page_on(4, sheet),
        &[
            "Rule 1 is firm: measure 1 minus 0.3 mm",
            "No measure differs from before the split.",
            "(1.2 mm is not less than 1.2 mm)",
        ],
    );
}

#[test]
fn a_sheet_too_long_on_a_loaded_plan() {
    let page = page_on(1, "x | no 52");
    has(&page, &["Loaded: ", "The answer to the whole sheet is no 52.", "run the second on it."]);
    assert!(!page.contains("blank plan"), "{page}");
}
