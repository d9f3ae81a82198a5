//! Says in plain words what the proved program answered to a sheet. It decides nothing: what was accepted, refused or revoked
//! is read off the answers, and the values it speaks of are worked out from accepted lines alone, as 01, "The book", does.

#![forbid(unsafe_code)]

pub mod book;
pub mod call;
mod layout;
mod names;
mod phrases;
pub mod refusals;
mod refused;
mod saved;
mod words;

pub use names::Names;
pub use saved::Saved;

use layout::Page;
use words::Teller;

/// The whole sheet, each line with its answer and what it means.
pub fn explain(sheet: &[u8], answers: &[u8], names: Names) -> String {
    told(Page::new(), Teller::new(names), sheet, answers)
}

/// The same for a sheet on a saved plan, behind what the plan holds.
pub fn explain_on(plan: &Saved, sheet: &[u8], answers: &[u8], names: Names) -> String {
    let teller = Teller::on(plan, names);
    let mut page = Page::new();
    page.note(&teller.loaded());
    page.gap();
    told(page, teller, sheet, answers)
}

fn told(mut page: Page, mut teller: Teller, sheet: &[u8], answers: &[u8]) -> String {
    let answers = lines(answers);
    // 52 is the one answer to a whole sheet, of which no line was run.
    if answers.first().is_some_and(|answer| *answer == b"no 52") {
        page.note(&teller.too_long());
        return page.text();
    }
    page.heading();
    for (at, line) in lines(sheet).into_iter().enumerate() {
        let answer = answers.get(at).copied();
        page.row(at + 1, line, answer.unwrap_or(b"-"), &teller.tell(line, answer));
    }
    page.note(&teller.end());
    page.text()
}

/// A last line without a line feed counts (01, "The sheet program").
pub fn lines(bytes: &[u8]) -> Vec<&[u8]> {
    let mut lines: Vec<&[u8]> = bytes.split(|&byte| byte == b'\n').collect();
    if lines.last().is_some_and(|last| last.is_empty()) {
        lines.pop();
    }
    lines
}
