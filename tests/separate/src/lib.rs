//! A second implementation of the plan, saved plans, the sheet program and the screen, written from the specification
//! alone. It is compared with the proved library, and it is the baseline for speed.

#![forbid(unsafe_code)]

mod file;
mod plan;
mod sheet;

pub use file::{screen_load, screen_save, screen_save_on, SLOT, SLOT_LIMIT};
pub use plan::{Edit, Fate, Mode, Plan, Refusal};
pub use plan::{KEPT_LIMIT, LAST_NUMBER, MEASURE_LIMIT, RULE_LIMIT, SIDE_LIMIT};
pub use sheet::{answers, run_on, screen_run, SHEET_LIMIT};
