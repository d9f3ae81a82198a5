//! Prints a sheet with its answers in plain words.
//!
//! explain [--on PLAN] SHEET ANSWERS [NAMES]

#![forbid(unsafe_code)]

use explain::{explain, explain_on, Names, Saved};
use std::env;
use std::fs;
use std::io::{self, Write};
use std::process::ExitCode;

fn main() -> ExitCode {
    match explained(&env::args().skip(1).collect::<Vec<_>>()) {
        Ok(text) => print(&text),
        Err(problem) => {
            eprintln!("explain: {problem}");
            ExitCode::from(2)
        }
    }
}

fn explained(arguments: &[String]) -> Result<String, String> {
    let (plan, arguments) = match arguments {
        [option, plan, rest @ ..] if option == "--on" => (Some(Saved::read(&read(plan)?)), rest),
        _ => (None, arguments),
    };
    let (sheet, answers, names) = match arguments {
        [sheet, answers] => (sheet, answers, Names::default()),
        [sheet, answers, names] => {
            let text = String::from_utf8_lossy(&read(names)?).into_owned();
            (sheet, answers, Names::read(&text).map_err(|problem| format!("{names}: {problem}"))?)
        }
        _ => return Err("usage: explain [--on PLAN] SHEET ANSWERS [NAMES]".to_string()),
    };
    let (sheet, answers) = (read(sheet)?, read(answers)?);
    Ok(match plan {
        None => explain(&sheet, &answers, names),
        Some(plan) => explain_on(&plan, &sheet, &answers, names),
    })
}

/// Fails where not all was written, also where the reader had seen enough, as `head`.
fn print(text: &str) -> ExitCode {
    let mut out = io::stdout();
    match out.write_all(text.as_bytes()).and_then(|()| out.flush()) {
        Ok(()) => ExitCode::SUCCESS,
        Err(error) => {
            eprintln!("explain: the answers cannot be written: {error}");
            ExitCode::FAILURE
        }
    }
}

fn read(path: &str) -> Result<Vec<u8>, String> {
    fs::read(path).map_err(|error| format!("{path}: {error}"))
}
