//! Runs the counter program on a sheet through pipes and compares its whole output.

use crate::random::Random;
use crate::watched::LIMIT;
use std::io::{Read, Write};
use std::process::{Command, Stdio};
use std::thread;
use std::time::{Duration, Instant};

/// The sheet goes in by pieces of random length, so that a read can come back short.
pub fn check(program: &str, random: &mut Random, sheet: &[u8]) -> Result<(), String> {
    let mut child = Command::new(program)
        .stdin(Stdio::piped())
        .stdout(Stdio::piped())
        .spawn()
        .map_err(|error| format!("{program} does not start: {error}"))?;
    let mut input = child.stdin.take().ok_or("no standard input")?;
    let bytes = sheet.to_vec();
    let longest = random.pick(&[7, 4_096, 10_000, 1_000_000]);
    let mut lengths = Random::item(random.next(), 0);
    let writer = thread::spawn(move || {
        let mut rest = &bytes[..];
        let mut pieces = 0;
        while !rest.is_empty() {
            pieces += 1;
            let length = if pieces > 200 { rest.len() } else { (1 + lengths.below(longest)).min(rest.len()) };
            // The program may stop reading a sheet that is too long.
            if input.write_all(&rest[..length]).is_err() {
                break;
            }
            rest = &rest[length..];
        }
    });
    let mut output = child.stdout.take().ok_or("no standard output")?;
    let reader = thread::spawn(move || {
        let mut bytes = Vec::new();
        output.read_to_end(&mut bytes).map(|_| bytes)
    });
    let start = Instant::now();
    let status = loop {
        if let Some(status) = child.try_wait().map_err(|error| error.to_string())? {
            break status;
        }
        if start.elapsed() > LIMIT {
            // Not left behind by the test.
            child.kill().and_then(|()| child.wait()).map_err(|error| error.to_string())?;
            return Err(format!("the counter program has not ended in {} seconds", LIMIT.as_secs()));
        }
        thread::sleep(Duration::from_micros(200));
    };
    writer.join().map_err(|_| "the writer failed")?;
    let output = reader.join().map_err(|_| "the reader failed")?.map_err(|error| error.to_string())?;
    let expected = separate::answers(sheet);
    if output != expected {
        let at = output.iter().zip(&expected).take_while(|(a, b)| a == b).count();
        return Err(format!("{} bytes from the counter program, {} expected; byte {at} differs", output.len(), expected.len()));
    }
    if !status.success() {
        return Err(format!("the counter program ends with {status}"));
    }
    Ok(())
}
