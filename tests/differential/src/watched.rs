//! The library's entries under a watch: a call that does not come back, as on a chain that goes in a circle (02, S-1), ends the test
//! with a failure.

use std::process;
use std::sync::atomic::{AtomicU64, Ordering};
use std::sync::Mutex;
use std::thread;
use std::time::Duration;

/// Longest time of one call, and of one run of the counter program.
pub const LIMIT: Duration = Duration::from_secs(10);

/// The watch counts its own looks and not the time, so that a test that is stopped for a while is not a failure.
const LOOKS: u32 = 40;

/// Calls begun and calls ended: odd while one is under way.
static CALLS: AtomicU64 = AtomicU64::new(0);

/// The case that the calls belong to.
static CASE: Mutex<String> = Mutex::new(String::new());

/// Begins the watch, which ends with the test.
pub fn begin(seed: u64) {
    thread::spawn(move || {
        let mut seen = 0;
        let mut looks = 0;
        while looks < LOOKS {
            thread::sleep(LIMIT / LOOKS);
            let calls = CALLS.load(Ordering::SeqCst);
            looks = if calls % 2 == 1 && calls == seen { looks + 1 } else { 0 };
            seen = calls;
        }
        let case = CASE.lock().map_or_else(|_| "a case".into(), |case| case.clone());
        println!("seed {seed}, {case}: a call of the library has not come back in {} seconds", LIMIT.as_secs());
        process::exit(1)
    });
}

/// Names the case to which the next calls belong.
pub fn case(name: &str) {
    if let Ok(mut case) = CASE.lock() {
        name.clone_into(&mut case);
    }
}

fn call(make: impl FnOnce() -> u64) -> u64 {
    CALLS.fetch_add(1, Ordering::SeqCst);
    let given = make();
    CALLS.fetch_add(1, Ordering::SeqCst);
    given
}

pub fn screen_run(sheet: &[u8], area: &mut [u8]) -> u64 {
    call(|| library::screen_run(sheet, area))
}

pub fn screen_load(file: &[u8], sheet: &[u8], area: &mut [u8]) -> u64 {
    call(|| library::screen_load(file, sheet, area))
}

pub fn screen_save(sheet: &[u8], area: &mut [u8]) -> u64 {
    call(|| library::screen_save(sheet, area))
}

pub fn screen_save_on(file: &[u8], sheet: &[u8], area: &mut [u8]) -> u64 {
    call(|| library::screen_save_on(file, sheet, area))
}
