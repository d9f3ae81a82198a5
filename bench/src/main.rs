//! Times the library and the separate program on the same sheets and saved plans, turn by turn in one process.
//!
//! bench [ROUNDS]

#[cfg(feature = "requests")]
mod plans;
mod sheets;

use sheets::{growth, workloads, Workload};
use std::hint::black_box;
use std::time::Instant;

type Program = fn(&[u8], &mut [u8]) -> u64;

/// Nanoseconds of one run; of a short one, the mean of several in a row.
fn time(program: Program, sheet: &[u8], area: &mut [u8]) -> f64 {
    let times = if sheet.len() < 1000 { 50 } else { 1 };
    let start = Instant::now();
    for _ in 0..times {
        black_box(program(black_box(sheet), black_box(area)));
    }
    start.elapsed().as_nanos() as f64 / times as f64
}

/// One workload under way: the least times so far of either program, on the whole sheet and on its setup alone.
struct Run<'a> {
    work: &'a Workload,
    sheet: Vec<u8>,
    area: Vec<u8>,
    least: [[f64; 2]; 2],
}

impl Run<'_> {
    /// The answers of both programs are compared first.
    fn new(work: &Workload) -> Run<'_> {
        let sheet = (work.setup.clone() + &work.body).into_bytes();
        let expected = separate::answers(&sheet);
        let mut area = vec![0; expected.len()];
        assert_eq!(library::screen_run(&sheet, &mut area), 2 * expected.len() as u64, "{}", work.name);
        assert_eq!(area, expected, "{}", work.name);
        Run { work, sheet, area, least: [[f64::MAX; 2]; 2] }
    }

    fn round(&mut self) {
        let programs: [Program; 2] = [library::screen_run, separate::screen_run];
        let setup = self.work.setup.as_bytes();
        for (least, program) in self.least.iter_mut().zip(programs) {
            least[0] = least[0].min(time(program, &self.sheet, &mut self.area));
            least[1] = if setup.is_empty() { 0.0 } else { least[1].min(time(program, setup, &mut self.area)) };
        }
    }

    /// Nanoseconds for each line of the body: library, separate program.
    fn times(&self) -> (f64, f64) {
        let lines = self.work.body.lines().count().max(1) as f64;
        let [library, separate] = self.least.map(|[whole, setup]| (whole - setup) / lines);
        (library, separate)
    }
}

/// Every round goes through all the workloads, so that a slow while of the machine falls on none of them alone.
fn measure(works: &[Workload], rounds: usize) -> Vec<(f64, f64)> {
    let mut runs: Vec<Run> = works.iter().map(Run::new).collect();
    for _ in 0..rounds {
        for run in &mut runs {
            run.round();
        }
    }
    runs.iter().map(Run::times).collect()
}

fn heading(first: &str) {
    println!("| {first} | library, ns per line | Rust program, ns per line | ratio |");
    println!("|---|---|---|---|");
}

fn row(name: &str, (library, separate): (f64, f64)) {
    println!("| {name} | {library:.1} | {separate:.1} | {:.2} |", library / separate);
}

fn main() {
    let rounds = std::env::args().nth(1).and_then(|text| text.parse().ok()).unwrap_or(400);
    println!("Least of {rounds} rounds; both programs optimised, in one process, turn by turn; the area is not cleared between");
    println!("runs; the time of the lines that set the plan up is taken off. Ratio: library over Rust program.");
    println!();
    heading("workload");
    let mut product = 0.0;
    let list = workloads();
    for (work, times) in list.iter().zip(measure(&list, rounds)) {
        row(&work.name, times);
        product += (times.0 / times.1).ln();
    }
    println!("| geometric mean | | | {:.2} |", (product / list.len() as f64).exp());
    for (name, works) in growth() {
        println!();
        heading(name);
        for (work, times) in works.iter().zip(measure(&works, rounds)) {
            row(&work.name, times);
        }
    }
    #[cfg(feature = "requests")]
    plans::print(rounds);
}
