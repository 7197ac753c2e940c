//! Measures the importer beside a tuned reader of the same grammar on files of 1 MiB, and prints one table: the time of a run less that on an
//! empty file, the best of many, and bytes a second.
//!
//! usage: imports IMPORTER [RUNS]     the yardstick stands in build/

#[path = "../tests/random.rs"]
mod random;

use random::Random;
use std::fs::File;
use std::process::{Command, Stdio};
use std::time::Instant;

const YARDSTICK: &str = "build/csv_yardstick";
const SIZE: usize = 1 << 20;

/// A file of quotes of d numbers below a bound, as large as the importer takes.
fn quotes(d: usize, bound: u64) -> Vec<u8> {
    let mut r = Random::new(1, d as u64);
    let mut file = Vec::new();
    loop {
        let numbers: Vec<String> = (0..d).map(|_| r.below(bound).to_string()).collect();
        let line = numbers.join(",") + "\r\n";
        if file.len() + line.len() > SIZE {
            return file;
        }
        file.extend(line.into_bytes());
    }
}

/// The seconds of a run.
fn run(program: &str, d: usize, path: &str) -> f64 {
    let input = File::open(path).expect("the file");
    let start = Instant::now();
    let status = Command::new(program).arg(d.to_string()).stdin(input).stdout(Stdio::null()).status();
    assert!(status.expect("the program starts").success());
    start.elapsed().as_secs_f64()
}

fn main() {
    let mut arguments = std::env::args().skip(1);
    let importer = arguments.next().expect("usage: imports IMPORTER [RUNS]");
    let runs: usize = arguments.next().map_or(9, |runs| runs.parse().expect("a number of runs"));
    let empty = "build/quotes_none.csv";
    File::create(empty).expect("a file");
    println!("| columns | numbers below | importer, MB/s | tuned Rust, MB/s | times its time |\n|---|---|---|---|---|");
    for (d, bound) in [(1, 100), (2, 100_000), (3, 1 << 32), (6, 100_000)] {
        let path = format!("build/quotes_{d}_{bound}.csv");
        let file = quotes(d, bound);
        std::fs::write(&path, &file).expect("a file");
        let mut best = [[f64::MAX; 2]; 2];
        for _ in 0..runs * 10 {
            for (program, best) in [importer.as_str(), YARDSTICK].into_iter().zip(&mut best) {
                for (path, best) in [empty, &path].into_iter().zip(best) {
                    *best = best.min(run(program, d, path));
                }
            }
        }
        let seconds = best.map(|[none, all]| all - none);
        let speed = seconds.map(|seconds| file.len() as f64 / seconds / 1e6);
        println!("| {d} | {bound} | {:.0} | {:.0} | {:.2} |", speed[0], speed[1], seconds[0] / seconds[1]);
    }
}
