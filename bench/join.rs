//! Measures the venue joiner beside a join written by hand, on the same two tapes, and prints one table.
//!
//! usage: join JOINER [RUNS]     JOINER is ours; the other stands in build/plain_join, and the tapes are made in build/

#[path = "../tests/random.rs"]
mod random;

use random::Random;
use std::process::{Command, Stdio};
use std::time::Instant;

const HAND: &str = "build/plain_join";
/// How many pairs each tape has.
const PAIRS: usize = 1_000_000;

/// A sound venue's tape: so many columns a quote, stamps that rise by up to this much.
fn tape(seed: u64, columns: u64, step: u64) -> Vec<u8> {
    let mut r = Random::new(seed, columns);
    let mut bytes = Vec::new();
    let mut stamp = 0;
    for _ in 0..PAIRS {
        stamp += r.below(step) as u32;
        bytes.push(40);
        bytes.extend(stamp.to_le_bytes());
        bytes.push(columns as u8);
        for _ in 0..columns {
            bytes.extend((r.next() as u32).to_le_bytes());
        }
    }
    bytes
}

/// The seconds of the fastest of some runs.
fn fastest(program: &str, names: &[String; 2], runs: usize) -> f64 {
    let one = || {
        let began = Instant::now();
        let status = Command::new(program).args(names).stdout(Stdio::null()).status().expect("the program runs");
        assert!(status.success());
        began.elapsed().as_secs_f64()
    };
    (0..runs).map(|_| one()).fold(f64::INFINITY, f64::min)
}

fn main() {
    let mut arguments = std::env::args().skip(1);
    let joiner = arguments.next().expect("usage: join JOINER [RUNS]");
    let runs = arguments.next().map_or(9, |s| s.parse().expect("a number of runs"));
    println!("| columns | bytes | ours, MB/s | by hand, MB/s | ours / by hand, times |");
    println!("|---|---|---|---|---|");
    for columns in [1, 3, 6] {
        let names = ["first", "second"].map(|side| format!("build/join_{columns}_{side}.tape"));
        let mut bytes = 0;
        for (seed, name) in names.iter().enumerate() {
            let made = tape(seed as u64 + 1, columns, 80);
            bytes += made.len();
            std::fs::write(name, made).expect("the tape is saved");
        }
        let ours = fastest(&joiner, &names, runs);
        let hand = fastest(HAND, &names, runs);
        let speed = |seconds: f64| bytes as f64 / seconds / 1e6;
        println!("| {columns} | {bytes} | {:.0} | {:.0} | {:.2} |", speed(ours), speed(hand), ours / hand);
    }
}
