//! Measures the quoting drill with hands of four against four: how much longer the program takes than with an empty first hand, which it
//! answers without a play. Each time is the least of many starts; of the games, some of which the first side loses, the dearest is named.
//!
//! usage: drill_time PROGRAM [STARTS]

#[path = "../tests/random.rs"]
mod random;

use random::Random;
use std::fs;
use std::process::{Command, Stdio};
use std::time::Instant;

/// How many games of four against four are measured.
const GAMES: usize = 16;

/// The frames of a hand of so many quotes of six columns, from a value on: two hands with values apart make a side that loses.
fn hand(random: &mut Random, count: usize, from: u32) -> Vec<u8> {
    (0..count)
        .flat_map(|_| {
            let columns: Vec<u8> = (0..6).flat_map(|_| (from + random.below(1000) as u32).to_le_bytes()).collect();
            [vec![6], columns].concat()
        })
        .collect()
}

/// The least of the program's times on these hands, in microseconds.
fn least(program: &str, first: &[u8], second: &[u8], starts: usize) -> f64 {
    fs::write("build/drill_time_first", first).unwrap();
    fs::write("build/drill_time_second", second).unwrap();
    (0..starts)
        .map(|_| {
            let start = Instant::now();
            let status = Command::new(program)
                .args(["6", "8", "0", "8", "build/drill_time_first", "build/drill_time_second"])
                .stdout(Stdio::null())
                .status();
            assert!(status.unwrap().success());
            start.elapsed().as_secs_f64() * 1e6
        })
        .fold(f64::MAX, f64::min)
}

fn main() {
    let arguments: Vec<String> = std::env::args().skip(1).collect();
    let starts = arguments.get(1).map_or(201, |word| word.parse().unwrap());
    let mut random = Random::new(1, 12);
    fs::create_dir_all("build").unwrap();
    let second = hand(&mut random, 4, 0);
    let empty = least(&arguments[0], &[], &second, starts);
    let dearest = (0..GAMES)
        .map(|game| least(&arguments[0], &hand(&mut random, 4, game as u32 * 100), &hand(&mut random, 4, 0), starts))
        .fold(0.0, f64::max);
    println!("quoting drill, four against four, six columns, N = n = 8: at most {:.0} us above an empty hand's {empty:.0} us", dearest - empty);
}
