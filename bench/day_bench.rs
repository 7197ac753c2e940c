//! Measures the day sheet beside the same by hand in Rust, on the same frames in one run, and prints two tables: 4,096 quotes, and how
//! either grows from 512 on. A run's time is that of the program less that on an empty day.
//!
//! usage: day_bench DAY_SHEET [RUNS]     the other program stands in build/

#[path = "../tests/random.rs"]
mod random;

use random::Random;
use std::process::{Command, Stdio};
use std::time::Instant;

const YARDSTICK: &str = "build/day_yardstick";
const FOLDER: &str = "build/bench_days";
const SHAPES: [&str; 3] = ["uniform", "frontier", "drift"];
const COLUMNS: [usize; 3] = [2, 3, 6];
const COUNTS: [usize; 4] = [512, 1_024, 2_048, 4_096];

/// The columns of a quote: any values; a frontier, on which none beats another; or a drift, each later one mostly better.
fn columns(r: &mut Random, shape: &str, d: usize, i: usize) -> Vec<u32> {
    let mut columns: Vec<u32> = (0..d).map(|_| r.below(1 << 24) as u32).collect();
    match shape {
        "frontier" => columns[0] = (1 << 30) - columns[1..].iter().sum::<u32>(),
        "drift" => columns.iter_mut().for_each(|column| *column = (1 << 26) - (i as u32) * 4_096 + *column / 64),
        _ => {}
    }
    columns
}

/// A file of the frames of a day.
fn frames(shape: &str, d: usize, count: usize) -> String {
    let mut r = Random::new(10, (d * 10_000 + count) as u64);
    let mut tape = Vec::new();
    for i in 0..count {
        tape.push(d as u8);
        tape.extend(columns(&mut r, shape, d, i).into_iter().flat_map(u32::to_le_bytes));
    }
    let path = format!("{FOLDER}/{shape}_{d}_{count}.frames");
    std::fs::write(&path, tape).expect("the frames are written");
    path
}

/// The seconds of a run on a file, and what it prints.
fn run(program: &str, d: usize, path: &str) -> (f64, Vec<u8>) {
    let input = std::fs::File::open(path).expect("the frames are there");
    let start = Instant::now();
    let output = Command::new(program).args([&d.to_string(), "0"]).stdin(input).stderr(Stdio::inherit()).output().expect("the program runs");
    (start.elapsed().as_secs_f64(), output.stdout)
}

/// The least milliseconds of each program over runs in turn, less those of an empty day, and how long the sheet is.
fn measured(sheet: &str, shape: &str, d: usize, count: usize, runs: usize) -> ([f64; 2], usize) {
    let (day, empty) = (frames(shape, d, count), frames(shape, d, 0));
    let mut least = [[f64::MAX; 2]; 2];
    let mut length = 0;
    for _ in 0..runs {
        let mut lines = Vec::new();
        for (program, least) in [sheet, YARDSTICK].iter().zip(&mut least) {
            for (path, least) in [&day, &empty].iter().zip(least) {
                let (spent, line) = run(program, d, path);
                *least = least.min(spent);
                if *path == &day {
                    length = line.iter().filter(|&&byte| byte == b' ').count();
                    lines.push(line);
                }
            }
        }
        assert!(lines[0] == lines[1], "the sheets differ on {day}");
    }
    (least.map(|[full, none]| (full - none) * 1_000.0), length)
}

/// The milliseconds of emoa's nondominated_points on a day; none where R or emoa is not installed.
fn emoa(shape: &str, d: usize, count: usize) -> Option<f64> {
    let output = Command::new("Rscript").args(["bench/day_emoa.R", &frames(shape, d, count), &d.to_string()]).stderr(Stdio::null()).output().ok()?;
    let text = String::from_utf8(output.stdout).ok()?;
    Some(text.split(' ').next()?.parse::<f64>().ok()? * 1_000.0)
}

fn main() {
    let mut arguments = std::env::args().skip(1);
    let sheet = arguments.next().expect("usage: day_bench DAY_SHEET [RUNS]");
    let runs: usize = arguments.next().map_or(9, |runs| runs.parse().expect("how many runs"));
    std::fs::create_dir_all(FOLDER).expect("a folder for the frames");
    println!("day sheet | d | on the sheet | ours ms | by hand ms | x | emoa ms");
    for shape in SHAPES {
        for d in COLUMNS {
            let ([ours, hand], length) = measured(&sheet, shape, d, 4_096, runs);
            let emoa = emoa(shape, d, 4_096).map_or("-".to_string(), |spent| format!("{spent:.1}"));
            println!("{shape} | {d} | {length} | {ours:.2} | {hand:.2} | {:.2} | {emoa}", ours / hand);
        }
    }
    println!("day sheet | d | ours ms at 512, 1,024, 2,048, 4,096 | by hand");
    for shape in SHAPES {
        for d in COLUMNS {
            let all: Vec<_> = COUNTS.iter().map(|&count| measured(&sheet, shape, d, count, runs).0).collect();
            let said = |program: usize| all.iter().map(|spent| format!("{:.2}", spent[program])).collect::<Vec<_>>().join(", ");
            println!("{shape} | {d} | {} | {}", said(0), said(1));
        }
    }
}
