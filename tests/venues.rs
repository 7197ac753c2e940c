//! Joins random pairs of venues' tapes by the venue joiner and by a plain model, and compares what they write and refuse: sound tapes, tapes
//! with every byte damaged in turn, and tapes longer than a piece.
//!
//! usage: venues [--plant NAME] JOINER [SEED [PAIRS]]     PAIRS: how many pairs of tapes are damaged at every byte

mod random;
mod venue_model;

use random::Random;
use std::collections::BTreeMap;
use std::process::Command;
use std::time::Instant;
use venue_model::{joined, Plant};

/// The planted bugs by name.
const PLANTS: [(&str, Plant); 11] = [
    ("second-on-equal", Plant::SecondOnEqual),
    ("fifteen-before-seven", Plant::FifteenBeforeSeven),
    ("sixteen-before-fifteen", Plant::SixteenBeforeFifteen),
    ("midnight", Plant::Midnight),
    ("equal-refused", Plant::EqualRefused),
    ("second-refuses-first", Plant::SecondRefusesFirst),
    ("good-tape-goes-on", Plant::GoodTapeGoesOn),
    ("look-behind", Plant::LookBehind),
    ("quote-misplaced", Plant::QuoteMisplaced),
    ("ends-with-one", Plant::EndsWithOne),
    ("other-moved", Plant::OtherMoved),
];
/// The answers that have to come: 'end' and every refusal of the join.
const ANSWERS: [u32; 6] = [0, 1, 2, 7, 15, 16];
/// How many pairs a tape has that is longer than a piece.
const LONG: u64 = 5_000;

/// The comparison: the joiner, the model's plant, the seed, and how often each answer came.
struct Comparison {
    joiner: String,
    plant: Plant,
    seed: u64,
    runs: usize,
    answers: BTreeMap<u32, usize>,
}

/// A stamp of a day, near the one before it, or at an edge.
fn stamp(r: &mut Random, last: u32) -> u32 {
    match r.below(8) {
        0 | 1 => last,
        2 => 86_399_999.min(last + r.below(1_000_000) as u32),
        _ => 86_399_999.min(last + r.below(4) as u32),
    }
}

/// A stamped quote behind the bytes of a tape.
fn lay(r: &mut Random, tape: &mut Vec<u8>, stamp: u32) {
    tape.push(40);
    tape.extend(stamp.to_le_bytes());
    let columns: Vec<u32> = (0..1 + r.below(6)).map(|_| (r.next() >> r.below(64)) as u32).collect();
    tape.push(columns.len() as u8);
    tape.extend(columns.iter().flat_map(|column| column.to_le_bytes()));
}

/// A sound venue's tape of so many pairs.
fn sound(r: &mut Random, pairs: u64) -> Vec<u8> {
    let mut tape = Vec::new();
    let mut last = if r.below(4) == 0 { 86_399_990 } else { r.below(20) as u32 };
    for _ in 0..pairs {
        last = stamp(r, last);
        lay(r, &mut tape, last);
    }
    tape
}

/// A tape that is not sound: a frame put in, a stamp out of order, a frame left out, or a cut.
fn spoiled(r: &mut Random, pairs: u64) -> Vec<u8> {
    let mut tape = sound(r, pairs);
    match r.below(7) {
        0 => lay(r, &mut tape, 86_400_000),
        1 => lay(r, &mut tape, 3),
        2 => tape.extend([1, 7, 0, 0, 0]),
        3 => tape.extend([40, 9, 0, 0, 0]),
        4 => tape.extend([&[40][..], &86_400_000u32.to_le_bytes(), &[17, 2, 0]].concat()),
        5 => tape.extend([&[40][..], &86_400_000u32.to_le_bytes(), &[40, 1, 0, 0, 0]].concat()),
        _ => tape.extend([&[17, 2, 0][..], &[99]].concat()),
    }
    if r.below(3) == 0 {
        lay(r, &mut tape, 86_399_999);
    }
    tape
}

impl Comparison {
    /// Joins two tapes by the joiner and by the model, in the way of this run, and compares.
    fn compare(&mut self, first: &[u8], second: &[u8]) {
        let quotes = self.runs % 3 == 2;
        self.runs += 1;
        let names = ["first", "second"].map(|side| format!("build/venue_{}_{}.tape", std::process::id(), side));
        std::fs::write(&names[0], first).expect("the first tape is saved");
        std::fs::write(&names[1], second).expect("the second tape is saved");
        let mut command = Command::new(&self.joiner);
        command.args(&names);
        if quotes {
            command.arg("quotes");
        }
        let output = command.output().expect("the joiner runs");
        let said = String::from_utf8_lossy(&output.stderr).into_owned();
        let mut words = said.split(' ');
        let refusal = match words.next() {
            Some("R") => words.next().and_then(|number| number.parse().ok()),
            _ => None,
        };
        let expected = joined([first, second], quotes, self.plant);
        *self.answers.entry(expected.1.unwrap_or(0)).or_default() += 1;
        if (&output.stdout, refusal) != (&expected.0, expected.1) || said.is_empty() != expected.1.is_none() {
            eprintln!("venues: seed {}: the joined tapes differ on {} and {}", self.seed, names[0], names[1]);
            std::process::exit(1);
        }
        for name in names {
            std::fs::remove_file(name).expect("the tape is removed");
        }
    }

    /// A pair of small tapes, sound and then with each byte of each damaged in turn.
    fn damage(&mut self, r: &mut Random) {
        let tapes = [0, 1].map(|_| {
            let pairs = r.below(4);
            if r.below(3) == 0 { spoiled(r, pairs) } else { sound(r, pairs) }
        });
        self.compare(&tapes[0], &tapes[1]);
        for side in 0..2 {
            for at in 0..tapes[side].len() {
                let mut damaged = tapes.clone();
                match r.below(5) {
                    0 => damaged[side].truncate(at),
                    1 => drop(damaged[side].remove(at)),
                    2 => damaged[side][at] = [0, 1, 6, 7, 17, 22, 40, 48, 255][r.below(9) as usize],
                    3 => damaged[side][at] ^= 1 << r.below(8),
                    _ => damaged[side].insert(at, [1, 40, 22][r.below(3) as usize]),
                }
                self.compare(&damaged[0], &damaged[1]);
            }
        }
    }

    /// A pair of tapes longer than a piece, sound, cut, and with a byte damaged.
    fn long(&mut self, r: &mut Random) {
        let share = 1 + r.below(3);
        let tapes = [sound(r, LONG), sound(r, LONG / share)];
        self.compare(&tapes[0], &tapes[1]);
        for side in 0..2 {
            let mut damaged = tapes.clone();
            let at = r.below(damaged[side].len() as u64) as usize;
            damaged[side].truncate(at);
            self.compare(&damaged[0], &damaged[1]);
            let mut damaged = tapes.clone();
            damaged[side][at] ^= 1 << r.below(8);
            self.compare(&damaged[0], &damaged[1]);
        }
    }
}

/// Wrong use is told by a line of usage, a file that cannot be opened or read is named, and nothing is written.
fn misused(joiner: &str) {
    let cases: [(&[&str], &str); 7] = [
        (&[], "usage: "),
        (&["one"], "usage: "),
        (&["one", "two", "quote"], "usage: "),
        (&["one", "two", "quotes", "more"], "usage: "),
        (&["build/no_such_tape", "Makefile"], "build/no_such_tape: "),
        (&["Makefile", "build/no_such_tape", "quotes"], "build/no_such_tape: "),
        (&["build", "build"], "build: "),
    ];
    for (arguments, expected) in cases {
        let output = Command::new(joiner).args(arguments).output().expect("the joiner runs");
        let said = String::from_utf8_lossy(&output.stderr).into_owned();
        assert!(output.stdout.is_empty() && said.starts_with(expected), "{arguments:?} told {said:?}");
    }
}

fn main() {
    let mut arguments = std::env::args().skip(1).peekable();
    let mut plant = Plant::None;
    if arguments.next_if(|word| word == "--plant").is_some() {
        let name = arguments.next().expect("a plant");
        plant = PLANTS.iter().find(|(known, _)| *known == name).expect("a known plant").1;
    }
    let joiner = arguments.next().expect("usage: venues [--plant NAME] JOINER [SEED [PAIRS]]");
    let seed = arguments.next().map_or(1, |s| s.parse().expect("a seed"));
    let pairs = arguments.next().map_or(20, |s| s.parse().expect("a number of pairs"));
    let began = Instant::now();
    misused(&joiner);
    let mut comparison = Comparison { joiner, plant, seed, runs: 0, answers: BTreeMap::new() };
    for index in 0..pairs {
        comparison.damage(&mut Random::new(seed, index));
    }
    for index in 0..5 {
        comparison.long(&mut Random::new(seed, pairs + index));
    }
    for answer in ANSWERS {
        assert!(comparison.answers.contains_key(&answer), "the answer {answer} never came");
    }
    let seconds = began.elapsed().as_secs_f64();
    println!("venues: seed {seed}: {} pairs of tapes joined alike in {seconds:.1} seconds, answers {:?}", comparison.runs, comparison.answers);
}
