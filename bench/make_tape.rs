//! Makes a tape to measure with: an opening, the five watches that one desk may have, or with --desks eight, four of them desk two's,
//! with --pair a watched pair, then quotes of one shape; with --look a look at the list of half the memory behind every quote, with
//! --past the same list by a past look.
//!
//! usage: make_tape [--desks] [--pair] [--look|--past] uniform|frontier|drift|duplicates QUOTES [MEMORY [SEED]] > TAPE

#[path = "../tests/frames.rs"]
mod frames;
#[path = "../tests/random.rs"]
mod random;

use random::Random;
use std::io::Write;

/// The watched n for a memory of 1,024; for a shorter one they shrink with it. Of two desks they are set in turn.
const WATCHED: [u32; 8] = [1_024, 900, 700, 500, 300, 100, 50, 10];
/// How many of them one desk may have.
const ONE_DESK: usize = 5;
/// The kinds of the frames that look, set a watch of desk two, set the pair, and look at a past list.
const LOOKS: u8 = 16;
const WATCHES_TWO: u8 = 19;
const SETS_PAIR: u8 = 21;
const LOOKS_PAST: u8 = 23;
/// The pair, likewise.
const PAIR: [u32; 2] = [100, 900];
/// So many quotes after each other drift up, then as many down.
const DRIFT: u32 = 2_000;

/// A tape's shape: how its quotes lie to each other.
#[derive(Clone, Copy)]
enum Shape {
    /// Three columns of random values.
    Uniform,
    /// Six columns of one sum, so that no quote beats another and every row is live.
    Frontier,
    /// Two columns that follow a trend, up and down in turn.
    Drift,
    /// Three columns of four values each.
    Duplicates,
}

impl Shape {
    /// The shape with a name.
    fn named(name: &str) -> Shape {
        match name {
            "uniform" => Shape::Uniform,
            "frontier" => Shape::Frontier,
            "drift" => Shape::Drift,
            "duplicates" => Shape::Duplicates,
            _ => panic!("no shape has the name {name}"),
        }
    }

    /// Its column count and directions.
    fn settings(self) -> (u8, u8) {
        match self {
            Shape::Uniform => (3, 0b101),
            Shape::Frontier => (6, 0),
            Shape::Drift => (2, 0b10),
            Shape::Duplicates => (3, 0b010),
        }
    }

    /// The columns of the quote at a step.
    fn quote(self, r: &mut Random, step: u32) -> Vec<u32> {
        match self {
            Shape::Uniform => (0..3).map(|_| r.next() as u32).collect(),
            Shape::Frontier => frontier(r),
            Shape::Drift => drift(r, step),
            Shape::Duplicates => (0..3).map(|_| r.below(4) as u32).collect(),
        }
    }
}

/// Five random columns and one that makes up a fixed sum.
fn frontier(r: &mut Random) -> Vec<u32> {
    let mut columns: Vec<u32> = (0..5).map(|_| r.below(1 << 29) as u32).collect();
    columns.push(5 * (1 << 29) - columns.iter().sum::<u32>());
    columns
}

/// A low column and a high one that get worse together for a while, then better, with noise.
fn drift(r: &mut Random, step: u32) -> Vec<u32> {
    let phase = step % (2 * DRIFT);
    let level = 100 * phase.min(2 * DRIFT - phase);
    vec![1_000_000 + level + r.below(5_000) as u32, 1_000_000 - level + r.below(5_000) as u32]
}

/// What stands on a tape before its quotes: the watches of two desks or of one, and a pair or none.
struct Watches {
    desks: bool,
    pair: bool,
}

impl Watches {
    /// Their frames, for a memory.
    fn write(&self, tape: &mut Vec<u8>, memory: u16) {
        let scaled = |n: u32, least: u32| (n * u32::from(memory) / WATCHED[0]).max(least) as u16;
        let count = if self.desks { WATCHED.len() } else { ONE_DESK };
        for (i, &n) in WATCHED[..count].iter().enumerate() {
            if self.desks && i % 2 == 1 {
                tape.push(WATCHES_TWO);
                tape.extend(scaled(n, 1).to_le_bytes());
            } else {
                frames::watch(tape, scaled(n, 1));
            }
        }
        if self.pair {
            tape.push(SETS_PAIR);
            for n in PAIR {
                tape.extend(scaled(n, 2).to_le_bytes());
            }
        }
    }
}

/// What stands behind every quote of a tape.
#[derive(Clone, Copy)]
enum Behind {
    Nothing,
    /// A look.
    Look,
    /// A past look whose list is that of the look.
    Past,
}

impl Behind {
    /// Its frame, for a memory.
    fn write(self, tape: &mut Vec<u8>, memory: u16) {
        let n = (memory / 2).max(1).to_le_bytes();
        match self {
            Behind::Nothing => {}
            Behind::Look => tape.extend([LOOKS, n[0], n[1]]),
            Behind::Past => tape.extend([LOOKS_PAST, 1, 0, n[0], n[1]]),
        }
    }
}

/// The whole tape.
fn tape_of(shape: Shape, watches: &Watches, behind: Behind, quotes: u32, memory: u16, seed: u64) -> Vec<u8> {
    let mut r = Random::new(seed, 0);
    let mut tape = Vec::new();
    let (d, directions) = shape.settings();
    frames::open(&mut tape, d, memory, directions);
    watches.write(&mut tape, memory);
    for step in 0..quotes {
        frames::quote(&mut tape, &shape.quote(&mut r, step));
        behind.write(&mut tape, memory);
    }
    tape
}

fn main() {
    let mut arguments = std::env::args().skip(1).peekable();
    let (mut watches, mut behind) = (Watches { desks: false, pair: false }, Behind::Nothing);
    while let Some(option) = arguments.next_if(|word| word.starts_with("--")) {
        match option.as_str() {
            "--desks" => watches.desks = true,
            "--pair" => watches.pair = true,
            "--look" => behind = Behind::Look,
            "--past" => behind = Behind::Past,
            _ => panic!("no option has the name {option}"),
        }
    }
    let usage = "usage: make_tape [--desks] [--pair] [--look|--past] SHAPE QUOTES [MEMORY [SEED]]";
    let shape = Shape::named(&arguments.next().expect(usage));
    let quotes = arguments.next().expect("the number of quotes").parse().expect("a number of quotes");
    let memory = arguments.next().map_or(1_024, |s| s.parse().expect("a memory"));
    let seed = arguments.next().map_or(1, |s| s.parse().expect("a seed"));
    let tape = tape_of(shape, &watches, behind, quotes, memory, seed);
    std::io::stdout().write_all(&tape).expect("the tape is written");
}
