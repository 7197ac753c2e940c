//! Plays the longest tape, 16,777,215 quotes, then one quote more, which is refused with 6, and a look. The tape is made and the print
//! compared as they stream by; neither is stored.
//!
//! usage: full_tape PRINTER [SEED]

mod frames;
mod random;

use random::Random;
use std::collections::VecDeque;
use std::fmt::Write as _;
use std::io::{self, BufWriter, Read, Write};
use std::process::{Command, Stdio};

const LAST_POSITION: u32 = 16_777_215;
const MEMORY: u16 = 5;
const PIECE: usize = 1 << 16;

/// The value of the next quote, one of a few so that equals abound.
fn value(r: &mut Random) -> u32 {
    r.below(7) as u32
}

/// Sends the tape to the printer: one column, lower is better, and a watch of 1.
fn send(input: impl Write, seed: u64) -> io::Result<()> {
    let mut input = BufWriter::with_capacity(PIECE, input);
    let mut r = Random::new(seed, 0);
    let mut frame = Vec::new();
    frames::open(&mut frame, 1, MEMORY, 0);
    frames::watch(&mut frame, 1);
    for _ in 0..=LAST_POSITION {
        frames::quote(&mut frame, &[value(&mut r)]);
        input.write_all(&frame)?;
        frame.clear();
    }
    input.write_all(&[16, MEMORY as u8, 0])
}

/// The printer's output, compared piece by piece with the lines that are wanted of it.
struct Checked<R: Read> {
    output: R,
    wanted: String,
    printed: Vec<u8>,
}

impl<R: Read> Checked<R> {
    /// Compares the wanted lines gathered so far with as many bytes of output.
    fn compare(&mut self) {
        self.printed.resize(self.wanted.len(), 0);
        let read = self.output.read_exact(&mut self.printed);
        if read.is_err() || self.printed != self.wanted.as_bytes() {
            let first = self.wanted.lines().next().unwrap_or("");
            eprintln!("full_tape: the print differs within {PIECE} bytes of the line '{first}'");
            std::process::exit(1);
        }
        self.wanted.clear();
    }

    /// Adds a wanted line, or two.
    fn line(&mut self, line: std::fmt::Arguments) {
        writeln!(self.wanted, "{line}").unwrap();
        if self.wanted.len() > PIECE {
            self.compare();
        }
    }

    /// Compares what is left; nothing may come behind it.
    fn end(mut self) {
        self.compare();
        let more = self.output.read(&mut [0]).expect("the printer's output is read");
        assert!(more == 0, "full_tape: there is print behind the wanted lines");
    }
}

/// How many quotes of a window no younger one beats: a younger one beats those that are worse and those that are equal.
fn rows(window: &VecDeque<u32>) -> usize {
    (0..window.len()).filter(|&p| (p + 1..window.len()).all(|q| window[q] > window[p])).count()
}

/// Checks the whole print: the list of 1 is the newest position, so every quote but the first brings a leave and a join.
fn check(output: impl Read, seed: u64) {
    let mut checked = Checked { output, wanted: String::new(), printed: Vec::new() };
    let mut r = Random::new(seed, 0);
    let mut window = VecDeque::new();
    checked.line(format_args!("O 1 {MEMORY} 0\nW 1"));
    for position in 1..=LAST_POSITION {
        window.push_back(value(&mut r));
        if window.len() > MEMORY.into() {
            window.pop_front();
        }
        checked.line(format_args!("Q {position} {}", rows(&window)));
        if position > 1 {
            checked.line(format_args!("- 1 {}", position - 1));
        }
        checked.line(format_args!("+ 1 {position}"));
    }
    checked.line(format_args!("R 6"));
    let best = window.iter().min().unwrap();
    let newer = window.iter().rev().take_while(|value| *value != best).count() as u32;
    checked.line(format_args!("L {MEMORY} {}", LAST_POSITION - newer));
    checked.end();
}

fn main() {
    let mut arguments = std::env::args().skip(1);
    let printer = arguments.next().expect("usage: full_tape PRINTER [SEED]");
    let seed = arguments.next().map_or(1, |s| s.parse().expect("a seed"));
    let mut child = Command::new(printer).stdin(Stdio::piped()).stdout(Stdio::piped()).spawn().expect("the printer starts");
    let input = child.stdin.take().unwrap();
    let output = child.stdout.take().unwrap();
    let sender = std::thread::spawn(move || send(input, seed));
    check(output, seed);
    sender.join().unwrap().expect("the printer takes the whole tape");
    assert!(child.wait().expect("the printer ends").success(), "full_tape: the printer failed");
    println!("full_tape: seed {seed}: {LAST_POSITION} quotes printed as they should be, one more refused with 6");
}
