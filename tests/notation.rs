//! Turns the notation of a tape into the tape by a plain reading of each line, and compares the tape writer with that on random texts.
//!
//! usage: notation WRITER [SEED [TEXTS]]     compare the tape writer
//!        notation --write < TEXT > TAPE     write a tape by this program alone

mod frames;
mod random;

use random::Random;
use std::io::{Read, Write};
use std::process::{Command, Stdio};

/// A number as it is printed: digits without a sign or a zero before them, below a bound.
fn number(field: &str, bound: u64) -> Option<u32> {
    let value: u64 = field.parse().ok()?;
    if value < bound && value.to_string() == field {
        Some(value as u32)
    } else {
        None
    }
}

/// The frame of a line; none if the line says no frame.
fn frame_of(line: &str) -> Option<Vec<u8>> {
    let fields: Vec<&str> = line.split(' ').collect();
    let n = |i: usize| number(fields[i], 1 << 16).map(|n| n as u16);
    let byte = |i: usize| number(fields[i], 1 << 8).map(|b| b as u8);
    let mut frame = Vec::new();
    match (fields[0], fields.len()) {
        ("O", 4) => frames::open(&mut frame, byte(1)?, n(2)?, byte(3)?),
        ("Q", 2..=7) => {
            let columns: Option<Vec<u32>> = fields[1..].iter().map(|field| number(field, 1 << 32)).collect();
            frames::quote(&mut frame, &columns?);
        }
        ("W", 2) => frames::watch(&mut frame, n(1)?),
        ("P", 3) => frame = [&[23], &n(1)?.to_le_bytes()[..], &n(2)?.to_le_bytes()[..]].concat(),
        ("B", 3) => frame = [&[21], &n(1)?.to_le_bytes()[..], &n(2)?.to_le_bytes()[..]].concat(),
        ("E", 1) => frame.push(22),
        ("S", 2) => frame = [&[40], &number(fields[1], 1 << 32)?.to_le_bytes()[..]].concat(),
        ("L", 2) => frame = [&[16], &n(1)?.to_le_bytes()[..]].concat(),
        ("U", 2) => frame = [&[18], &n(1)?.to_le_bytes()[..]].concat(),
        ("W2", 2) => frame = [&[19], &n(1)?.to_le_bytes()[..]].concat(),
        ("U2", 2) => frame = [&[20], &n(1)?.to_le_bytes()[..]].concat(),
        _ => return None,
    }
    Some(frame)
}

/// The tape of a text, and the numbers of the lines that say no frame.
fn tape_of(text: &[u8]) -> (Vec<u8>, Vec<usize>) {
    let mut tape = Vec::new();
    let mut named = Vec::new();
    let mut lines: Vec<&[u8]> = text.split(|&byte| byte == b'\n').collect();
    if lines.last().is_some_and(|line| line.is_empty()) {
        lines.pop();
    }
    for (i, line) in lines.iter().enumerate() {
        match std::str::from_utf8(line).ok().and_then(frame_of) {
            Some(frame) => tape.extend(frame),
            None => named.push(i + 1),
        }
    }
    (tape, named)
}

/// A number at or around an edge, or a small one.
fn any_number(r: &mut Random) -> u64 {
    let edges = [0, 1, 6, 255, 256, 1_024, 65_535, 65_536, u64::from(u32::MAX), 1 << 32, 99_999_999_999, 1 << 63];
    match r.below(3) {
        0 => edges[r.below(edges.len() as u64) as usize],
        1 => r.next() >> (32 + r.below(32)),
        _ => r.below(12),
    }
}

/// A line that may say a frame.
fn any_line(r: &mut Random) -> Vec<u8> {
    let watches = [("W", 1), ("U", 1), ("W2", 1), ("U2", 1)];
    let right = [("O", 3), ("Q", 1 + r.below(6)), ("Q", 1 + r.below(6)), ("L", 1), ("P", 2), ("B", 2), ("E", 0), ("S", 1)];
    let any = [("O", r.below(5)), ("Q", r.below(9)), ("P", r.below(4)), ("B", r.below(4)), ("E", r.below(2)), ("R", 1), ("S", r.below(3)), ("S2", 1)];
    let odd = [("W2", r.below(3)), ("U2", r.below(3)), ("W1", 1), ("U3", 1), ("L2", 1), ("W22", 1), ("2", 1)];
    let words = [&watches[..], &right, &right, &any, &odd][r.below(5) as usize];
    let (word, count) = words[r.below(words.len() as u64) as usize];
    let mut line = word.to_string();
    for _ in 0..count {
        line += &format!(" {}", any_number(r));
    }
    line.into_bytes()
}

/// Changes a line here and there: a byte dropped, doubled, put in or replaced, or the whole line repeated until it is long.
fn spoil(r: &mut Random, line: &mut Vec<u8>) {
    let at = r.below(line.len() as u64) as usize;
    let odd = *b" \t\r02+-,.oq\0\xff".get(r.below(13) as usize).unwrap();
    match r.below(6) {
        0 => drop(line.remove(at)),
        1 => line.insert(at, line[at]),
        2 => line.insert(at, odd),
        3 => line[at] = odd,
        4 => line.push(odd),
        _ => *line = line.repeat(1 + r.below(100) as usize),
    }
}

/// A random text; one in eight has no newline at its end, and one in a hundred is longer than a reader's buffer.
fn random_text(seed: u64, index: u64) -> Vec<u8> {
    let mut r = Random::new(seed, index);
    let mut text = Vec::new();
    let count = if index % 100 == 99 { 10_000 } else { r.below(30) };
    for _ in 0..count {
        let mut line = any_line(&mut r);
        if r.below(4) == 0 {
            spoil(&mut r, &mut line);
        }
        text.extend(line);
        text.push(b'\n');
    }
    if r.below(8) == 0 {
        text.pop();
    }
    text
}

/// What the writer writes for a text, and the numbers of the lines that it names.
fn written(writer: &str, text: &[u8]) -> (Vec<u8>, Vec<usize>) {
    let pipes = Command::new(writer).stdin(Stdio::piped()).stdout(Stdio::piped()).stderr(Stdio::piped()).spawn();
    let mut child = pipes.expect("the writer starts");
    let mut input = child.stdin.take().unwrap();
    let output = std::thread::scope(|scope| {
        scope.spawn(move || input.write_all(text));
        child.wait_with_output().expect("the writer ends")
    });
    let said = String::from_utf8_lossy(&output.stderr).into_owned();
    let numbers = said.lines().filter_map(|line| line.split("line ").nth(1)?.split([' ', ':']).next()?.parse().ok());
    (output.stdout, numbers.collect())
}

fn main() {
    let mut arguments = std::env::args().skip(1);
    let writer = arguments.next().expect("usage: notation WRITER [SEED [TEXTS]]");
    if writer == "--write" {
        let mut text = Vec::new();
        std::io::stdin().read_to_end(&mut text).expect("the text is read");
        std::io::stdout().write_all(&tape_of(&text).0).expect("the tape is written");
        return;
    }
    let seed = arguments.next().map_or(1, |s| s.parse().expect("a seed"));
    let texts = arguments.next().map_or(2_000, |s| s.parse().expect("a number of texts"));
    for i in 0..texts {
        let text = random_text(seed, i);
        if written(&writer, &text) != tape_of(&text) {
            let path = format!("build/failing_text_seed_{seed}_{i}.txt");
            std::fs::write(&path, text).expect("the failing text is saved");
            eprintln!("notation: seed {seed}: the tape or the lines named differ on text {i}, saved as {path}");
            std::process::exit(1);
        }
    }
    println!("notation: seed {seed}: {texts} texts written alike");
}
