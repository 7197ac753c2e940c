//! A tuned reader of comma-separated quotes, the importer's yardstick: the same grammar, one pass to judge and one to write, no allocation in
//! either.
//!
//! usage: csv_yardstick D < QUOTES > FRAMES

use std::io::{Read, Write};

/// The end of the number at a place and its value; none if there is no number that fits.
#[inline(always)]
fn number(file: &[u8], start: usize) -> Option<(usize, u32)> {
    let first = file.get(start)?.wrapping_sub(b'0');
    if first > 9 {
        return None;
    }
    let mut at = start + 1;
    let mut value = u64::from(first);
    while at < file.len() {
        let digit = file[at].wrapping_sub(b'0');
        if digit > 9 {
            break;
        }
        if value == 0 {
            return None;
        }
        value = value * 10 + u64::from(digit);
        if value > u64::from(u32::MAX) {
            return None;
        }
        at += 1;
    }
    Some((at, value as u32))
}

/// Takes the line at a place, number by number, and gives the place behind it; none if it does not fit.
#[inline(always)]
fn line(d: usize, file: &[u8], start: usize, mut take: impl FnMut(usize, u32)) -> Option<usize> {
    let mut at = start;
    for column in 0..d {
        if column > 0 {
            if file.get(at) != Some(&b',') {
                return None;
            }
            at += 1;
        }
        let (end, value) = number(file, at)?;
        take(column, value);
        at = end;
    }
    if at == file.len() {
        return Some(at);
    }
    (file[at] == b'\r' && file.get(at + 1) == Some(&b'\n')).then_some(at + 2)
}

/// Judges every line: how many there are, or the first that does not fit.
fn judge(d: usize, file: &[u8]) -> Result<usize, usize> {
    let mut at = 0;
    let mut lines = 0;
    while at < file.len() {
        lines += 1;
        at = line(d, file, at, |_, _| ()).ok_or(lines)?;
    }
    Ok(lines)
}

/// Writes the frame of every line.
fn write(d: usize, file: &[u8], out: &mut [u8]) {
    let mut at = 0;
    for frame in out.chunks_exact_mut(1 + 4 * d) {
        frame[0] = d as u8;
        let body = &mut frame[1..];
        at = line(d, file, at, |column, value| body[4 * column..4 * column + 4].copy_from_slice(&value.to_le_bytes())).unwrap();
    }
}

fn main() {
    let d: usize = std::env::args().nth(1).and_then(|d| d.parse().ok()).expect("usage: csv_yardstick D");
    let mut file = Vec::with_capacity(1 << 21);
    std::io::stdin().read_to_end(&mut file).expect("standard input");
    match judge(d, &file) {
        Ok(lines) => {
            let mut out = vec![0; lines * (1 + 4 * d)];
            write(d, &file, &mut out);
            std::io::stdout().write_all(&out).expect("standard output");
        }
        Err(line) => eprintln!("R 18 line {line}"),
    }
}
