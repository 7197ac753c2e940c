//! A join of two venues' tapes as a Rust programmer writes it by hand: one piece of each tape at a time, the next pair of each kept.
//!
//! usage: plain_join FIRST SECOND

use std::fs::File;
use std::io::{Read, Write};

const PIECE: usize = 65_536;
/// As many bytes as the longest pair has.
const LONGEST: usize = 30;

/// What a tape has next: a pair's stamp and length, its end, or a refusal.
#[derive(Clone, Copy)]
enum Next {
    Pair(u32, usize),
    Done,
    Refused(u32),
}

/// A tape in a file, with what has come of it.
struct Tape {
    file: File,
    piece: Vec<u8>,
    place: usize,
    end: usize,
    ended: bool,
    last: u32,
}

/// How many bytes the body of a kind has; none for an unknown kind.
fn body_length(kind: u8) -> Option<usize> {
    match kind {
        1..=6 => Some(4 * kind as usize),
        16..=20 => Some(2),
        21 | 23 | 36 | 37 | 40 | 48 => Some(4),
        22 => Some(0),
        32..=35 => Some(6),
        _ => None,
    }
}

/// The kind of a whole frame at the front and the frame's length; none at the end.
fn frame(bytes: &[u8]) -> Result<Option<(u8, usize)>, u32> {
    let Some(&kind) = bytes.first() else {
        return Ok(None);
    };
    let length = 1 + body_length(kind).ok_or(1u32)?;
    if bytes.len() < length {
        return Err(2);
    }
    Ok(Some((kind, length)))
}

impl Tape {
    fn open(name: &str) -> Tape {
        let file = File::open(name).expect("the tape opens");
        Tape { file, piece: vec![0; PIECE], place: 0, end: 0, ended: false, last: 0 }
    }

    /// Reads on where a pair may not have come whole.
    fn refill(&mut self) {
        while !self.ended && self.end - self.place < LONGEST {
            self.piece.copy_within(self.place..self.end, 0);
            self.end -= self.place;
            self.place = 0;
            let came = self.file.read(&mut self.piece[self.end..]).expect("the tape is read");
            self.end += came;
            self.ended = came == 0;
        }
    }

    /// What the tape has next.
    fn judge(&self) -> Result<Option<(u32, usize)>, u32> {
        let bytes = &self.piece[self.place..self.end];
        let Some((kind, length)) = frame(bytes)? else {
            return Ok(None);
        };
        match kind {
            1..=6 => return Err(16),
            40 => {}
            _ => return Err(7),
        }
        let stamp = u32::from_le_bytes([bytes[1], bytes[2], bytes[3], bytes[4]]);
        let behind = frame(&bytes[length..])?;
        if let Some((kind, _)) = behind {
            if kind > 6 && kind != 40 {
                return Err(7);
            }
        }
        if stamp < self.last || stamp > 86_399_999 {
            return Err(15);
        }
        match behind {
            Some((1..=6, more)) => Ok(Some((stamp, length + more))),
            _ => Err(16),
        }
    }

    /// Reads on, and judges what is next.
    fn next(&mut self) -> Next {
        self.refill();
        match self.judge() {
            Ok(Some((stamp, length))) => Next::Pair(stamp, length),
            Ok(None) => Next::Done,
            Err(number) => Next::Refused(number),
        }
    }

    /// Moves past a pair, whose bytes go behind those that are gathered.
    fn take(&mut self, stamp: u32, length: usize, out: &mut Vec<u8>) {
        out.extend_from_slice(&self.piece[self.place..self.place + length]);
        self.place += length;
        self.last = stamp;
    }
}

fn main() {
    let names: Vec<String> = std::env::args().skip(1).collect();
    let mut tapes = [Tape::open(&names[0]), Tape::open(&names[1])];
    let mut ahead = [tapes[0].next(), tapes[1].next()];
    let mut output = std::io::stdout().lock();
    let mut out = Vec::with_capacity(PIECE);
    loop {
        let (side, stamp, length) = match ahead {
            [Next::Refused(number), _] | [_, Next::Refused(number)] => {
                output.write_all(&out).expect("the pairs are written");
                eprintln!("R {number}");
                return;
            }
            [Next::Done, Next::Done] => break,
            [Next::Pair(a, _), Next::Pair(b, length)] if b < a => (1, b, length),
            [Next::Pair(a, length), _] => (0, a, length),
            [_, Next::Pair(b, length)] => (1, b, length),
        };
        if PIECE - out.len() < length {
            output.write_all(&out).expect("the pairs are written");
            out.clear();
        }
        tapes[side].take(stamp, length, &mut out);
        ahead[side] = tapes[side].next();
    }
    output.write_all(&out).expect("the pairs are written");
}
