//! Prints a tape on the same four tables as the product's, tuned for speed (std only).
//!
//! usage: yardstick < TAPE > PRINT                 rows move down at every quote, in tables of as many places as the memory
//!        yardstick --judged < TAPE > PRINT        the same, and 11 and 12 are judged at every call
//!        yardstick --slides < TAPE > PRINT        rows slide through tables of twice as many places
//!        yardstick --any < TAPE > PRINT           11 and 12 are judged at every call, and a quote takes any tables that are not torn
//!        yardstick --moves N D QUOTES             only moves the rows of full tables, as so many quotes do

mod any_quotes;
mod book;
mod compare;
mod notes;
mod print;
mod quotes;
mod tables;

use book::{Book, Mode};
use print::Print;
use std::io::{self, Read};
use tables::Tables;

/// The bytes that may be read behind a frame's last.
const BEHIND: usize = 24;

/// How many bytes the body of a kind has; none for an unknown kind.
fn body_length(kind: u8) -> Option<usize> {
    match kind {
        1..=6 => Some(4 * usize::from(kind)),
        16..=20 => Some(2),
        22 => Some(0),
        21 | 23 | 36 | 37 | 40 | 48 => Some(4),
        32..=35 => Some(6),
        _ => None,
    }
}

/// Plays one whole frame; some bytes may be read behind its body.
fn play(book: &mut Book, kind: u8, body: &[u8], print: &mut Print) {
    let number = |at: usize| u32::from(u16::from_le_bytes([body[at], body[at + 1]]));
    match kind {
        1..=6 => {
            let cells: &[u8; 24] = body[..24].try_into().unwrap();
            book.quote(kind.into(), unsafe { &std::mem::transmute::<[u8; 24], [u32; 6]>(*cells) }, print);
        }
        16 => book.look(number(0), print),
        17 => book.watch(1, number(0), print),
        18 => book.end(1, number(0), print),
        19 => book.watch(2, number(0), print),
        20 => book.end(2, number(0), print),
        21 => book.set_pair(number(0), number(2), print),
        22 => book.end_pair(print),
        23 => book.past(number(0), number(2), print),
        48 => book.open(body[0], number(1) as u16, body[3], print),
        _ => print.refuse(7),
    }
}

/// Plays the whole frames of so many bytes; gives how many bytes they have, and whether an unknown kind ended the tape.
fn play_whole(book: &mut Book, bytes: &[u8], have: usize, print: &mut Print) -> io::Result<(usize, bool)> {
    let mut at = 0;
    while at < have {
        let kind = bytes[at];
        let Some(length) = body_length(kind) else {
            print.refuse(1);
            return Ok((at, true));
        };
        if have - at < 1 + length {
            break;
        }
        play(book, kind, &bytes[at + 1..], print);
        at += 1 + length;
        print.make_room(&mut io::stdout())?;
    }
    Ok((at, false))
}

/// Plays the tape on standard input.
fn play_input(mode: Mode) -> io::Result<()> {
    let mut book = Book::new(mode);
    let mut print = Print::new();
    let mut input = io::stdin().lock();
    let mut buffer = vec![0u8; (1 << 16) + BEHIND];
    let mut have = 0;
    loop {
        let got = input.read(&mut buffer[have..1 << 16])?;
        have += got;
        let (at, over) = play_whole(&mut book, &buffer, have, &mut print)?;
        if got == 0 && at < have && !over {
            print.refuse(2);
        }
        if got == 0 || over {
            return print.flush(&mut io::stdout());
        }
        buffer.copy_within(at..have, 0);
        have -= at;
    }
}

/// Moves the rows of full tables as some quotes do, and nothing else.
fn move_rows(held: usize, d: usize, quotes: usize) {
    let mut tables = Tables::new(false);
    for _ in 0..quotes {
        std::hint::black_box(&mut tables).move_all(d, held);
    }
}

fn main() -> io::Result<()> {
    let arguments: Vec<String> = std::env::args().skip(1).collect();
    let number = |i: usize| arguments[i].parse().expect("a number");
    let plain = Mode::default();
    match arguments.first().map(String::as_str) {
        None => play_input(plain),
        Some("--judged") => play_input(Mode { judged: true, ..plain }),
        Some("--any") => play_input(Mode { judged: true, any: true, ..plain }),
        Some("--slides") => play_input(Mode { slides: true, ..plain }),
        Some("--moves") => {
            move_rows(number(1), number(2), number(3));
            Ok(())
        }
        Some(other) => panic!("no mode has the name {other}"),
    }
}
