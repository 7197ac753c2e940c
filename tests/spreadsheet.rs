//! Reads files of comma-separated quotes plainly, by the paper and the unquoted part of RFC 4180, and compares the importer with that on
//! random files, and on good ones with each byte changed, dropped and doubled.
//!
//! usage: spreadsheet [--plant BUG] IMPORTER [SEED [FILES]]

mod random;

use random::Random;
use std::io::Write;
use std::process::{Command, Stdio};

/// The largest file that the importer takes.
const LARGEST: usize = 1 << 20;

/// A number: decimal digits, at most 4,294,967,295, no zero before them.
fn number(field: &[u8], plant: &str) -> Option<u32> {
    let zero_before = field.len() > 1 && field[0] == b'0' && plant != "leading-zero";
    if field.is_empty() || field.len() > 10 || zero_before || !field.iter().all(u8::is_ascii_digit) {
        return None;
    }
    let value = field.iter().fold(0u64, |value, digit| value * 10 + u64::from(digit - b'0'));
    let bound = if plant == "above" { 1 << 32 } else { u64::from(u32::MAX) };
    (value <= bound).then_some(value as u32)
}

/// The frame of a line of d numbers; none if the line does not fit.
fn frame(d: usize, line: &[u8], plant: &str) -> Option<Vec<u8>> {
    let fields: Vec<&[u8]> = line.split(|&byte| byte == b',').collect();
    let enough = if plant == "fewer-columns" { fields.len() <= d } else { fields.len() == d };
    let numbers: Option<Vec<u32>> = fields.iter().map(|field| number(field, plant)).collect();
    let numbers = numbers.filter(|_| enough)?;
    let body = numbers.iter().flat_map(|number| number.to_le_bytes());
    Some(std::iter::once(d as u8).chain(body).collect())
}

/// The lines of a file, cut at CR LF only; none begins after a final CR LF.
fn lines<'a>(file: &'a [u8], plant: &str) -> Vec<&'a [u8]> {
    let mut lines = Vec::new();
    let mut start = 0;
    let mut at = 0;
    while at < file.len() {
        let cut = file[at..].starts_with(b"\r\n");
        if cut {
            lines.push(&file[start..at]);
            at += 2;
            start = at;
        } else if plant == "lf-cuts" && file[at] == b'\n' {
            lines.push(&file[start..at]);
            at += 1;
            start = at;
        } else {
            at += 1;
        }
    }
    if start < file.len() || (plant == "empty-rest" && !file.is_empty()) {
        lines.push(&file[start..]);
    }
    lines
}

/// The frames of a file, or the number of the first line that does not fit.
fn import(d: usize, file: &[u8], plant: &str) -> Result<Vec<u8>, usize> {
    let frames: Vec<Option<Vec<u8>>> = lines(file, plant).into_iter().map(|line| frame(d, line, plant)).collect();
    let misfit = |frame: &Option<Vec<u8>>| frame.is_none();
    let named = if plant == "last-misfit" { frames.iter().rposition(misfit) } else { frames.iter().position(misfit) };
    match named {
        Some(place) => Err(place + 1),
        None => Ok(frames.into_iter().flatten().flatten().collect()),
    }
}

/// What the importer writes on standard output and on standard error.
fn imported(importer: &str, arguments: &[&str], file: &[u8]) -> (Vec<u8>, String) {
    let pipes = Command::new(importer).args(arguments).stdin(Stdio::piped()).stdout(Stdio::piped()).stderr(Stdio::piped()).spawn();
    let mut child = pipes.expect("the importer starts");
    let mut input = child.stdin.take().unwrap();
    let output = std::thread::scope(|scope| {
        scope.spawn(move || drop(input.write_all(file)));
        child.wait_with_output().expect("the importer ends")
    });
    (output.stdout, String::from_utf8_lossy(&output.stderr).into_owned())
}

/// Compares the importer with the plain reading on one file.
fn compare(importer: &str, plant: &str, d: usize, file: &[u8]) -> bool {
    let (bytes, said) = imported(importer, &[&d.to_string()], file);
    let expected = import(d, file, plant);
    let same = match &expected {
        Ok(frames) => bytes == *frames && said.is_empty(),
        Err(line) => bytes.is_empty() && said.starts_with(&format!("R 18 line {line}: ")) && said.lines().count() == 1,
    };
    if !same {
        println!("the imports differ: d {d}, file {:?}", String::from_utf8_lossy(file));
        println!("plain: {expected:?}\nimporter: {bytes:?} {said:?}");
        std::process::exit(1);
    }
    expected.is_ok()
}

/// A number at an edge, or a small one.
fn any_number(r: &mut Random) -> u64 {
    match r.below(4) {
        0 => [0, 9, 10, 99, 4_294_967_294, 4_294_967_295][r.below(6) as usize],
        1 => r.next() >> (32 + r.below(32)),
        _ => r.below(120),
    }
}

/// A file whose lines all fit.
fn good_file(r: &mut Random, d: usize, count: u64) -> Vec<u8> {
    let mut file = Vec::new();
    for line in 0..count {
        let numbers: Vec<String> = (0..d).map(|_| any_number(r).to_string()).collect();
        file.extend(numbers.join(",").into_bytes());
        if line + 1 < count || r.below(2) == 0 {
            file.extend(b"\r\n");
        }
    }
    file
}

/// Changes a file in one place: a byte dropped, doubled, put in, replaced or put behind it, or a number or line that does not fit.
fn spoil(r: &mut Random, file: &mut Vec<u8>) {
    let odd: &[&[u8]] = &[b"\r", b"\n", b"\r\n", b",", b"0", b" ", b"-", b"+", b"\"", b"\0", b"\xff", b"4294967296", b"00", b"1,", b"\r\r\n"];
    let odd = odd[r.below(odd.len() as u64) as usize];
    let at = r.below(file.len() as u64 + 1) as usize;
    let end = (at + r.below(2) as usize).min(file.len());
    drop(file.splice(at..end, odd.iter().copied()));
}

/// Every file that differs from a good one in one byte: changed, dropped or doubled.
fn near(file: &[u8]) -> Vec<Vec<u8>> {
    let mut files = Vec::new();
    for at in 0..file.len() {
        for odd in *b"\r\n,0x" {
            let mut changed = file.to_vec();
            changed[at] = odd;
            files.push(changed);
        }
        let mut dropped = file.to_vec();
        dropped.remove(at);
        files.push(dropped);
        let mut doubled = file.to_vec();
        doubled.insert(at, file[at]);
        files.push(doubled);
    }
    files
}

/// The program's own answers: a bad D, wrong use, and the largest file.
fn own_answers(importer: &str) {
    for d in ["0", "7", "4294967295"] {
        let (bytes, said) = imported(importer, &[d], b"1\r\n");
        assert!(bytes.is_empty() && said.starts_with("R 3: ") && said.lines().count() == 1, "D {d}: {said:?}");
    }
    for wrong in [&[][..], &[""], &["x"], &["01"], &["-1"], &["4294967296"], &["1,2"], &["2", "2"], &["11111111111111111111"]] {
        let (bytes, said) = imported(importer, wrong, b"1\r\n");
        assert!(bytes.is_empty() && said.starts_with("usage: ") && said.lines().count() == 1, "{wrong:?}: {said:?}");
    }
    let mut file = b"7\r\n".repeat(LARGEST / 3);
    file.resize(LARGEST, b'1');
    let (bytes, said) = imported(importer, &["1"], &file);
    assert!(Ok(bytes) == import(1, &file, "") && said.is_empty(), "the largest file: {said:?}");
    file.push(b'1');
    let (bytes, said) = imported(importer, &["1"], &file);
    assert!(bytes.is_empty() && said.contains("larger than 1 MiB"), "a file that is too large: {said:?}");
}

fn main() {
    let mut arguments: Vec<String> = std::env::args().skip(1).collect();
    let mut plant = String::new();
    if arguments.first().is_some_and(|first| first == "--plant") {
        plant = arguments.remove(1);
        arguments.remove(0);
    }
    let importer = arguments.first().expect("usage: spreadsheet [--plant BUG] IMPORTER [SEED [FILES]]").clone();
    let seed = arguments.get(1).map_or(1, |seed| seed.parse().expect("a seed"));
    let count: u64 = arguments.get(2).map_or(1_000, |count| count.parse().expect("a number of files"));
    let mut accepted = 0;
    let mut judged = 0;
    let mut check = |d: usize, file: &[u8]| {
        judged += 1;
        accepted += usize::from(compare(&importer, &plant, d, file));
    };
    for file in [&b""[..], b"\r\n", b"1\n2\r\n", b"1\r\r\n", b"1\r\n\r\n", b"\n", b"\r", b"1\r", b"1\r\n2", b"4294967296", b"00", b"0"] {
        check(1, file);
    }
    for file in [&b"1,2\r\n3,4\r\n"[..], b"1,2\r\n3,4", b"1,2\r\n3\r\n4,5,6", b"1,2\n3,4\n"] {
        check(2, file);
    }
    for d in 1..=6 {
        let mut r = Random::new(seed, 1 << 32 | d as u64);
        let lines = if d < 3 { 3 } else { 2 };
        near(&good_file(&mut r, d, lines)).iter().for_each(|file| check(d, file));
    }
    for index in 0..count {
        let mut r = Random::new(seed, index);
        let d = 1 + r.below(6) as usize;
        let lines = if index % 100 == 99 { 10_000 } else { r.below(8) };
        let mut file = good_file(&mut r, d, lines);
        for _ in 0..r.below(3) {
            spoil(&mut r, &mut file);
        }
        check(d, &file);
    }
    own_answers(&importer);
    println!("{judged} files, {accepted} of them accepted: the importer agrees with the plain reading");
}
