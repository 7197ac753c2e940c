//! Feeds random and damaged days to the day sheet and to a plain model of it, and where the day fits a book to the tape printer's look, and
//! compares the lines.
//!
//! usage: day_sheets [--plant NAME] DAY_SHEET PRINTER [SEED [DAYS]]

// frames for tapes of calls that no day has stand in this module too
#[allow(dead_code)]
mod frames;
mod piped;
mod random;

use random::Random;
use std::time::Instant;

/// The most quotes of a day.
const LONGEST: usize = 4_096;
/// The refusals that a day can bring.
const REFUSALS: [usize; 6] = [1, 2, 3, 4, 7, 17];
/// The planted bugs by name.
const PLANTS: [(&str, Plant); 6] = [
    ("equals-stay", Plant::EqualsStay),
    ("earlier-stands", Plant::EarlierStands),
    ("halves-apart", Plant::HalvesApart),
    ("from-zero", Plant::FromZero),
    ("longest-refused", Plant::LongestRefused),
    ("columns-first", Plant::ColumnsFirst),
];

/// A bug planted in the model.
#[derive(Clone, Copy, PartialEq)]
enum Plant {
    Nothing,
    /// Of two equal quotes neither beats the other.
    EqualsStay,
    /// Of two equal quotes the earlier beats the later.
    EarlierStands,
    /// The halves of the day are not compared with each other.
    HalvesApart,
    /// Positions are counted from 0.
    FromZero,
    /// A day of 4,096 quotes is too long.
    LongestRefused,
    /// 4 is judged before 3.
    ColumnsFirst,
}

/// The body length of a kind (01 and 02, the tables of frames), none for an unknown one.
fn body(kind: u8) -> Option<usize> {
    match kind {
        1..=6 => Some(4 * kind as usize),
        16..=20 => Some(2),
        21 | 23 | 48 | 36 | 37 | 40 => Some(4),
        22 => Some(0),
        32..=35 => Some(6),
        _ => None,
    }
}

/// The quotes of a day's frames up to the one behind the longest day, or 1, 2 or 7 of the first frame that is none.
fn quotes_of(tape: &[u8]) -> Result<Vec<Vec<u32>>, usize> {
    let mut quotes = Vec::new();
    let mut at = 0;
    while at < tape.len() && quotes.len() <= LONGEST {
        let kind = tape[at];
        let length = body(kind).ok_or(1_usize)?;
        let cells = tape.get(at + 1..at + 1 + length).ok_or(2_usize)?;
        if kind > 6 {
            return Err(7);
        }
        quotes.push(cells.chunks(4).map(|cell| u32::from_le_bytes(cell.try_into().unwrap())).collect());
        at += 1 + length;
    }
    Ok(quotes)
}

/// Whether the quote at place p beats the one at place q: no worse in every column and better in one, or later and equal.
fn beats(directions: u32, quotes: &[Vec<u32>], p: usize, q: usize, plant: Plant) -> bool {
    let mut better = false;
    for (i, (x, y)) in quotes[p].iter().zip(&quotes[q]).enumerate() {
        let (x, y) = if directions >> i & 1 == 1 { (y, x) } else { (x, y) };
        if x > y {
            return false;
        }
        better |= x < y;
    }
    let renewed = match plant {
        Plant::EqualsStay => false,
        Plant::EarlierStands => p < q,
        _ => q < p,
    };
    better || renewed
}

/// The line of a day by the papers alone.
fn line_of(d: u32, directions: u32, tape: &[u8], plant: Plant) -> String {
    let quotes = match quotes_of(tape) {
        Ok(quotes) => quotes,
        Err(number) => return format!("R {number}\n"),
    };
    let settings = !(1..=6).contains(&d) || directions >> d != 0;
    let columns = quotes.iter().any(|quote| quote.len() != d as usize);
    let longest = if plant == Plant::LongestRefused { LONGEST - 1 } else { LONGEST };
    let mut refusals = [(settings, 3), (columns, 4), (quotes.len() > longest, 17)];
    if plant == Plant::ColumnsFirst {
        refusals.swap(0, 1);
    }
    if let Some((_, number)) = refusals.iter().find(|refusal| refusal.0) {
        return format!("R {number}\n");
    }
    let half = quotes.len() / 2;
    let apart = |p: usize, q: usize| plant == Plant::HalvesApart && (p < half) != (q < half);
    let first = if plant == Plant::FromZero { 0 } else { 1 };
    let unbeaten = (0..quotes.len()).filter(|&q| !(0..quotes.len()).any(|p| !apart(p, q) && beats(directions, &quotes, p, q, plant)));
    "D".to_string() + &unbeaten.map(|q| format!(" {}", q + first)).collect::<String>() + "\n"
}

/// A day: its arguments and its frames.
struct Day {
    d: u32,
    directions: u32,
    tape: Vec<u8>,
}

/// The columns of a quote, drawn in one of five sorts: any values, few values, few quotes, a frontier, a drift.
fn columns_of(r: &mut Random, sort: u64, d: u32, i: usize) -> Vec<u32> {
    match sort {
        0 => (0..d).map(|_| r.next() as u32).collect(),
        1 => (0..d).map(|_| r.below(4) as u32).collect(),
        2 => vec![r.below(5) as u32; d as usize],
        3 => {
            let mut columns: Vec<u32> = (0..d).map(|_| r.below(1 << 20) as u32).collect();
            let sum: u32 = columns[1..].iter().sum();
            columns[0] = 1 << 30;
            columns[0] -= sum;
            columns
        }
        _ => (0..d).map(|_| (1 << 20) - 16 * i as u32 + r.below(4_096) as u32).collect(),
    }
}

/// A random day; every fourth is damaged. Of 64, one has the longest length, one is longer by one, neither damaged, and one has any length.
fn day(r: &mut Random, index: u64) -> Day {
    let d = 1 + r.below(6) as u32;
    let directions = r.below(1 << d) as u32;
    let count = match (index % 64, r.below(8)) {
        (1, _) => LONGEST,
        (2, _) => LONGEST + 1,
        (63, _) => r.below(LONGEST as u64 + 2) as usize,
        (_, 0) => 0,
        (_, 1) => r.below(1_025) as usize,
        _ => r.below(65) as usize,
    };
    let sort = r.below(5);
    let mut tape = Vec::new();
    for i in 0..count {
        frames::quote(&mut tape, &columns_of(r, sort, d, i));
    }
    let mut day = Day { d, directions, tape };
    if r.below(4) == 0 && !(1..=2).contains(&(index % 64)) {
        damage(r, &mut day);
    }
    day
}

/// One damage or two: an argument out of range, a frame cut, one of another kind, another column count, an unknown kind, a byte changed.
fn damage(r: &mut Random, day: &mut Day) {
    for _ in 0..1 + r.below(2) {
        let place = day.tape.len() / (1 + 4 * day.d as usize) * (1 + 4 * day.d as usize);
        match r.below(8) {
            0 => day.d = [0, 7, 4_294_967_295][r.below(3) as usize],
            1 => day.directions |= 1 << day.d.min(31),
            2 => day.tape.truncate(day.tape.len().saturating_sub(1)),
            3 => day.tape.extend([16, 1, 0]),
            4 => frames::quote(&mut day.tape, &vec![7; 1 + r.below(6) as usize]),
            5 => day.tape.push(200),
            6 if place > 0 => frames::open(&mut day.tape, 2, 8, 0),
            _ if !day.tape.is_empty() => {
                let at = r.below(day.tape.len() as u64) as usize;
                day.tape[at] ^= 1 << r.below(8);
            }
            _ => {}
        }
        if day.d == 0 || day.d > 6 {
            return;
        }
    }
}

/// What the printer's look at the list of N prints of a book that was fed the day alone, as a line of the sheet.
fn looked(printer: &str, day: &Day, memory: u16) -> String {
    let mut tape = Vec::new();
    frames::open(&mut tape, day.d as u8, memory, day.directions as u8);
    tape.extend(&day.tape);
    tape.push(16);
    tape.extend(memory.to_le_bytes());
    let (print, _) = piped::printed(printer, &tape);
    let print = String::from_utf8(print).expect("the print is text");
    let list = print.lines().last().expect("the look prints a line");
    list.replacen(&format!("L {memory}"), "D", 1) + "\n"
}

/// Compares the program with the model, and with the printer's look where the day fits a book.
fn compare(sheet: &str, printer: &str, plant: Plant, r: &mut Random, index: u64, seen: &mut [usize; 20]) -> bool {
    let day = day(r, index);
    let want = line_of(day.d, day.directions, &day.tape, plant);
    let (got, _) = piped::printed(&format!("{sheet} {} {}", day.d, day.directions), &day.tape);
    let got = String::from_utf8_lossy(&got).into_owned();
    let number: usize = want.strip_prefix("R ").map_or(0, |number| number.trim().parse().unwrap());
    seen[number] += 1;
    let count = quotes_of(&day.tape).map_or(0, |quotes| quotes.len());
    let fits = number == 0 && count <= 1_024;
    let memory = (count.max(1) as u64 + r.below(1_025 - count.max(1) as u64)) as u16;
    let list = if fits { looked(printer, &day, memory) } else { got.clone() };
    if got == want && list == got {
        return true;
    }
    eprintln!("day_sheets: day {index}: the lines differ");
    eprintln!("  model: {want:?}\n  sheet: {got:?}\n  look:  {list:?}");
    false
}

fn main() {
    let mut arguments = std::env::args().skip(1).peekable();
    let name = arguments.next_if_eq("--plant").map(|_| arguments.next().expect("the name of a planted bug"));
    let plant = name.map_or(Plant::Nothing, |name| PLANTS.iter().find(|plant| plant.0 == name).expect("a planted bug of this name").1);
    let sheet = arguments.next().expect("usage: day_sheets [--plant NAME] DAY_SHEET PRINTER [SEED [DAYS]]");
    let printer = arguments.next().expect("the printer");
    let seed: u64 = arguments.next().map_or(1, |seed| seed.parse().expect("a seed"));
    let days: u64 = arguments.next().map_or(1_000, |days| days.parse().expect("how many days"));
    let start = Instant::now();
    let mut seen = [0; 20];
    let alike = (0..days).filter(|&index| compare(&sheet, &printer, plant, &mut Random::new(seed, index), index, &mut seen)).count() as u64;
    let refusals: Vec<_> = REFUSALS.iter().map(|&number| format!("R {number} {}", seen[number])).collect();
    println!("day_sheets: {alike} of {days} days alike, {} sheets, {}; {:.1} s", seen[0], refusals.join(", "), start.elapsed().as_secs_f64());
    if alike < days || REFUSALS.iter().any(|&number| seen[number] == 0) {
        std::process::exit(1);
    }
}
