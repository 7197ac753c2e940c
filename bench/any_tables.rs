//! Holds the yardstick's quote on any tables to the plain model of the calls: tables whoever left them, some of them torn, and quotes on
//! them; what is printed and what the tables hold has to be the same.
//!
//! usage: any_tables [SEED [TABLES]]

#[allow(dead_code)] // a quote is all that is called here
mod any_quotes;
#[allow(dead_code)]
mod book;
#[path = "../tests/call_model.rs"]
#[allow(dead_code)]
mod call_model;
#[allow(dead_code)]
mod compare;
mod notes;
#[allow(dead_code)]
mod print;
#[allow(dead_code)]
mod quotes;
#[path = "../tests/random.rs"]
mod random;
#[allow(dead_code)]
mod tables;

use book::{Book, Mode, Watch};
use call_model::{Head, Model, Plant, Record};
use print::{Counting, Print, Text};
use random::Random;

/// The quotes on each tables.
const QUOTES: usize = 6;

/// The same book twice: in the model and in the yardstick. Columns take so many values.
struct Both {
    r: Random,
    model: Model,
    book: Book,
    values: u64,
}

/// How many quotes were alike, how many of them have a retired row for a lower end, and how many were refused alike.
#[derive(Default)]
struct Tally {
    alike: usize,
    retired: usize,
    refused: usize,
}

/// A memory: mostly short, at times longer than a block or the longest.
fn some_memory(r: &mut Random) -> u32 {
    match r.below(50) {
        0 => 1_024,
        1..=8 => 60 + r.below(200) as u32,
        9..=16 => 1 + r.below(4) as u32,
        _ => 2 + r.below(80) as u32,
    }
}

/// A newest position: before the first row expires or behind it, or such that places of older rows do not fit in 16 bits.
fn some_newest(r: &mut Random, memory: u32) -> u32 {
    match r.below(4) {
        0 => 1 + r.below(memory.into()) as u32,
        1 => memory + r.below(9) as u32,
        2 => 100_000 + r.below(60_000) as u32,
        _ => memory + r.below(3_000) as u32,
    }
}

impl Both {
    /// Books with a row for every position of the window, any ends, a pair or none, and watches.
    fn new(mut r: Random) -> Both {
        let d = 1 + r.below(6) as u32;
        let (memory, directions) = (some_memory(&mut r), r.below(1 << d) as u32);
        let newest = some_newest(&mut r, memory);
        let values = [2, 3, 10, 1 << 32][r.below(4) as usize];
        let held = newest.min(memory);
        let mut model = Model::new(Plant::Nothing);
        model.head = Head { d, memory, directions, newest, live: 0, held, pair: (0, 0) };
        let mut both = Both { r, model, book: Book::new(Mode { judged: true, any: true, slides: false }), values };
        both.fill();
        both.watch();
        both.copy();
        both
    }

    /// Fills the model's rows: so many in four are retired, and lower ends lie near or anywhere.
    fn fill(&mut self) {
        let Head { d, newest, held, .. } = self.model.head;
        let (retired, near) = (self.r.below(5), self.r.below(3));
        for place in 0..held as usize {
            let position = newest + 1 - held + place as u32;
            let back = self.r.below(u64::from(position).min(40)) as u32;
            self.model.positions[place] = position;
            self.model.lower[place] = match self.r.below(4) + near {
                0 => 0,
                1 => self.r.below(position.into()) as u32,
                _ => position - 1 - back,
            };
            let live = position == newest || self.r.below(4) >= retired;
            self.model.upper[place] = if live { 0 } else { position + 1 + self.r.below(u64::from(newest - position)) as u32 };
            self.model.head.live += u32::from(live);
            for i in 0..d as usize {
                self.model.columns[place * d as usize + i] = self.r.below(self.values) as u32;
            }
        }
    }

    /// Sets a pair, mostly, and watches within the shares of the desks.
    fn watch(&mut self) {
        let memory = self.model.head.memory;
        if memory > 1 && self.r.below(4) != 0 {
            let n1 = 2 + self.r.below(u64::from(memory) - 1) as u32;
            self.model.head.pair = (n1, n1 + self.r.below(u64::from(memory - n1) + 1) as u32);
        }
        let mut records = Vec::new();
        for (desk, most) in [(1, 4), (2, 4)] {
            let mut watched: Vec<u32> = (0..most).map(|_| 1 + self.r.below(memory.into()) as u32).collect();
            watched.sort_unstable();
            watched.dedup();
            records.extend(watched.into_iter().map(|n| Record { n, desk }));
        }
        self.model.watches[..records.len()].copy_from_slice(&records);
    }

    /// Tears a row or the live count of the model.
    fn tear(&mut self) {
        let Head { newest, held, .. } = self.model.head;
        let place = self.r.below(held.into()) as usize;
        let position = self.model.positions[place];
        let odd = [0, 1, position, position + 1, newest + 1, position + 65_536, 1 << 31, (1 << 31) + position, u32::MAX];
        let value = odd[self.r.below(9) as usize];
        match self.r.below(4) {
            0 => self.model.positions[place] = value,
            1 => self.model.lower[place] = value,
            2 => self.model.upper[place] = value,
            _ => self.model.head.live = value,
        }
    }

    /// Copies the model's book into the yardstick's.
    fn copy(&mut self) {
        let Head { d, memory, directions, newest, live, held, pair } = self.model.head;
        let (book, model) = (&mut self.book, &self.model);
        (book.opened, book.d, book.memory, book.newest, book.live) = (true, d as usize, memory, newest, live);
        book.turn = std::array::from_fn(|i| if directions >> i & 1 == 1 { 0x7fff_ffff } else { 0x8000_0000 });
        book.pair = (pair != (0, 0)).then_some(pair);
        let watches = model.watches.iter().filter(|record| record.n > 0);
        book.watches.extend(watches.map(|record| Watch::new(record.desk as usize, record.n)));
        let held = held as usize;
        book.tables.columns[..held * book.d].copy_from_slice(&model.columns[..held * book.d]);
        book.tables.positions[..held].copy_from_slice(&model.positions[..held]);
        book.tables.lower_ends[..held].copy_from_slice(&model.lower[..held]);
        book.tables.upper_ends[..held].copy_from_slice(&model.upper[..held]);
        for position in newest + 1 - held as u32..=newest {
            book.texts.positions[position as usize % book.texts.positions.len()] = Text::new(position);
        }
        book.texts.counting = Counting::from(newest);
    }

    /// A quote on both; gives its answer, or a message if they differ.
    fn quote(&mut self, print: &mut Print) -> Result<u32, String> {
        let d = self.book.d;
        let mut columns = [u32::MAX; 6];
        columns[..d].fill_with(|| self.r.below(self.values) as u32);
        let line = columns[..d].iter().fold("quote".to_string(), |line, column| format!("{line} {column}"));
        let (mut want, mut got) = (String::new(), Vec::new());
        self.model.play(&line, &mut want);
        self.book.quote(d, &columns, print);
        print.flush(&mut got).expect("a print is gathered");
        let answer: u32 = want.split(' ').nth(1).and_then(|number| number.parse().ok()).expect("an answer");
        let want = if answer == 0 { self.lines(&want) } else { format!("R {answer}\n") };
        if got != want.as_bytes() {
            return Err(format!("the prints differ: model {want:?}, yardstick {:?}", String::from_utf8_lossy(&got)));
        }
        if !self.same_tables() {
            return Err("the tables differ".into());
        }
        Ok(answer)
    }

    /// The lines of an accepted quote, from what the model printed of it.
    fn lines(&self, print: &str) -> String {
        let mut lines = format!("Q {} {}\n", self.model.head.newest, self.model.head.live);
        let output = print.lines().nth(1).map_or(Vec::new(), |output| output[2..].split(' ').collect());
        let bytes: Vec<u8> = output.into_iter().map(|byte| byte.parse().expect("a byte")).collect();
        let mut rest = &bytes[..];
        while let Some(&kind) = rest.first() {
            let (frame, behind) = rest.split_at(if kind < 36 { 7 } else { 5 });
            let (n, position) = (u16::from_le_bytes([frame[1], frame[2]]), frame[frame.len() - 4..].try_into().unwrap());
            let sign = ["-", "+", "-2", "+2", "--", "++"][usize::from(kind) - 32];
            let n = if kind < 36 { format!(" {n}") } else { String::new() };
            lines += &format!("{sign}{n} {}\n", u32::from_le_bytes(position));
            rest = behind;
        }
        lines
    }

    /// Whether the N places of both books hold the same.
    fn same_tables(&self) -> bool {
        let (memory, d, tables, model) = (self.book.memory as usize, self.book.d, &self.book.tables, &self.model);
        let columns = tables.columns[..memory * d] == model.columns[..memory * d];
        let ends = tables.lower_ends[..memory] == model.lower[..memory] && tables.upper_ends[..memory] == model.upper[..memory];
        columns && ends && tables.positions[..memory] == model.positions[..memory] && self.book.live == model.head.live
    }

    /// Some quotes on both, up to the first that is refused.
    fn play(&mut self, tally: &mut Tally) -> Result<(), String> {
        let mut print = Print::new();
        for _ in 0..QUOTES {
            if self.quote(&mut print)? != 0 {
                tally.refused += 1;
                return Ok(());
            }
            let Head { held, .. } = self.model.head;
            let (first, lower) = (self.model.positions[0], self.model.lower[held as usize - 1]);
            tally.alike += 1;
            tally.retired += usize::from(lower != 0 && self.model.upper[(lower - first) as usize] != 0);
        }
        Ok(())
    }
}

fn main() {
    let mut arguments = std::env::args().skip(1);
    let seed = arguments.next().map_or(1, |s| s.parse().expect("a seed"));
    let count: u64 = arguments.next().map_or(40_000, |s| s.parse().expect("a number of tables"));
    let mut tally = Tally::default();
    for index in 0..count {
        let mut both = Both::new(Random::new(seed, index));
        if both.r.below(8) == 0 {
            both.tear();
            both.book.watches.clear();
            both.copy();
        }
        if let Err(message) = both.play(&mut tally) {
            eprintln!("any_tables: tables {index}: {message}");
            std::process::exit(1);
        }
    }
    let Tally { alike, retired, refused } = tally;
    println!("any_tables: {alike} quotes alike, of {retired} the lower end is a retired row, {refused} refused alike");
    assert!(retired > 0 && refused > 0, "more tables are needed");
}
