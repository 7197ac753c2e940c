//! Tapes made at random from a seed: good ones, cut ones, odd kinds, random bytes, and good ones with bits flipped.

use crate::frames;
use crate::random::Random;

/// The kinds of a watch and of its end, desk one's and desk two's.
const WATCH: [u8; 2] = [17, 19];
const END: [u8; 2] = [18, 20];
/// How many pairs of a column count and a directions byte are in range.
const SETTINGS: u64 = 2 + 4 + 8 + 16 + 32 + 64;

/// How the columns of a tape's quotes are drawn.
#[derive(Clone, Copy)]
enum Values {
    /// One of so many distinct values, so that equal quotes abound where columns are few.
    Few(u64),
    /// One of so many distinct quotes, so that equal quotes abound whatever the column count.
    Repeated(u64),
    /// Any value.
    Wide,
    /// Values that rise along the tape.
    Rising,
    /// Values that fall along the tape.
    Falling,
    /// The two lowest and the two highest values.
    Extremes,
    /// Columns that get better and worse in turn along the tape, so that with two columns or more no quote beats another.
    Crossing,
}

/// What a tape's frames are drawn by: the settings, the sort of values, how often a watch or its end comes, how many in four of
/// these are desk two's, how many in eight quotes have a look behind them, and the n of most of those looks.
struct Style {
    d: u8,
    memory: u16,
    directions: u8,
    values: Values,
    watching: u64,
    leaning: u64,
    looking: u64,
    looked: u16,
}

impl Style {
    /// A style; the settings go round with the tape's index, so that every pair of d and directions comes.
    fn new(r: &mut Random, index: u64) -> Style {
        let (d, directions) = settings(index % SETTINGS);
        let memory = match r.below(8) {
            0 => 1,
            1 => 1_024,
            2 => 1 + r.below(1_024) as u16,
            3 => 17 + r.below(48) as u16,
            _ => 2 + r.below(14) as u16,
        };
        let values = match r.below(10) {
            0 => Values::Wide,
            1 => Values::Rising,
            2 => Values::Falling,
            3 => Values::Extremes,
            4 => Values::Crossing,
            5..=7 => Values::Repeated(1 + r.below(6)),
            _ => Values::Few(1 + r.below(5)),
        };
        let (watching, leaning) = ([1, 2, 12][r.below(3) as usize], r.below(5));
        let looking = [0, 0, 7][r.below(3) as usize];
        let style = Style { d, memory, directions, values, watching, leaning, looking, looked: 1 };
        Style { looked: style.window_size(r), ..style }
    }

    /// A value of column i at a step of the tape.
    fn column(&self, r: &mut Random, i: u8, step: u32) -> u32 {
        let up = 3 * step;
        let down = 1_000_000_000 - 3 * step;
        let rises = (self.directions >> i ^ i) & 1 == 0;
        match self.values {
            Values::Few(k) | Values::Repeated(k) => r.below(k) as u32,
            Values::Wide => r.next() as u32,
            Values::Rising => up + r.below(4) as u32,
            Values::Falling => down + r.below(4) as u32,
            Values::Extremes => [0, 1, u32::MAX - 1, u32::MAX][r.below(4) as usize],
            Values::Crossing if rises => up,
            Values::Crossing => down,
        }
    }

    /// A window size: mostly in range, sometimes at or beyond an edge.
    fn window_size(&self, r: &mut Random) -> u16 {
        match r.below(14) {
            0 => 1,
            1 => self.memory,
            2 => self.memory + 1,
            3 => [0, 65_535, 256, 1_024][r.below(4) as usize],
            4 | 5 => 1 + r.below(self.memory.into()) as u16,
            _ => 1 + r.below(self.memory.min(12).into()) as u16,
        }
    }

    /// Two window sizes: mostly in order, alike at times, at times the wrong way round or out of range.
    fn window_sizes(&self, r: &mut Random) -> (u16, u16) {
        let (one, other) = (self.window_size(r), self.window_size(r));
        match r.below(10) {
            0 => (one, one),
            1 => (one.max(other), one.min(other)),
            2 => (0, one),
            3 => (one, [0, self.memory, self.memory + 1][r.below(3) as usize]),
            4 | 5 => (1 + r.below(self.memory.into()) as u16, self.memory),
            _ => (one.min(other), one.max(other)),
        }
    }

    /// A watch of one of the desks set, or ended.
    fn watch(&self, r: &mut Random, tape: &mut Vec<u8>) {
        let two = r.below(4) < self.leaning;
        let kind = if r.below(3) == 0 { END } else { WATCH };
        numbered(tape, kind[usize::from(two)], self.window_size(r));
    }

    /// A look at a past list.
    fn past_look(&self, r: &mut Random, tape: &mut Vec<u8>) {
        let (n1, n2) = self.window_sizes(r);
        past(tape, n1, n2);
    }

    /// The pair watched, or its watch ended.
    fn pair(&self, r: &mut Random, tape: &mut Vec<u8>) {
        if r.below(4) == 0 {
            return tape.push(22);
        }
        let (n1, n2) = self.window_sizes(r);
        set_pair(tape, n1, n2);
    }

    /// A quote, and behind it a look as often as the style says: mostly directly, and mostly of the style's n.
    fn quote(&self, r: &mut Random, step: u32, tape: &mut Vec<u8>) {
        self.quote_alone(r, step, tape);
        if r.below(8) < self.looking {
            match r.below(20) {
                0 => self.watch(r, tape),
                1 => self.past_look(r, tape),
                2 => self.pair(r, tape),
                3 if r.below(3) == 0 => change(r, tape),
                _ => {}
            }
            look(tape, if r.below(4) == 0 { self.window_size(r) } else { self.looked });
        }
    }

    /// A quote, once in 40 with a column count of its own, more often where looks are behind quotes. One of so many distinct
    /// quotes has a generator of its own.
    fn quote_alone(&self, r: &mut Random, step: u32, tape: &mut Vec<u8>) {
        let count = if r.below(40) <= self.looking / 2 { 1 + r.below(6) as u8 } else { self.d };
        let mut repeated = match self.values {
            Values::Repeated(k) => Some(Random::new(k, r.below(k))),
            _ => None,
        };
        let r = repeated.as_mut().unwrap_or(r);
        let columns: Vec<u32> = (0..count).map(|i| self.column(r, i, step)).collect();
        frames::quote(tape, &columns);
    }

    /// A burst: one quote many times over, or many quotes in a row.
    fn burst(&self, r: &mut Random, step: u32, tape: &mut Vec<u8>) {
        let before = tape.len();
        self.quote(r, step, tape);
        let frame = tape[before..].to_vec();
        let alike = r.below(2) == 0;
        for _ in 0..4 + r.below(16) {
            if alike {
                tape.extend(&frame);
            } else {
                self.quote(r, step, tape);
            }
        }
    }

    /// A frame, or a burst of them, for one step of a tape.
    fn step(&self, r: &mut Random, step: u32, tape: &mut Vec<u8>) {
        match r.below(24 + 2 * self.watching) {
            0 => self.burst(r, step, tape),
            1..=3 => look(tape, self.window_size(r)),
            4 if r.below(3) == 0 => any_opening(r, tape),
            5 if r.below(3) == 0 => change(r, tape),
            6..=8 => self.past_look(r, tape),
            9 | 10 => self.pair(r, tape),
            24.. => self.watch(r, tape),
            _ => self.quote(r, step, tape),
        }
    }

    /// Some steps of a tape.
    fn steps(&self, r: &mut Random, from: u32, count: u64, tape: &mut Vec<u8>) {
        for step in 0..count as u32 {
            self.step(r, from + step, tape);
        }
    }

    /// The opening with this style's settings.
    fn open(&self, tape: &mut Vec<u8>) {
        frames::open(tape, self.d, self.memory, self.directions);
    }
}

/// The column count and directions byte with a number below `SETTINGS`.
fn settings(number: u64) -> (u8, u8) {
    let mut rest = number;
    let mut d = 1;
    while rest >= 1 << d {
        rest -= 1 << d;
        d += 1;
    }
    (d, rest as u8)
}

/// A frame whose body is n.
fn numbered(tape: &mut Vec<u8>, kind: u8, n: u16) {
    tape.push(kind);
    tape.extend(n.to_le_bytes());
}

/// A look at the list of n.
fn look(tape: &mut Vec<u8>, n: u16) {
    numbered(tape, 16, n);
}

/// A look at the past list of n1 and n2.
fn past(tape: &mut Vec<u8>, n1: u16, n2: u16) {
    tape.push(23);
    tape.extend(n1.to_le_bytes());
    tape.extend(n2.to_le_bytes());
}

/// The watch of the pair of n1 and n2.
fn set_pair(tape: &mut Vec<u8>, n1: u16, n2: u16) {
    tape.push(21);
    tape.extend(n1.to_le_bytes());
    tape.extend(n2.to_le_bytes());
}

/// A change frame or a stamp, which no played tape may hold.
fn change(r: &mut Random, tape: &mut Vec<u8>) {
    match r.below(3) {
        0 => tape.extend([32 + r.below(4) as u8, 1, 0, 1, 0, 0, 0]),
        1 => tape.extend([40, 1, 0, 0, 0]),
        _ => tape.extend([36 + r.below(2) as u8, 1, 0, 0, 0]),
    }
}

/// An opening with each setting at or around an edge of its range.
fn any_opening(r: &mut Random, tape: &mut Vec<u8>) {
    let d = [0, 1, 2, 6, 7, 255][r.below(6) as usize];
    let memory = [0, 1, 1_024, 1_025, 65_535][r.below(5) as usize];
    let directions = [0, 1 << (d % 8), 1, 63, 64, 255][r.below(6) as usize];
    frames::open(tape, d, memory, directions);
}

/// A good tape: frames that come too early at times, an opening, then frames that are mostly accepted.
fn good_tape(r: &mut Random, index: u64) -> Vec<u8> {
    let style = Style::new(r, index);
    let mut tape = Vec::new();
    if r.below(6) == 0 {
        let early = 1 + r.below(3);
        style.steps(r, 0, early, &mut tape);
    }
    for _ in 0..r.below(12).saturating_sub(8) {
        any_opening(r, &mut tape);
    }
    style.open(&mut tape);
    let count = r.below(64);
    style.steps(r, 0, count, &mut tape);
    tape
}

/// A tape longer than a reader's buffer, of a book with a short memory.
fn long_tape(r: &mut Random, index: u64) -> Vec<u8> {
    let (memory, looked) = (1 + r.below(9) as u16, 1 + r.below(9) as u16);
    let style = Style { memory, watching: 2, looked, ..Style::new(r, index) };
    let mut tape = Vec::new();
    style.open(&mut tape);
    let count = 2_000 + r.below(8_000);
    style.steps(r, 0, count, &mut tape);
    tape
}

/// A tape that fills a long memory and goes on with watches once rows age out.
fn deep_tape(r: &mut Random, index: u64) -> Vec<u8> {
    let memory = if index % 2 == 0 { 1_024 } else { 100 + r.below(900) as u16 };
    let style = Style { memory, watching: 6, ..Style::new(r, index) };
    let mut tape = Vec::new();
    style.open(&mut tape);
    for step in 0..u32::from(memory) - 20 {
        style.quote(r, step, &mut tape);
    }
    style.steps(r, u32::from(memory), 60, &mut tape);
    tape
}

/// Random bytes, by themselves or behind an opening.
fn random_bytes(r: &mut Random, index: u64) -> Vec<u8> {
    let mut tape = Vec::new();
    if r.below(2) == 0 {
        Style::new(r, index).open(&mut tape);
    }
    tape.extend((0..r.below(60)).map(|_| r.next() as u8).collect::<Vec<_>>());
    tape
}

/// Frames of known kinds with random bodies behind an opening.
fn random_bodies(r: &mut Random, index: u64) -> Vec<u8> {
    let style = Style::new(r, index);
    let mut tape = Vec::new();
    style.open(&mut tape);
    for _ in 0..r.below(30) {
        let looks = [(16, 2), (17, 2), (18, 2), (19, 2), (20, 2), (21, 4), (22, 0), (23, 4), (40, 4)];
        let others = [(style.d, 4 * style.d), (32, 6), (33, 6), (34, 6), (35, 6), (36, 4), (37, 4), (40, 4), (48, 4)];
        let (kind, length) = [looks, others][r.below(2) as usize][r.below(9) as usize];
        tape.push(kind);
        tape.extend((0..length).map(|_| (r.next() as u8) >> r.below(9).min(7)).collect::<Vec<_>>());
    }
    tape
}

/// The tape with an index: most are good, the others cut, ended by odd bytes, random, long or deep.
pub fn random_tape(seed: u64, index: u64) -> Vec<u8> {
    let mut r = Random::new(seed, index);
    if index % 2_000 == 1_999 {
        return long_tape(&mut r, index);
    }
    if index % 2_500 == 999 {
        return deep_tape(&mut r, index / 2_500);
    }
    let mut tape = good_tape(&mut r, index);
    match r.below(10) {
        0 => tape.truncate(r.below(tape.len() as u64 + 1) as usize),
        1 => tape.extend((0..1 + r.below(8)).map(|_| r.next() as u8).collect::<Vec<_>>()),
        2 => tape = random_bytes(&mut r, index),
        3 => tape = random_bodies(&mut r, index),
        _ => {}
    }
    tape
}

/// A good tape with one to four of its bits flipped.
pub fn flipped_tape(seed: u64, index: u64) -> Vec<u8> {
    let mut r = Random::new(!seed, index);
    let mut tape = good_tape(&mut r, index);
    for _ in 0..1 + r.below(4) {
        let at = r.below(tape.len() as u64) as usize;
        tape[at] ^= 1 << r.below(8);
    }
    tape
}

/// A short tape with a frame of every known kind for a column count.
fn tape_of_every_kind(r: &mut Random, d: u8) -> Vec<u8> {
    let style = Style { d, memory: 4, directions: 0, values: Values::Few(3), watching: 4, leaning: 2, looking: 0, looked: 1 };
    let mut tape = Vec::new();
    style.open(&mut tape);
    for n in [2, 4] {
        style.quote(r, 0, &mut tape);
        numbered(&mut tape, WATCH[0], n);
        numbered(&mut tape, WATCH[1], n);
        look(&mut tape, n);
    }
    style.steps(r, 0, 12, &mut tape);
    change(r, &mut tape);
    numbered(&mut tape, END[0], 2);
    numbered(&mut tape, END[1], 2);
    set_pair(&mut tape, 2, 3);
    style.quote(r, 0, &mut tape);
    tape.push(22);
    style.past_look(r, &mut tape);
    tape
}

/// A short tape with looks behind most quotes for a column count: before the opening too, out of range, and behind quotes
/// of another column count.
fn tape_of_looks(r: &mut Random, d: u8) -> Vec<u8> {
    let style = Style { d, memory: 3, directions: 1, values: Values::Few(3), watching: 1, leaning: 2, looking: 7, looked: 2 };
    let mut tape = Vec::new();
    style.quote(r, 0, &mut tape);
    style.open(&mut tape);
    for n in [3, 4, 1] {
        style.quote(r, 0, &mut tape);
        frames::watch(&mut tape, n);
        frames::quote(&mut tape, &vec![n.into(); usize::from(d % 6) + 1]);
        look(&mut tape, n);
        style.quote_alone(r, 0, &mut tape);
        look(&mut tape, n);
    }
    style.steps(r, 0, 4, &mut tape);
    tape
}

/// The paper's worked tape, on which the fifth quote renews the third, and its print.
fn worked_example() -> (Vec<u8>, &'static str) {
    let mut tape = Vec::new();
    frames::open(&mut tape, 2, 5, 0);
    for quote in [[5, 5], [3, 8], [4, 4], [7, 2], [4, 4]] {
        frames::quote(&mut tape, &quote);
    }
    frames::watch(&mut tape, 2);
    frames::quote(&mut tape, &[6, 6]);
    look(&mut tape, 5);
    frames::quote(&mut tape, &[2, 9]);
    frames::quote(&mut tape, &[4, 3]);
    look(&mut tape, 3);
    let print = "O 2 5 0\nQ 1 1\nQ 2 2\nQ 3 2\nQ 4 3\nQ 5 3\nW 2\n+ 2 4\n+ 2 5\nQ 6 4\n- 2 4\nL 5 2 4 5\n\
                 Q 7 4\n- 2 5\n+ 2 6\n+ 2 7\nQ 8 3\n- 2 6\n+ 2 8\nL 3 7 8\n";
    (tape, print)
}

/// A tape on which quotes are renewed under a watch and a pair, and its print.
fn renewed_example() -> (Vec<u8>, &'static str) {
    let mut tape = Vec::new();
    frames::open(&mut tape, 2, 4, 0);
    frames::watch(&mut tape, 3);
    set_pair(&mut tape, 2, 4);
    for quote in [[5, 5], [5, 5], [4, 6], [5, 5], [4, 6]] {
        frames::quote(&mut tape, &quote);
    }
    past(&mut tape, 3, 4);
    past(&mut tape, 1, 4);
    look(&mut tape, 4);
    let print = "O 2 4 0\nW 3\nB 2 4\nQ 1 1\n+ 3 1\nQ 2 1\n- 3 1\n+ 3 2\n++ 1\nQ 3 2\n+ 3 3\n-- 1\n++ 2\n\
                 Q 4 2\n- 3 2\n+ 3 4\n++ 3\nQ 5 2\n- 3 3\n+ 3 5\n-- 2\n++ 4\nP 3 4 2 3\nP 1 4 4 5\nL 4 4 5\n";
    (tape, print)
}

/// The worked tape of past lists, and its print.
fn past_example() -> (Vec<u8>, &'static str) {
    let mut tape = Vec::new();
    frames::open(&mut tape, 2, 5, 0);
    for quote in [[5, 5], [3, 8], [4, 4]] {
        frames::quote(&mut tape, &quote);
    }
    past(&mut tape, 3, 3);
    past(&mut tape, 2, 3);
    for quote in [[7, 2], [4, 4], [6, 6]] {
        frames::quote(&mut tape, &quote);
    }
    for (n1, n2) in [(1, 3), (2, 3), (3, 5)] {
        past(&mut tape, n1, n2);
    }
    frames::quote(&mut tape, &[2, 9]);
    frames::quote(&mut tape, &[4, 3]);
    for (n1, n2) in [(1, 5), (2, 5), (2, 2), (5, 5)] {
        past(&mut tape, n1, n2);
    }
    look(&mut tape, 5);
    let print = "O 2 5 0\nQ 1 1\nQ 2 2\nQ 3 2\nP 3 3 1\nP 2 3 1 2\nQ 4 3\nQ 5 3\nQ 6 4\nP 1 3 4 5\nP 2 3 4 5\nP 3 5 2 3 4\nQ 7 4\nQ 8 3\n\
                 P 1 5 4 7 8\nP 2 5 4 5 7\nP 2 2 7\nP 5 5 4\nL 5 4 7 8\n";
    (tape, print)
}

/// The worked tape of a watched pair, and its print.
fn pair_example() -> (Vec<u8>, &'static str) {
    let mut tape = Vec::new();
    frames::open(&mut tape, 2, 6, 0);
    set_pair(&mut tape, 3, 5);
    for quote in [[3, 3], [4, 4], [1, 5], [2, 2], [9, 9], [1, 1], [5, 5]] {
        frames::quote(&mut tape, &quote);
    }
    let print = "O 2 6 0\nB 3 5\nQ 1 1\nQ 2 2\nQ 3 3\n++ 1\nQ 4 2\nQ 5 3\n++ 3\nQ 6 1\n-- 1\n++ 4\nQ 7 2\n";
    (tape, print)
}

/// A tape with looks behind quotes, some of either refused, and its print.
fn looks_example() -> (Vec<u8>, &'static str) {
    let mut tape = Vec::new();
    let pair = |tape: &mut Vec<u8>, columns: &[u32], n: u16| {
        frames::quote(tape, columns);
        look(tape, n);
    };
    look(&mut tape, 1);
    pair(&mut tape, &[5, 5], 2);
    frames::open(&mut tape, 2, 5, 0);
    pair(&mut tape, &[5, 5], 5);
    pair(&mut tape, &[3, 8], 5);
    frames::watch(&mut tape, 2);
    for (columns, n) in [(&[4, 4][..], 2), (&[7, 2], 6), (&[4], 3), (&[4, 4], 0)] {
        pair(&mut tape, columns, n);
    }
    set_pair(&mut tape, 2, 4);
    pair(&mut tape, &[6, 6], 5);
    look(&mut tape, 2);
    frames::quote(&mut tape, &[2, 9]);
    past(&mut tape, 1, 5);
    look(&mut tape, 4);
    pair(&mut tape, &[4, 3], 5);
    let print = "R 7\nR 7\nR 7\nO 2 5 0\nQ 1 1\nL 5 1\nQ 2 2\nL 5 1 2\nW 2\n+ 2 1\n+ 2 2\nQ 3 2\n- 2 1\n+ 2 3\nL 2 2 3\n\
                 Q 4 3\n- 2 2\n+ 2 4\nR 5\nR 4\nL 3 2 3 4\nQ 5 3\n- 2 3\n+ 2 5\nR 5\nB 2 4\n++ 2\n++ 3\n++ 4\n\
                 Q 6 4\n- 2 4\n-- 2\n-- 3\n++ 5\nL 5 2 4 5\nL 2 5\nQ 7 4\n- 2 5\n+ 2 6\n+ 2 7\nP 1 5 4 5 7\nL 4 4 5 7\n\
                 Q 8 3\n- 2 6\n+ 2 8\n-- 4\n++ 7\nL 5 4 7 8\n";
    (tape, print)
}

/// A tape that brings each refusal of a pair and of its end, and its print.
fn pair_refusals() -> (Vec<u8>, &'static str) {
    let mut tape = vec![22];
    set_pair(&mut tape, 2, 3);
    frames::open(&mut tape, 1, 4, 0);
    tape.push(22);
    for (n1, n2) in [(0, 2), (1, 2), (2, 5), (5, 4), (3, 2), (2, 0), (4, 4), (4, 4), (2, 3), (3, 2), (1, 2), (6, 5)] {
        set_pair(&mut tape, n1, n2);
    }
    tape.extend([17, 4, 0, 22, 22, 36, 0, 0, 0, 0, 37, 1, 0, 0, 0]);
    let print = "R 7\nR 7\nO 1 4 0\nR 10\nR 5\nR 5\nR 5\nR 14\nR 14\nR 14\nB 4 4\nR 9\nR 9\nR 14\nR 5\nR 5\nW 4\nE\nR 10\nR 7\nR 7\n";
    (tape, print)
}

/// A tape on which each desk has its share, gets 9 beyond it, and gives a watch back; and its print.
fn shares_example() -> (Vec<u8>, &'static str) {
    let mut tape = Vec::new();
    frames::open(&mut tape, 1, 8, 0);
    let taken = [(17, 1), (17, 2), (17, 3), (17, 4), (17, 5), (17, 6), (19, 1), (19, 2), (19, 3), (19, 4)];
    let given_back = [(18, 5), (19, 4), (17, 5), (19, 5), (20, 1), (17, 5), (19, 1)];
    for (kind, n) in taken.into_iter().chain(given_back) {
        numbered(&mut tape, kind, n);
    }
    let print = "O 1 8 0\nW 1\nW 2\nW 3\nW 4\nW 5\nR 9\nW2 1\nW2 2\nW2 3\nR 9\nU 5\nW2 4\nR 9\nR 9\nU2 1\nW 5\nR 9\n";
    (tape, print)
}

/// A tape on which both desks watch the same n beside a pair, with each refusal of desk two; and its print.
fn desks_example() -> (Vec<u8>, &'static str) {
    let mut tape = vec![19, 1, 0, 20, 1, 0];
    frames::open(&mut tape, 1, 4, 0);
    frames::quote(&mut tape, &[5]);
    for (kind, n) in [(19, 2), (17, 2), (19, 1)] {
        numbered(&mut tape, kind, n);
    }
    set_pair(&mut tape, 2, 3);
    frames::quote(&mut tape, &[7]);
    frames::quote(&mut tape, &[6]);
    numbered(&mut tape, 20, 2);
    frames::quote(&mut tape, &[4]);
    for (kind, n) in [(18, 2), (18, 2), (20, 2), (19, 1), (19, 0), (19, 5), (20, 0), (20, 5)] {
        numbered(&mut tape, kind, n);
    }
    tape.extend([34, 1, 0, 1, 0, 0, 0, 35, 1, 0, 1, 0, 0, 0]);
    let print = "R 7\nR 7\nO 1 4 0\nQ 1 1\nW2 2\n+2 2 1\nW 2\n+ 2 1\nW2 1\n+2 1 1\nB 2 3\nQ 2 2\n-2 1 1\n+2 1 2\n++ 1\n\
                 Q 3 2\n- 2 1\n+ 2 3\n-2 1 2\n+2 1 3\n-2 2 1\n+2 2 3\nU2 2\nQ 4 1\n- 2 3\n+ 2 4\n-2 1 3\n+2 1 4\n-- 1\n++ 3\n\
                 U 2\nR 10\nR 10\nR 8\nR 5\nR 5\nR 5\nR 5\nR 7\nR 7\n";
    (tape, print)
}

/// A tape on which the desks take so many watches, by turns, then try one more each, take a quote, and give some back.
fn tape_of_shares(one: u16, two: u16) -> Vec<u8> {
    let mut tape = Vec::new();
    frames::open(&mut tape, 1, 9, 0);
    for n in 1..=one.max(two) + 1 {
        for (desk, count) in [one, two].into_iter().enumerate() {
            if n <= count {
                numbered(&mut tape, WATCH[desk], (2 * n + one) % 9 + 1);
            }
        }
    }
    for desk in [0, 1] {
        numbered(&mut tape, WATCH[desk], one % 9 + 1);
        frames::quote(&mut tape, &[u32::from(one + two)]);
        numbered(&mut tape, END[desk], (4 + one) % 9 + 1);
        numbered(&mut tape, WATCH[1 - desk], (one + 1) % 9 + 1);
    }
    tape
}

/// The tapes that are worked out by hand, with their prints.
pub fn examples() -> Vec<(Vec<u8>, &'static str)> {
    let pairs = [past_example(), pair_example(), pair_refusals()];
    let desks = [shares_example(), desks_example()];
    [worked_example(), renewed_example(), looks_example()].into_iter().chain(pairs).chain(desks).collect()
}

/// A tape cut at every byte, and whole.
fn cuts(whole: Vec<u8>) -> impl Iterator<Item = Vec<u8>> {
    (0..=whole.len()).map(move |keep| whole[..keep].to_vec())
}

/// The worked tapes and, for every column count, tapes of every kind and with looks behind quotes, all cut at every byte; tapes on
/// which the desks take any numbers of watches; and every kind byte before bodies of several lengths, alone and behind an opening.
pub fn edge_tapes(seed: u64) -> Vec<Vec<u8>> {
    let mut tapes: Vec<Vec<u8>> = examples().into_iter().flat_map(|(tape, _)| cuts(tape)).collect();
    tapes.extend((0..=6).flat_map(|one| (0..=6).map(move |two| tape_of_shares(one, two))));
    for d in 1..=6 {
        tapes.extend(cuts(tape_of_every_kind(&mut Random::new(seed, d), d as u8)));
        tapes.extend(cuts(tape_of_looks(&mut Random::new(!seed, d), d as u8)));
    }
    for kind in 0..=255 {
        let mut opened = Vec::new();
        frames::open(&mut opened, 1 + kind % 6, 5, 0);
        for body in [0, 1, 2, 5, 6, 30] {
            let frame = [vec![kind], vec![1; body]].concat();
            tapes.push([&opened[..], &frame[..]].concat());
            tapes.push(frame);
        }
    }
    tapes
}
