//! A plain model of a tape and its print: it keeps every quote and works every list out afresh.

use std::fmt::Write as _;
use std::ops::RangeInclusive;

const LAST_POSITION: usize = 16_777_215;
const LARGEST_MEMORY: u16 = 1_024;
const RECORDS: usize = 8;
/// How many watches each desk is sure of, and how many more the two share.
const SURE: usize = 3;
const LEFT_OVER: usize = 2;
/// What stands behind the sign of a line, for each desk.
const SIGNS: [&str; 2] = ["", "2"];

/// A wrong reading of the rules that can be planted in the model, to show that a comparison with it fails.
#[derive(Clone, Copy, PartialEq)]
pub enum Plant {
    /// No wrong reading.
    Nothing,
    /// Equal quotes stand side by side.
    EqualsStay,
    /// Of equal quotes the earlier one beats the later.
    EarlierStands,
    /// Lists follow lower ends, and the oldest row that beats a row is its lower end.
    Oldest,
    /// n is counted back from the newest position without the larger-of-1 rule.
    Window,
    /// Only the list of N is kept, and the other lists are taken from it.
    Kept,
    /// A past list ends at M - n1 - 1, as 000 misprints it.
    Misprint,
    /// A past list follows lower ends alone: younger quotes that beat a row do not count.
    Upper,
    /// The changes of the pair stand before those of the plain watches.
    PairFirst,
    /// A second pair is refused with 9 before 5 and 14 are tried.
    NineFirst,
    /// The pair's list after a quote ends where the one before it did.
    PairEnd,
    /// 9 is said only where eight watches stand.
    NineAtEight,
    /// The changes of desk two stand before those of desk one.
    DeskTwoFirst,
    /// A watch of desk two is judged by the n that desk one watches.
    Watch2ByOne,
}

/// Which numbers of watches the two desks had at some time, and how often each got 9 while fewer than eight stood.
#[derive(Default)]
pub struct Shares {
    pub stood: [[bool; RECORDS + 1]; RECORDS + 1],
    pub early_nines: [usize; 2],
}

impl Shares {
    /// Whether the desks may have so many watches: what they have above 3 each is no more than the 2 left over.
    pub fn allowed(one: usize, two: usize) -> bool {
        one.saturating_sub(SURE) + two.saturating_sub(SURE) <= LEFT_OVER
    }

    /// Adds what another has seen.
    pub fn add(&mut self, other: &Shares) {
        for (row, more) in self.stood.iter_mut().zip(other.stood) {
            row.iter_mut().zip(more).for_each(|(stood, more)| *stood |= more);
        }
        self.early_nines.iter_mut().zip(other.early_nines).for_each(|(sum, more)| *sum += more);
    }
}

/// What the model holds: the settings, every quote accepted since they were taken, the n that each desk watches, rising, and the
/// watched pair of n1 and n2.
struct Model {
    plant: Plant,
    opened: bool,
    d: usize,
    memory: usize,
    directions: u8,
    quotes: Vec<[u32; 6]>,
    watched: [Vec<u16>; 2],
    pair: Option<(u16, u16)>,
    shares: Shares,
}

impl Model {
    /// A model before any opening.
    fn new(plant: Plant) -> Model {
        Model {
            plant,
            opened: false,
            d: 0,
            memory: 0,
            directions: 0,
            quotes: Vec::new(),
            watched: [Vec::new(), Vec::new()],
            pair: None,
            shares: Shares::default(),
        }
    }

    /// Whether value x is better than value y in column i.
    fn better(&self, i: usize, x: u32, y: u32) -> bool {
        if self.directions >> i & 1 == 1 {
            x > y
        } else {
            x < y
        }
    }

    /// Whether the quote at position p beats the one at position q: no worse in every column, and better in at least one or,
    /// equal in every column, the later one.
    fn beats(&self, p: usize, q: usize) -> bool {
        let (one, other) = (&self.quotes[p - 1], &self.quotes[q - 1]);
        let no_worse = (0..self.d).all(|i| !self.better(i, other[i], one[i]));
        let better = (0..self.d).any(|i| self.better(i, one[i], other[i]));
        let renews = match self.plant {
            Plant::EqualsStay => false,
            Plant::EarlierStands => p < q,
            _ => p > q,
        };
        no_worse && (better || renews)
    }

    /// The window of n: the larger of 1 and M - n + 1, up to M.
    fn window(&self, n: usize) -> RangeInclusive<usize> {
        let newest = self.quotes.len();
        let start = match self.plant {
            Plant::Window => (newest + 1).wrapping_sub(n),
            _ => (newest + 1).saturating_sub(n),
        };
        start.max(1)..=newest
    }

    /// The positions of a range that no quote of that range beats, rising.
    fn unbeaten(&self, range: RangeInclusive<usize>) -> Vec<usize> {
        let beaten = |p: usize| range.clone().any(|q| self.beats(q, p));
        range.clone().filter(|&p| !beaten(p)).collect()
    }

    /// The list of n, by the definition or as a planted bug has it.
    fn list(&self, n: usize) -> Vec<usize> {
        match self.plant {
            Plant::Oldest => self.listed_by_oldest(n),
            Plant::Kept => self.unbeaten(self.window(self.memory)).into_iter().filter(|p| self.window(n).contains(p)).collect(),
            _ => self.unbeaten(self.window(n)),
        }
    }

    /// The past list: the unbeaten positions among a to b, a the larger of 1 and M - n2 + 1, b = M - n1 + 1; empty if b is below 1.
    fn past_list(&self, n1: usize, n2: usize) -> Vec<usize> {
        let back = if self.plant == Plant::Misprint { n1 + 1 } else { n1 - 1 };
        let (a, b) = (*self.window(n2).start(), self.quotes.len() as isize - back as isize);
        if b < 1 {
            return Vec::new();
        }
        let b = b as usize;
        if self.plant == Plant::Upper {
            return (a..=b).filter(|&p| !(a..p).any(|q| self.beats(q, p))).collect();
        }
        self.unbeaten(a..=b)
    }

    /// A planted bug: the rows whose oldest beating row is older than the window of n.
    fn listed_by_oldest(&self, n: usize) -> Vec<usize> {
        let start = *self.window(n).start();
        let rows = self.rows();
        let lower_end = |p: usize| rows.iter().copied().find(|&q| q < p && self.beats(q, p)).unwrap_or(0);
        rows.iter().copied().filter(|&p| lower_end(p) < start && start <= p).collect()
    }

    /// The positions of the window of N that no younger quote beats, rising.
    fn rows(&self) -> Vec<usize> {
        if self.plant == Plant::Kept {
            return self.unbeaten(self.window(self.memory));
        }
        let newest = self.quotes.len();
        let beaten = |p: usize| (p + 1..=newest).any(|q| self.beats(q, p));
        self.window(self.memory).filter(|&p| !beaten(p)).collect()
    }

    /// An opening.
    fn open(&mut self, d: u8, memory: u16, directions: u8, print: &mut String) {
        if self.opened {
            return refuse(7, print);
        }
        let fits = (1..=6).contains(&d) && (1..=LARGEST_MEMORY).contains(&memory) && u32::from(directions) < 1 << d;
        if !fits {
            return refuse(3, print);
        }
        self.opened = true;
        self.d = d.into();
        self.memory = memory.into();
        self.directions = directions;
        self.note_shares();
        writeln!(print, "O {d} {memory} {directions}").unwrap();
    }

    /// A quote of some columns, with the changes that it brings.
    fn quote(&mut self, columns: &[u32], print: &mut String) {
        if !self.opened {
            return refuse(7, print);
        }
        if columns.len() != self.d {
            return refuse(4, print);
        }
        if self.quotes.len() >= LAST_POSITION {
            return refuse(6, print);
        }
        let before = self.watched_lists();
        let pair_before = self.pair_list(0);
        let mut quote = [0; 6];
        quote[..self.d].copy_from_slice(columns);
        self.quotes.push(quote);
        writeln!(print, "Q {} {}", self.quotes.len(), self.rows().len()).unwrap();
        let [one, two] = self.plain_changes(&before);
        let (early, mut pair) = (usize::from(self.plant == Plant::PairEnd), String::new());
        changes("--", "++", &pair_before, &self.pair_list(early), &mut pair);
        *print += &match self.plant {
            Plant::PairFirst => pair + &one + &two,
            Plant::DeskTwoFirst => two + &one + &pair,
            _ => one + &two + &pair,
        };
    }

    /// The lists that each desk watches, n rising.
    fn watched_lists(&self) -> [Vec<Vec<usize>>; 2] {
        let lists = |desk: usize| self.watched[desk].iter().map(|&n| self.list(n.into())).collect();
        [lists(0), lists(1)]
    }

    /// The changes of each desk's watches, n rising, from their lists before to those now.
    fn plain_changes(&self, before: &[Vec<Vec<usize>>; 2]) -> [String; 2] {
        let mut prints = [String::new(), String::new()];
        for (desk, now) in self.watched_lists().iter().enumerate() {
            for ((&n, before), now) in self.watched[desk].iter().zip(&before[desk]).zip(now) {
                watch_changes(desk, n, before, now, &mut prints[desk]);
            }
        }
        prints
    }

    /// The past list of the watched pair, or the one that ends so many positions earlier; nothing where no pair stands.
    fn pair_list(&self, early: usize) -> Vec<usize> {
        self.pair.map_or(Vec::new(), |(n1, n2)| self.past_list(usize::from(n1) + early, n2.into()))
    }

    /// The refusal of a call on n that holds whatever the call is.
    fn refusal(&self, n: u16) -> Option<u8> {
        match n {
            _ if !self.opened => Some(7),
            0 => Some(5),
            n if usize::from(n) > self.memory => Some(5),
            _ => None,
        }
    }

    /// A look at the list of n.
    fn look(&self, n: u16, print: &mut String) {
        if let Some(number) = self.refusal(n) {
            return refuse(number, print);
        }
        write!(print, "L {n}").unwrap();
        for p in self.list(n.into()) {
            write!(print, " {p}").unwrap();
        }
        print.push('\n');
    }

    /// The refusal of a call on n1 and n2 that holds whatever the call is, where n1 has to be at least some number.
    fn pair_refusal(&self, n1: u16, n2: u16, least: u16) -> Option<u8> {
        match (n1, n2) {
            _ if !self.opened => Some(7),
            _ if n1 < least || usize::from(n2) > self.memory => Some(5),
            _ if n1 > n2 => Some(14),
            _ => None,
        }
    }

    /// A look at the past list of n1 and n2.
    fn past(&self, n1: u16, n2: u16, print: &mut String) {
        if let Some(number) = self.pair_refusal(n1, n2, 1) {
            return refuse(number, print);
        }
        write!(print, "P {n1} {n2}").unwrap();
        for p in self.past_list(n1.into(), n2.into()) {
            write!(print, " {p}").unwrap();
        }
        print.push('\n');
    }

    /// Whether a desk has no watch free: it has 3 or more, and what the desks have above 3 each comes to 2.
    fn full(&self, desk: usize) -> bool {
        let [one, two] = [self.watched[0].len(), self.watched[1].len()];
        if self.plant == Plant::NineAtEight {
            return one + two == RECORDS;
        }
        self.watched[desk].len() >= SURE && one.saturating_sub(SURE) + two.saturating_sub(SURE) == LEFT_OVER
    }

    /// A watch of n set for a desk, with its joins.
    fn watch(&mut self, desk: usize, n: u16, print: &mut String) {
        if let Some(number) = self.refusal(n) {
            return refuse(number, print);
        }
        let judged = if self.plant == Plant::Watch2ByOne { 0 } else { desk };
        if self.watched[judged].contains(&n) {
            return refuse(8, print);
        }
        if self.full(desk) {
            self.shares.early_nines[desk] += usize::from(self.watched.concat().len() < RECORDS);
            return refuse(9, print);
        }
        writeln!(print, "W{} {n}", SIGNS[desk]).unwrap();
        watch_changes(desk, n, &[], &self.list(n.into()), print);
        self.watched[desk].push(n);
        self.watched[desk].sort_unstable();
        self.note_shares();
    }

    /// Notes how many watches each desk has.
    fn note_shares(&mut self) {
        self.shares.stood[self.watched[0].len()][self.watched[1].len()] = true;
    }

    /// The watch of n ended for a desk.
    fn end(&mut self, desk: usize, n: u16, print: &mut String) {
        if let Some(number) = self.refusal(n) {
            return refuse(number, print);
        }
        if !self.watched[desk].contains(&n) {
            return refuse(10, print);
        }
        self.watched[desk].retain(|&w| w != n);
        self.note_shares();
        writeln!(print, "U{} {n}", SIGNS[desk]).unwrap();
    }

    /// A watch of the pair of n1 and n2 set, with its joins.
    fn set_pair(&mut self, n1: u16, n2: u16, print: &mut String) {
        if self.plant == Plant::NineFirst && self.pair.is_some() {
            return refuse(9, print);
        }
        if let Some(number) = self.pair_refusal(n1, n2, 2) {
            return refuse(number, print);
        }
        if self.pair.is_some() {
            return refuse(9, print);
        }
        self.pair = Some((n1, n2));
        writeln!(print, "B {n1} {n2}").unwrap();
        changes("--", "++", &[], &self.pair_list(0), print);
    }

    /// The watch of the pair ended.
    fn end_pair(&mut self, print: &mut String) {
        if !self.opened {
            return refuse(7, print);
        }
        if self.pair.take().is_none() {
            return refuse(10, print);
        }
        print.push_str("E\n");
    }

    /// One whole frame.
    fn play(&mut self, kind: u8, body: &[u8], print: &mut String) {
        let n = || u16::from_le_bytes([body[0], body[1]]);
        let n2 = || u16::from_le_bytes([body[2], body[3]]);
        match kind {
            1..=6 => {
                let cells = body.chunks(4).map(|c| u32::from_le_bytes([c[0], c[1], c[2], c[3]]));
                self.quote(&cells.collect::<Vec<_>>(), print);
            }
            16 => self.look(n(), print),
            17 => self.watch(0, n(), print),
            18 => self.end(0, n(), print),
            19 => self.watch(1, n(), print),
            20 => self.end(1, n(), print),
            21 => self.set_pair(n(), n2(), print),
            22 => self.end_pair(print),
            23 => self.past(n(), n2(), print),
            48 => self.open(body[0], u16::from_le_bytes([body[1], body[2]]), body[3], print),
            _ => refuse(7, print),
        }
    }
}

/// The changes from one list to another: the leaves, then the joins, each position behind the words given for them.
fn changes(leaves: &str, joins: &str, before: &[usize], after: &[usize], print: &mut String) {
    for p in before.iter().filter(|&p| after.binary_search(p).is_err()) {
        writeln!(print, "{leaves} {p}").unwrap();
    }
    for p in after.iter().filter(|&p| before.binary_search(p).is_err()) {
        writeln!(print, "{joins} {p}").unwrap();
    }
}

/// The changes of a desk's watch from one list of n to another.
fn watch_changes(desk: usize, n: u16, before: &[usize], after: &[usize], print: &mut String) {
    let sign = SIGNS[desk];
    changes(&format!("-{sign} {n}"), &format!("+{sign} {n}"), before, after, print);
}

/// The line of a refusal.
fn refuse(number: u8, print: &mut String) {
    writeln!(print, "R {number}").unwrap();
}

/// How many bytes the body of a kind has; none for an unknown kind.
fn body_length(kind: u8) -> Option<usize> {
    match kind {
        1..=6 => Some(4 * usize::from(kind)),
        16..=20 => Some(2),
        22 => Some(0),
        21 | 23 | 36 | 37 | 40 | 48 => Some(4),
        32..=35 => Some(6),
        _ => None,
    }
}

/// The print of a tape: its frames played in turn, up to its end or the first unknown or cut frame; and the shares seen.
pub fn played(tape: &[u8], plant: Plant) -> (String, Shares) {
    let mut model = Model::new(plant);
    let mut print = String::new();
    let mut rest = tape;
    while let Some((&kind, behind)) = rest.split_first() {
        let Some(length) = body_length(kind) else {
            refuse(1, &mut print);
            break;
        };
        if behind.len() < length {
            refuse(2, &mut print);
            break;
        }
        let (body, next) = behind.split_at(length);
        model.play(kind, body, &mut print);
        rest = next;
    }
    (print, model.shares)
}

/// The print of a tape alone.
pub fn print_of(tape: &[u8], plant: Plant) -> String {
    played(tape, plant).0
}
