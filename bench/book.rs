//! A book on four tables, and the calls on it but for the quote.

use crate::any_quotes::Joining;
use crate::notes::Notes;
use crate::print::{Counting, Prefix, Print, Text};
use crate::tables::{Places, Tables, CAPACITY};

pub const LAST_POSITION: u32 = 16_777_215;
pub const RECORDS: usize = 8;
/// How many watches each desk is sure of, and how many more the two share.
const SURE: usize = 3;
const LEFT_OVER: usize = 2;
/// The numbers from one desk's records to the next desk's.
const DESK: u64 = 1 << 32;
/// Texts are kept of so many positions, the newest ones.
const TEXTS: usize = 2 * CAPACITY;

/// How a book is kept: whether 11 and 12 are judged at every call, whether rows slide through longer tables, and whether a quote takes any
/// tables that are not torn.
#[derive(Clone, Copy, Default)]
pub struct Mode {
    pub judged: bool,
    pub slides: bool,
    pub any: bool,
}

/// A desk, 1 or 2, and an n as one number.
fn record(desk: usize, n: u32) -> u64 {
    desk as u64 * DESK + u64::from(n)
}

/// A watch: its desk and n as one number, so that records stand as their numbers rise, and what its lines begin with.
pub struct Watch {
    pub record: u64,
    pub leaves: Prefix,
    pub joins: Prefix,
}

impl Watch {
    /// The watch of n, which is at most N, by a desk, 1 or 2.
    pub fn new(desk: usize, n: u32) -> Watch {
        let prefix = |sign: &str| Prefix::new(&format!("{sign}{} {n} ", ["", "2"][desk - 1]));
        Watch { record: record(desk, n), leaves: prefix("-"), joins: prefix("+") }
    }

    /// Its n.
    pub fn n(&self) -> u32 {
        self.record as u32
    }
}

/// The texts of the newest positions, of the row counts, and what the lines of a quote and of the pair begin with.
pub struct Texts {
    pub positions: Box<[Text; TEXTS]>,
    pub counting: Counting,
    pub counts: Box<[Text; CAPACITY + 1]>,
    pub quote: Prefix,
    pub leaves: Prefix,
    pub joins: Prefix,
}

impl Texts {
    /// The texts before any quote.
    pub fn new() -> Texts {
        let [quote, leaves, joins] = ["Q ", "-- ", "++ "].map(Prefix::new);
        let counts = Box::new(std::array::from_fn(|count| Text::new(count as u32)));
        Texts { positions: Box::new([Text::new(0); TEXTS]), counting: Counting::from(0), counts, quote, leaves, joins }
    }

    /// Makes the text of the next position.
    #[inline(always)]
    pub fn add(&mut self, position: u32) {
        self.positions[position as usize % TEXTS] = self.counting.next(position);
    }

    /// The text of a row count.
    #[inline(always)]
    pub fn count(&self, count: u32) -> &Text {
        &self.counts[count as usize]
    }

    /// The text of a position.
    #[inline(always)]
    pub fn of(&self, position: u32) -> &Text {
        &self.positions[position as usize % TEXTS]
    }
}

/// The windows of the watches, zeros behind them: the places at which each starts before a quote and after it, and which of them are
/// full, as the bits of a number. They stay as they are once a row expires at every quote.
#[derive(Default)]
pub struct Windows {
    pub before: [i16; RECORDS],
    pub after: [i16; RECORDS],
    pub full: u32,
    pub all: u32,
}

impl Windows {
    /// The windows of some watches, where M is the newest position before the quote and the first one stands at place 0.
    pub fn new(watches: &[Watch], newest: u32, first: u32) -> Windows {
        let mut windows = Windows { all: (1 << watches.len()) - 1, ..Windows::default() };
        for (i, watch) in watches.iter().enumerate() {
            windows.before[i] = (window_start(newest, watch.n()) - first) as i16;
            windows.after[i] = (window_start(newest + 1, watch.n()) - first) as i16;
            windows.full |= u32::from(newest >= watch.n()) << i;
        }
        windows
    }
}

/// The book: the head, the tables, the watches, desk one's and then desk two's, n rising in each, and the watched pair.
pub struct Book {
    pub mode: Mode,
    pub opened: bool,
    pub d: usize,
    pub memory: u32,
    /// For each column a mask: a cell xored with it, as a signed number, is better where it is lower.
    pub turn: [u32; 6],
    pub newest: u32,
    pub live: u32,
    pub tables: Tables,
    pub watches: Vec<Watch>,
    pub windows: Windows,
    /// Whether the windows are those of the watches, and stay so.
    pub steady: bool,
    pub pair: Option<(u32, u32)>,
    /// The rows that a quote retires, youngest first, and those whose lower end is the position that expires.
    pub retired: Places,
    pub named: Places,
    /// Whether some row may have a lower end, and whether one may have an upper end that names another quote than the newest.
    pub lowered: bool,
    pub ended: bool,
    /// What a quote on any tables notes of the rows.
    pub notes: Notes,
    pub joining: Joining,
    pub texts: Texts,
}

/// The first position of the window of n.
pub fn window_start(newest: u32, n: u32) -> u32 {
    (newest + 1).saturating_sub(n).max(1)
}

/// How many watches the desks have above those that each is sure of.
fn above(shares: [usize; 2]) -> usize {
    shares[0].saturating_sub(SURE) + shares[1].saturating_sub(SURE)
}

impl Book {
    /// The book before any opening.
    pub fn new(mode: Mode) -> Book {
        Book {
            mode,
            opened: false,
            d: 0,
            memory: 0,
            turn: [0; 6],
            newest: 0,
            live: 0,
            tables: Tables::new(mode.slides),
            watches: Vec::with_capacity(RECORDS),
            windows: Windows::default(),
            steady: false,
            pair: None,
            retired: Places::new(),
            named: Places::new(),
            lowered: false,
            ended: false,
            notes: Notes::new(),
            joining: Joining::new(),
            texts: Texts::new(),
        }
    }

    /// How many rows are held.
    pub fn held(&self) -> usize {
        self.newest.min(self.memory) as usize
    }

    /// The first position of the window of N, which stands at place 0.
    pub fn first(&self) -> u32 {
        window_start(self.newest, self.memory)
    }

    /// The refusal of any call but an opening: 7, then 11 and 12 if they are judged.
    pub fn unfit(&self) -> Option<u32> {
        if !self.opened {
            Some(7)
        } else if self.mode.judged && self.short() {
            Some(11)
        } else if self.mode.judged && self.torn() {
            Some(12)
        } else {
            None
        }
    }

    /// Whether a table or the list of watches is shorter than N asks.
    pub fn short(&self) -> bool {
        let (tables, memory) = (&self.tables, self.memory as usize);
        let cells = tables.positions.len().min(tables.lower_ends.len()).min(tables.upper_ends.len());
        tables.columns.len() < memory * self.d || cells < memory || self.watches.capacity() < RECORDS
    }

    /// Whether 12 holds.
    fn torn(&self) -> bool {
        self.torn_head() || self.tables.torn(self.first(), self.newest, self.held(), self.live)
    }

    /// Whether 12 holds of the watches, the pair or the newest position.
    pub fn torn_head(&self) -> bool {
        let paired = self.pair.map_or(true, |(n1, n2)| 2 <= n1 && n1 <= n2 && n2 <= self.memory);
        self.torn_watches() || !paired || self.newest > LAST_POSITION
    }

    /// Whether the watches do not rise, one of them is no desk's or not of an n from 1 to N, or the desks are over their shares.
    fn torn_watches(&self) -> bool {
        let (mut fit, mut one, mut last) = (true, 0, DESK);
        for watch in &self.watches {
            fit &= watch.record > last && watch.n().wrapping_sub(1) < self.memory;
            one += usize::from(watch.record < 2 * DESK);
            last = watch.record;
        }
        !fit || last >= 3 * DESK || above([one, self.watches.len() - one]) > LEFT_OVER
    }

    /// How many watches each desk has.
    fn shares(&self) -> [usize; 2] {
        let one = self.watches.partition_point(|w| w.record < 2 * DESK);
        [one, self.watches.len() - one]
    }

    /// Whether a desk, 1 or 2, has no watch free.
    fn full(&self, desk: usize) -> bool {
        self.shares()[desk - 1] >= SURE && above(self.shares()) >= LEFT_OVER
    }

    /// An opening.
    #[cold]
    pub fn open(&mut self, d: u8, memory: u16, directions: u8, print: &mut Print) {
        if self.opened {
            return print.refuse(7);
        }
        let fits = (1..=6).contains(&d) && (1..=CAPACITY as u16).contains(&memory) && u32::from(directions) < 1 << d;
        if !fits {
            return print.refuse(3);
        }
        self.opened = true;
        self.d = d.into();
        self.memory = memory.into();
        self.turn = std::array::from_fn(|i| if directions >> i & 1 == 1 { 0x7fff_ffff } else { 0x8000_0000 });
        print.line(&format!("O {d} {memory} {directions}"));
    }

    /// A quote of some columns, which may be followed by any cells, with the changes that it brings.
    pub fn quote(&mut self, count: usize, columns: &[u32; 6], print: &mut Print) {
        if self.mode.any {
            return self.quote_any(count, columns, print);
        }
        let refusal = self.unfit().or(if count != self.d { Some(4) } else { None });
        if let Some(number) = refusal.or(if self.newest >= LAST_POSITION { Some(6) } else { None }) {
            return print.refuse(number);
        }
        match count {
            1 => self.take::<1>(columns, print),
            2 => self.take::<2>(columns, print),
            3 => self.take::<3>(columns, print),
            4 => self.take::<4>(columns, print),
            5 => self.take::<5>(columns, print),
            _ => self.take::<6>(columns, print),
        }
    }

    /// The refusal of a call on n that holds whatever the call is.
    fn refusal(&self, n: u32) -> Option<u32> {
        self.unfit().or(if n == 0 || n > self.memory { Some(5) } else { None })
    }

    /// Calls back with the text of each position from a to b that no quote of them beats, rising.
    fn listed(&self, a: u32, b: u32, mut call: impl FnMut(&Text)) {
        let first = self.first();
        if a <= b {
            let places = (a - first) as usize..(b + 1 - first) as usize;
            self.tables.rows(self.d).listed(places, a, b, |place| call(self.texts.of(first + place as u32)));
        }
    }

    /// A look at the list of n.
    pub fn look(&self, n: u32, print: &mut Print) {
        if let Some(number) = self.refusal(n) {
            return print.refuse(number);
        }
        let mut pen = print.pen();
        pen.byte(b'L');
        pen.field(&Text::new(n));
        self.listed(window_start(self.newest, n), self.newest, |text| pen.field(text));
        pen.byte(b'\n');
        print.written(pen);
    }

    /// A look at the past list of n1 and n2.
    pub fn past(&self, n1: u32, n2: u32, print: &mut Print) {
        let refusal = self.unfit().or(if n1 == 0 || n2 > self.memory { Some(5) } else { None });
        if let Some(number) = refusal.or(if n1 > n2 { Some(14) } else { None }) {
            return print.refuse(number);
        }
        let mut pen = print.pen();
        pen.byte(b'P');
        pen.field(&Text::new(n1));
        pen.field(&Text::new(n2));
        self.listed(window_start(self.newest, n2), (self.newest + 1).saturating_sub(n1), |text| pen.field(text));
        pen.byte(b'\n');
        print.written(pen);
    }

    /// A watch of n set by a desk, with its joins. Like an end it is rare, and kept out of the code of a quote.
    #[cold]
    pub fn watch(&mut self, desk: usize, n: u32, print: &mut Print) {
        let at = self.watches.partition_point(|w| w.record < record(desk, n));
        let watched = self.watches.get(at).is_some_and(|w| w.record == record(desk, n));
        let refusal = self.refusal(n).or(if watched { Some(8) } else { None });
        if let Some(number) = refusal.or(if self.full(desk) { Some(9) } else { None }) {
            return print.refuse(number);
        }
        print.line(&format!("W{} {n}", ["", "2"][desk - 1]));
        let watch = Watch::new(desk, n);
        let mut pen = print.pen();
        self.listed(window_start(self.newest, n), self.newest, |text| pen.line(&watch.joins, text));
        print.written(pen);
        self.watches.insert(at, watch);
        self.steady = false;
    }

    /// The pair set, with its joins.
    #[cold]
    pub fn set_pair(&mut self, n1: u32, n2: u32, print: &mut Print) {
        let refusal = self.unfit().or(if n1 < 2 || n2 > self.memory { Some(5) } else { None });
        let refusal = refusal.or(if n1 > n2 { Some(14) } else { None });
        if let Some(number) = refusal.or(self.pair.map(|_| 9)) {
            return print.refuse(number);
        }
        print.line(&format!("B {n1} {n2}"));
        let end = (self.newest + 1).saturating_sub(n1);
        let mut pen = print.pen();
        self.listed(window_start(self.newest, n2), end, |text| pen.line(&self.texts.joins, text));
        print.written(pen);
        self.pair = Some((n1, n2));
    }

    /// The pair ended.
    #[cold]
    pub fn end_pair(&mut self, print: &mut Print) {
        match (self.unfit(), self.pair.take()) {
            (Some(number), _) => print.refuse(number),
            (None, None) => print.refuse(10),
            (None, Some(_)) => print.line("E"),
        }
    }

    /// A desk's watch of n ended.
    #[cold]
    pub fn end(&mut self, desk: usize, n: u32, print: &mut Print) {
        let found = self.watches.iter().position(|w| w.record == record(desk, n));
        match (self.refusal(n), found) {
            (Some(number), _) => print.refuse(number),
            (None, None) => print.refuse(10),
            (None, Some(at)) => {
                self.watches.remove(at);
                self.steady = false;
                print.line(&format!("U{} {n}", ["", "2"][desk - 1]));
            }
        }
    }
}
