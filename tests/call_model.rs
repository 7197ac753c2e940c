//! A plain model of the calls on any tables, written from the papers alone: it reads a list of calls, one a line, makes
//! them on tables of its own and prints what is seen.

use std::fmt::Write as _;

pub const COLUMN_CELLS: usize = 6_144;
pub const PLACES: usize = 1_024;
pub const OUTPUT: usize = 62_520;
pub const RECORDS: usize = 8;
pub const MOST_COLUMNS: u32 = 6;
pub const LARGEST_MEMORY: u32 = 1_024;
pub const LAST_POSITION: u32 = 16_777_215;
/// How many bytes of output every call that writes changes asks for.
pub const CHANGE_BYTES: usize = 62_520;
/// How many watches each desk is sure of, and how many more the two share.
const SURE: usize = 3;
const LEFT_OVER: usize = 2;
/// The kinds of leaves and joins, desk one's and desk two's.
const LEAVES: [u8; 2] = [32, 34];
const JOINS: [u8; 2] = [33, 35];
const PAIR_LEAVES: u8 = 36;
const PAIR_JOINS: u8 = 37;

/// A wrong reading of the rules that can be planted in the model, to show that a comparison with it fails.
#[derive(Clone, Copy, PartialEq)]
pub enum Plant {
    /// No wrong reading.
    Nothing,
    /// Not only the lower ends that name the position that ages out become 0, but those that name an older one too.
    Renamed,
    /// 12 is tried before 11.
    TornFirst,
    /// An accepted quote sets the position behind the N places to 0.
    PastMemory,
    /// 13 is said of an output that is just long enough.
    Early,
    /// A new row's lower end is sought among the live rows alone.
    LiveLower,
    /// A quote sets the upper end of every row that it beats, of the retired ones too.
    Overwritten,
    /// A retired row keeps a lower end that names the position that ages out.
    RetiredLower,
    /// A past look tries 14 before 5.
    FourteenFirst,
    /// The places from the live count on, not those from the held count on, are zeros.
    LiveZeros,
    /// The audit does not ask whether upper ends are right.
    UpperFree,
    /// The changes of the pair stand before those of the plain watches.
    PairFirst,
    /// A second pair is refused with 9 before 5 and 14 are tried.
    NineFirst,
    /// The pair's list after a quote ends where the one before it did.
    PairEnd,
    /// A row at the end of the pair's list is due too.
    DueEqual,
    /// The count of due rows is that of the cells written.
    DueCells,
    /// A look takes a head with a torn pair.
    BlindLook,
    /// The audit says no of a torn pair.
    AuditPair,
    /// A preview settles the tables as its quote would.
    PreviewSettles,
    /// A preview says the held rows where the live ones belong.
    PreviewHeld,
    /// A preview hands back the next head.
    PreviewHead,
    /// Equal quotes stand side by side.
    EqualsStay,
    /// Of equal quotes the earlier one beats the later.
    EarlierStands,
    /// 9 is said only where eight watches stand.
    NineAtEight,
    /// Watches over the shares of the desks are not torn.
    SharesFree,
    /// A call that writes changes is refused with 13 only where they do not fit.
    ThirteenFits,
    /// The changes of desk two stand before those of desk one.
    DeskTwoFirst,
    /// A watch of desk two is judged by the n that desk one watches.
    Watch2ByOne,
    /// An ended watch leaves its desk in the record that becomes empty.
    DeskLeft,
    /// A quote and look in one says the look's 5 before the quote's 13.
    FiveBeforeThirteen,
    /// A quote and look in one whose look refuses leaves the quote in the tables.
    BothLeavesQuote,
    /// A quote and look in one writes positions though it refuses, as many as there are cells.
    BothCellsOnRefusal,
    /// A quote and look in one gives the list of the book before the quote.
    LookBefore,
    /// A quote and look in one asks for n cells, and not for as many as the list has.
    BothCounts,
}

/// The head of a book; the pair is n1 and n2, 0 and 0 when it is unset.
#[derive(Clone, Copy, Default, PartialEq)]
pub struct Head {
    pub d: u32,
    pub memory: u32,
    pub directions: u32,
    pub newest: u32,
    pub live: u32,
    pub held: u32,
    pub pair: (u32, u32),
}

/// A watch record: n and the desk, 1 or 2; 0 and 0 when it is empty.
#[derive(Clone, Copy, Default, PartialEq)]
pub struct Record {
    pub n: u32,
    pub desk: u32,
}

/// How much of each buffer is lent to the calls; a quote and look in one has the output, for its bytes, and cells beside it.
#[derive(Clone, PartialEq)]
pub struct Lent {
    pub columns: usize,
    pub positions: usize,
    pub lower: usize,
    pub upper: usize,
    pub out: usize,
    pub cells: usize,
}

/// A held row of the book; columns that it does not have are 0, and so is the upper end of a live one.
struct Row {
    position: u32,
    columns: [u32; 6],
    lower: u32,
    upper: u32,
}

impl Row {
    /// Its position and columns.
    fn quote(&self) -> (u32, &[u32]) {
        (self.position, &self.columns)
    }
}

/// What the model holds: the head last handed back, the tables and records, what is lent of them, and the lines read.
#[derive(Clone)]
pub struct Model {
    plant: Plant,
    pub head: Head,
    pub columns: Vec<u32>,
    pub positions: Vec<u32>,
    pub lower: Vec<u32>,
    pub upper: Vec<u32>,
    pub watches: [Record; RECORDS],
    pub lent: Lent,
    lines: usize,
}

/// Whether d, N and directions are in their ranges.
pub fn settings_hold(d: u32, memory: u32, directions: u32) -> bool {
    (1..=MOST_COLUMNS).contains(&d) && (1..=LARGEST_MEMORY).contains(&memory) && directions < 1 << d
}

/// The start of the window of n where M is the newest position: the larger of 1 and M - n + 1.
fn start_of(newest: u32, n: u32) -> u32 {
    (newest + 1).saturating_sub(n).max(1)
}

/// The list of a window from its start on: the live rows with lower end < start <= position.
fn listed(rows: &[Row], start: u32) -> Vec<u32> {
    let on = |row: &&Row| row.upper == 0 && row.lower < start && start <= row.position;
    rows.iter().filter(on).map(|row| row.position).collect()
}

/// The past list from a to b: the held rows with lower end < a <= position <= b and an upper end of 0 or above b.
fn listed_past(rows: &[Row], a: u32, b: u32) -> Vec<u32> {
    let inside = |row: &Row| row.lower < a && a <= row.position && row.position <= b;
    let on = |row: &&Row| inside(row) && (row.upper == 0 || row.upper > b);
    rows.iter().filter(on).map(|row| row.position).collect()
}

/// The frames of the changes from one list to another: the leaves, then the joins, each position behind the bytes given
/// for them.
fn changes(leaves: &[u8], joins: &[u8], before: &[u32], after: &[u32]) -> Vec<u32> {
    let frame = |first: &[u8], position: &u32| [first, &position.to_le_bytes()].concat();
    let left = before.iter().filter(|p| after.binary_search(p).is_err()).flat_map(|p| frame(leaves, p));
    let joined = after.iter().filter(|p| before.binary_search(p).is_err()).flat_map(|p| frame(joins, p));
    left.chain(joined).map(u32::from).collect()
}

/// The frames of the changes of a desk's watch from one list of n to another.
fn watch_changes(desk: u32, n: u32, before: &[u32], after: &[u32]) -> Vec<u32> {
    let ([low, high, ..], i) = (n.to_le_bytes(), desk as usize - 1);
    changes(&[LEAVES[i], low, high], &[JOINS[i], low, high], before, after)
}

/// The frames of the changes from one list of the pair to another.
fn pair_changes(before: &[u32], after: &[u32]) -> Vec<u32> {
    changes(&[PAIR_LEAVES], &[PAIR_JOINS], before, after)
}

/// The past list of n1 and n2 where M is the newest position; empty if its end, M - n1 + 1, is below 1.
fn past_list(rows: &[Row], newest: u32, n1: u32, n2: u32) -> Vec<u32> {
    listed_past(rows, start_of(newest, n2), (newest + 1).saturating_sub(n1))
}

/// The list of a pair where M is the newest position; nothing where none stands.
fn pair_list(rows: &[Row], newest: u32, pair: (u32, u32)) -> Vec<u32> {
    match pair {
        (0, 0) => Vec::new(),
        (n1, n2) => past_list(rows, newest, n1, n2),
    }
}

/// The records of the n that each desk watches: desk one's, then desk two's, then empties.
fn records_of(one: &[u32], two: &[u32]) -> [Record; RECORDS] {
    let ones = one.iter().map(|&n| Record { n, desk: 1 });
    let twos = two.iter().map(|&n| Record { n, desk: 2 });
    let mut records = [Record::default(); RECORDS];
    records.iter_mut().zip(ones.chain(twos)).for_each(|(record, watch)| *record = watch);
    records
}

/// How many watches the desks have above 3 each.
fn above_sure(one: &[u32], two: &[u32]) -> usize {
    one.len().saturating_sub(SURE) + two.len().saturating_sub(SURE)
}

impl Model {
    /// A model whose buffers are zeros and wholly lent.
    pub fn new(plant: Plant) -> Model {
        Model {
            plant,
            head: Head::default(),
            columns: vec![0; COLUMN_CELLS],
            positions: vec![0; PLACES],
            lower: vec![0; PLACES],
            upper: vec![0; PLACES],
            watches: records_of(&[], &[]),
            lent: Lent {
                columns: COLUMN_CELLS,
                positions: PLACES,
                lower: PLACES,
                upper: PLACES,
                out: OUTPUT,
                cells: OUTPUT,
            },
            lines: 0,
        }
    }

    /// Whether quote p beats quote q, each a position and columns: no worse in every column, and better in at least one
    /// or, equal in every column, the later one.
    fn beats(&self, (at, p): (u32, &[u32]), (other, q): (u32, &[u32])) -> bool {
        let better = |x: &[u32], y: &[u32], i: usize| {
            if self.head.directions >> i & 1 == 1 {
                x[i] > y[i]
            } else {
                x[i] < y[i]
            }
        };
        let renews = match self.plant {
            Plant::EqualsStay => false,
            Plant::EarlierStands => at < other,
            _ => at > other,
        };
        let columns = 0..self.head.d as usize;
        columns.clone().all(|i| !better(q, p, i)) && (renews || columns.clone().any(|i| better(p, q, i)))
    }

    /// The start of the window of n.
    fn start(&self, n: u32) -> u32 {
        start_of(self.head.newest, n)
    }

    /// The rows that head and tables hold, live and retired.
    fn rows(&self) -> Vec<Row> {
        let d = self.head.d as usize;
        let row = |i: usize| {
            let mut columns = [0; 6];
            columns[..d].copy_from_slice(&self.columns[i * d..(i + 1) * d]);
            Row { position: self.positions[i], columns, lower: self.lower[i], upper: self.upper[i] }
        };
        (0..self.head.held as usize).map(row).collect()
    }

    /// The lower end of a quote behind some rows: the position of the youngest of them that beats it, or 0.
    fn lower_end<'a>(&self, older: impl DoubleEndedIterator<Item = &'a Row>, quote: (u32, &[u32])) -> u32 {
        older.rev().find(|row| self.beats(row.quote(), quote)).map_or(0, |row| row.position)
    }

    /// The upper end of a quote before some rows: the position of the oldest of them that beats it, or 0.
    fn upper_end(&self, younger: &[Row], quote: (u32, &[u32])) -> u32 {
        younger.iter().find(|row| self.beats(row.quote(), quote)).map_or(0, |row| row.position)
    }

    /// Whether a table is shorter than these settings ask.
    fn short(&self, d: u32, memory: u32) -> bool {
        let (places, lent) = (memory as usize, &self.lent);
        let ends = lent.lower < places || lent.upper < places;
        lent.columns < places * d as usize || lent.positions < places || ends
    }

    /// Whether head and rows are torn.
    fn torn_rows(&self) -> bool {
        let Head { memory, newest, live, held, .. } = self.head;
        if held > memory || newest > LAST_POSITION || (held == 0) != (newest == 0) {
            return true;
        }
        let rows = self.rows();
        let positions: Vec<u32> = rows.iter().map(|row| row.position).collect();
        let rising = positions.windows(2).all(|pair| pair[0] < pair[1]);
        let inside = positions.iter().all(|&p| self.start(memory) <= p && p <= newest);
        let ends = positions.last().map_or(true, |&p| p == newest);
        let fill = (self.start(memory)..=newest).all(|p| positions.binary_search(&p).is_ok());
        let below = rows.iter().all(|row| row.lower < row.position);
        let above = rows.iter().all(|row| row.upper == 0 || row.position < row.upper && row.upper <= newest);
        let counted = rows.iter().filter(|row| row.upper == 0).count() == live as usize;
        !(rising && inside && ends && fill && below && above && counted)
    }

    /// Whether the pair could not be set: it is not unset, and n1 is below 2 or above n2, or n2 above N.
    fn torn_pair(&self) -> bool {
        let (n1, n2) = self.head.pair;
        (n1, n2) != (0, 0) && (n1 < 2 || n1 > n2 || n2 > self.head.memory)
    }

    /// Whether the records are anything but desk one's watches, then desk two's, each rising within 1 to N, then empties;
    /// or over the shares of the desks.
    fn torn_watches(&self) -> bool {
        let (one, two) = (self.standing(1), self.standing(2));
        let rising = |watched: &[u32]| watched.windows(2).all(|pair| pair[0] < pair[1]);
        let inside = |watched: &[u32]| watched.iter().all(|&n| 1 <= n && n <= self.head.memory);
        let arranged = self.watches == records_of(&one, &two);
        let shared = above_sure(&one, &two) <= LEFT_OVER || self.plant == Plant::SharesFree;
        !(arranged && rising(&one) && rising(&two) && inside(&one) && inside(&two) && shared)
    }

    /// The n of the records of a desk.
    fn standing(&self, desk: u32) -> Vec<u32> {
        self.watches.iter().filter(|record| record.desk == desk).map(|record| record.n).collect()
    }

    /// 9 of a plain watch: the desk has 3 or more, and what the desks have above 3 each comes to 2.
    fn full(&self, desk: u32) -> bool {
        let (one, two) = (self.standing(1), self.standing(2));
        if self.plant == Plant::NineAtEight {
            return one.len() + two.len() == RECORDS;
        }
        self.standing(desk).len() >= SURE && above_sure(&one, &two) >= LEFT_OVER
    }

    /// The refusals that a call on the book begins with: 3, 11, 12; a look is lent no watches.
    fn judged(&self, watches_too: bool) -> Result<(), u32> {
        self.judged_with(self.torn_pair() || watches_too && self.torn_watches())
    }

    /// The same where it is known whether pair or watches are torn.
    fn judged_with(&self, torn: bool) -> Result<(), u32> {
        let Head { d, memory, directions, .. } = self.head;
        if !settings_hold(d, memory, directions) {
            return Err(3);
        }
        let torn = torn || self.torn_rows();
        match (self.short(d, memory), torn) {
            (true, true) if self.plant == Plant::TornFirst => Err(12),
            (true, _) => Err(11),
            (false, true) => Err(12),
            (false, false) => Ok(()),
        }
    }

    /// 5: n is 0 or above N.
    fn in_memory(&self, n: u32) -> Result<(), u32> {
        if n == 0 || n > self.head.memory {
            return Err(5);
        }
        Ok(())
    }

    /// An answer, or 13 if an output of so many bytes or cells is shorter than it.
    fn fitting(&self, answer: Vec<u32>, room: usize) -> Result<Vec<u32>, u32> {
        let early = usize::from(self.plant == Plant::Early && !answer.is_empty());
        if room < answer.len() + early {
            return Err(13);
        }
        Ok(answer)
    }

    /// The answer of a call that writes changes, or 13 if the output is below what always suffices.
    fn with_room(&self, answer: Vec<u32>) -> Result<Vec<u32>, u32> {
        if self.lent.out < CHANGE_BYTES && self.plant != Plant::ThirteenFits {
            return Err(13);
        }
        self.fitting(answer, self.lent.out)
    }

    /// An opening: 3, 11; else a new book.
    fn open(&mut self, d: u32, memory: u32, directions: u32) -> Result<Vec<u32>, u32> {
        if !settings_hold(d, memory, directions) {
            return Err(3);
        }
        if self.short(d, memory) {
            return Err(11);
        }
        self.head = Head { d, memory, directions, ..Head::default() };
        self.store(&[]);
        self.watches = records_of(&[], &[]);
        Ok(Vec::new())
    }

    /// Rows into the N places of the tables, zeros behind them.
    fn store(&mut self, rows: &[Row]) {
        let (d, places) = (self.head.d as usize, self.head.memory as usize);
        self.columns[..places * d].fill(0);
        self.positions[..places].fill(0);
        self.lower[..places].fill(0);
        self.upper[..places].fill(0);
        for (i, row) in rows.iter().enumerate().take(self.kept()) {
            self.columns[i * d..(i + 1) * d].copy_from_slice(&row.columns[..d]);
            self.positions[i] = row.position;
            self.lower[i] = row.lower;
            self.upper[i] = row.upper;
        }
    }

    /// How many places are not zeros: the held count.
    fn kept(&self) -> usize {
        if self.plant == Plant::LiveZeros {
            return self.head.live as usize;
        }
        self.head.held as usize
    }

    /// Whether a row's lower end becomes 0 as a position ages out: exactly if it names that position.
    fn loses_lower(&self, row: &Row, aged: u32) -> bool {
        match self.plant {
            Plant::Renamed => row.lower <= aged,
            Plant::RetiredLower => row.lower == aged && row.upper == 0,
            _ => row.lower == aged,
        }
    }

    /// Whether a quote gives a row an upper end: exactly if it beats it and the row is live.
    fn retires(&self, quote: (u32, &[u32]), row: &Row) -> bool {
        self.beats(quote, row.quote()) && (row.upper == 0 || self.plant == Plant::Overwritten)
    }

    /// The rows after a quote: without the one that ages out, those that it beats retired, and its own behind them; its
    /// lower end is sought among all held rows that are left.
    fn rows_after(&self, quote: &[u32]) -> Vec<Row> {
        let position = self.head.newest + 1;
        let aged = position.saturating_sub(self.head.memory);
        let mut rows = self.rows();
        rows.retain(|row| row.position != aged);
        let sought = rows.iter().filter(|row| row.upper == 0 || self.plant != Plant::LiveLower);
        let lower = self.lower_end(sought, (position, quote));
        for row in &mut rows {
            if self.loses_lower(row, aged) {
                row.lower = 0;
            }
            if self.retires((position, quote), row) {
                row.upper = position;
            }
        }
        let mut columns = [0; 6];
        columns[..quote.len()].copy_from_slice(quote);
        rows.push(Row { position, columns, lower, upper: 0 });
        rows
    }

    /// The changes that a quote brings: those of desk one's watches, n rising, then desk two's, then those of the pair.
    fn changes_to(&self, after: &[Row]) -> Vec<u32> {
        let (before, newest, pair) = (self.rows(), self.head.newest + 1, self.head.pair);
        let list = |n: u32| listed(&before, self.start(n));
        let change = |desk: u32, n: u32| watch_changes(desk, n, &list(n), &listed(after, start_of(newest, n)));
        let of_desk = |desk: u32| self.standing(desk).into_iter().flat_map(|n| change(desk, n)).collect::<Vec<_>>();
        let (one, two) = (of_desk(1), of_desk(2));
        let early = u32::from(self.plant == Plant::PairEnd && pair != (0, 0));
        let pair_after = pair_list(after, newest, (pair.0 + early, pair.1));
        let pairs = pair_changes(&pair_list(&before, self.head.newest, pair), &pair_after);
        match self.plant {
            Plant::PairFirst => [pairs, one, two].concat(),
            Plant::DeskTwoFirst => [two, one, pairs].concat(),
            _ => [one, two, pairs].concat(),
        }
    }

    /// A quote: 3, 11, 12, 4, 6, 13; else its row and the changes of each watch and of the pair.
    fn quote(&mut self, quote: &[u32]) -> Result<Vec<u32>, u32> {
        self.judged(true)?;
        if quote.len() != self.head.d as usize {
            return Err(4);
        }
        if self.head.newest == LAST_POSITION {
            return Err(6);
        }
        let after = self.rows_after(quote);
        let answer = self.with_room(self.changes_to(&after))?;
        let live = after.iter().filter(|row| row.upper == 0).count() as u32;
        self.head = Head { newest: self.head.newest + 1, live, held: after.len() as u32, ..self.head };
        self.store(&after);
        if self.plant == Plant::PastMemory && self.positions.len() > self.head.memory as usize {
            self.positions[self.head.memory as usize] = 0;
        }
        Ok(answer)
    }

    /// A preview: answer and output of the quote on a copy, with the head as it came, and the row counts of the head that
    /// the quote hands back; nothing that is lent but the output changes.
    fn preview(&mut self, quote: &[u32], print: &mut String) {
        let mut copy = self.clone();
        let answer = copy.quote(quote);
        let Head { live, held, .. } = copy.head;
        match self.plant {
            Plant::PreviewSettles => *self = Model { head: self.head, ..copy },
            Plant::PreviewHead => self.head = copy.head,
            _ => {}
        }
        self.answer(answer, 1, self.head, print);
        let live = if self.plant == Plant::PreviewHeld { held } else { live };
        line_of("N", &[live, held], print);
    }

    /// Whether another model has the same head, tables and records, and lends as much of them.
    pub fn same_book(&self, other: &Model) -> bool {
        let tables = self.columns == other.columns && self.positions == other.positions;
        let ends = self.lower == other.lower && self.upper == other.upper;
        self.head == other.head && tables && ends && self.watches == other.watches && self.lent == other.lent
    }

    /// A look with so many cells: 3, 11, 12, 5, 13; else the list of n.
    fn look(&self, n: u32, cells: usize) -> Result<Vec<u32>, u32> {
        self.judged_with(self.plant != Plant::BlindLook && self.torn_pair())?;
        self.in_memory(n)?;
        self.fitting(listed(&self.rows(), self.start(n)), cells)
    }

    /// A quote and a look in one, on a copy: the quote's refusals, then those of the look on the book after it; else the
    /// changes, the list of n, and the book after the quote.
    fn both(&mut self, n: u32, quote: &[u32]) -> Result<[Vec<u32>; 2], u32> {
        let (mut after, cells) = (self.clone(), self.lent.cells);
        let changes = match after.quote(quote) {
            Err(13) if self.plant == Plant::FiveBeforeThirteen => self.in_memory(n).and(Err(13)),
            answer => answer,
        }?;
        let looked = match self.plant {
            Plant::LookBefore => self.look(n, cells),
            Plant::BothCounts if (1..=self.head.memory).contains(&n) && cells < n as usize => Err(13),
            _ => after.look(n, cells),
        };
        if looked.is_ok() {
            *self = after;
        } else if self.plant == Plant::BothLeavesQuote {
            *self = Model { head: self.head, ..after };
        }
        Ok([changes, looked?])
    }

    /// Makes a quote and look in one: the line of its answer, with the changes, and the line of the positions.
    fn quote_and_look(&mut self, n: u32, quote: &[u32], print: &mut String) {
        let (changes, list) = match self.both(n, quote) {
            Ok([changes, list]) => (Ok(changes), list),
            Err(number) if self.plant == Plant::BothCellsOnRefusal => (Err(number), self.positions_that_fit(n, quote)),
            Err(number) => (Err(number), Vec::new()),
        };
        self.answer(changes, 1, self.head, print);
        output_line(&list, print);
    }

    /// The first positions of the list of n after a quote, as many as there are cells; none where the quote is refused.
    fn positions_that_fit(&self, n: u32, quote: &[u32]) -> Vec<u32> {
        let mut after = self.clone();
        let list = after.quote(quote).and_then(|_| after.look(n, OUTPUT)).unwrap_or_default();
        list.into_iter().take(self.lent.cells).collect()
    }

    /// A past look: 3, 11, 12, 5, 14, 13; else the past list of n1 and n2, empty if b is below 1.
    fn past(&self, n1: u32, n2: u32) -> Result<Vec<u32>, u32> {
        self.judged(false)?;
        let early = self.plant == Plant::FourteenFirst && n1 > n2;
        if !early && (n1 == 0 || n2 > self.head.memory) {
            return Err(5);
        }
        if n1 > n2 {
            return Err(14);
        }
        self.fitting(past_list(&self.rows(), self.head.newest, n1, n2), self.lent.out)
    }

    /// The pair set: 3, 11, 12, 5, 14, 9, 13; else the head has it, and the joins of its list are the answer.
    fn pair(&mut self, n1: u32, n2: u32) -> Result<Vec<u32>, u32> {
        self.judged(true)?;
        let stands = self.head.pair != (0, 0);
        if stands && self.plant == Plant::NineFirst {
            return Err(9);
        }
        if n1 < 2 || n2 > self.head.memory {
            return Err(5);
        }
        if n1 > n2 {
            return Err(14);
        }
        if stands {
            return Err(9);
        }
        let answer = self.with_room(pair_changes(&[], &past_list(&self.rows(), self.head.newest, n1, n2)))?;
        self.head.pair = (n1, n2);
        Ok(answer)
    }

    /// The pair ended: 3, 11, 12, 10; else the head has none.
    fn unpair(&mut self) -> Result<Vec<u32>, u32> {
        self.judged(true)?;
        if self.head.pair == (0, 0) {
            return Err(10);
        }
        self.head.pair = (0, 0);
        Ok(Vec::new())
    }

    /// Whether a held row is due to a pair: its position exceeds M - n1 + 1 and its lower end is below the start of the
    /// window of n2.
    fn is_due(&self, row: &Row, n1: u32, n2: u32) -> bool {
        let (place, end) = (row.position + n1, self.head.newest + 1);
        let behind = place > end || self.plant == Plant::DueEqual && place == end;
        behind && row.lower < self.start(n2)
    }

    /// What is due: 3, 11, 12, 13; else for each due row its position and position - M + n1 - 1, nothing with no pair.
    fn due(&self) -> Result<Vec<u32>, u32> {
        self.judged(false)?;
        let (n1, n2) = self.head.pair;
        let rows = self.rows();
        let due = rows.iter().filter(|row| n1 != 0 && self.is_due(row, n1, n2));
        let answer = due.flat_map(|row| [row.position, row.position + n1 - 1 - self.head.newest]).collect();
        self.fitting(answer, self.lent.out)
    }

    /// A watch of a desk: 3, 11, 12, 5, 8, 9, 13; else n is added, and its joins are the answer.
    fn watch(&mut self, desk: u32, n: u32) -> Result<Vec<u32>, u32> {
        self.judged(true)?;
        self.in_memory(n)?;
        let judged = if self.plant == Plant::Watch2ByOne { 1 } else { desk };
        if self.standing(judged).contains(&n) {
            return Err(8);
        }
        if self.full(desk) {
            return Err(9);
        }
        let answer = self.with_room(watch_changes(desk, n, &[], &listed(&self.rows(), self.start(n))))?;
        let mut standing = self.standing(desk);
        standing.push(n);
        standing.sort_unstable();
        self.set_watches(desk, standing);
        Ok(answer)
    }

    /// An end of a desk: 3, 11, 12, 5, 10; else n is dropped.
    fn end(&mut self, desk: u32, n: u32) -> Result<Vec<u32>, u32> {
        self.judged(true)?;
        self.in_memory(n)?;
        let mut standing = self.standing(desk);
        if !standing.contains(&n) {
            return Err(10);
        }
        standing.retain(|&watched| watched != n);
        let last = self.watches.iter().rposition(|record| record.desk != 0).unwrap_or(0);
        let left = self.watches[last].desk;
        self.set_watches(desk, standing);
        if self.plant == Plant::DeskLeft {
            self.watches[last].desk = left;
        }
        Ok(Vec::new())
    }

    /// The n that a desk watches into the records, with those of the other desk, empties behind them.
    fn set_watches(&mut self, desk: u32, standing: Vec<u32>) {
        self.watches = match desk {
            1 => records_of(&standing, &self.standing(2)),
            _ => records_of(&self.standing(1), &standing),
        };
    }

    /// The audit: 3, 11; else whether some tape leaves these rows, by the plain rules: not torn, both ends of every row
    /// right by the columns, zeros behind the rows.
    pub fn audit(&self) -> Result<bool, u32> {
        let Head { d, memory, directions, .. } = self.head;
        if !settings_hold(d, memory, directions) {
            return Err(3);
        }
        if self.short(d, memory) {
            return Err(11);
        }
        if self.torn_rows() || self.plant == Plant::AuditPair && self.torn_pair() {
            return Ok(false);
        }
        let rows = self.rows();
        let lower = |i: usize| rows[i].lower == self.lower_end(rows[..i].iter(), rows[i].quote());
        let upper = |i: usize| rows[i].upper == self.upper_end(&rows[i + 1..], rows[i].quote());
        let asked = self.plant != Plant::UpperFree;
        let right = (0..rows.len()).all(|i| lower(i) && (!asked || upper(i)));
        Ok(right && self.zeros_behind())
    }

    /// Whether the places from the held count up to N are zeros.
    fn zeros_behind(&self) -> bool {
        let (d, memory, kept) = (self.head.d as usize, self.head.memory as usize, self.kept());
        let behind = |cells: &[u32]| cells[kept..memory].iter().all(|&cell| cell == 0);
        let columns = self.columns[kept * d..memory * d].iter().all(|&cell| cell == 0);
        columns && behind(&self.positions) && behind(&self.lower) && behind(&self.upper)
    }

    /// The line of a call's answer, with the head handed back, and the line of its output; each of the things counted
    /// takes so many bytes or cells.
    fn answer(&self, answer: Result<Vec<u32>, u32>, each: usize, head: Head, print: &mut String) {
        let (number, output) = match answer {
            Ok(output) => (0, output),
            Err(number) => (number, Vec::new()),
        };
        answer_line(number, output.len() / each, head, print);
        output_line(&output, print);
    }

    /// The lines of `show`: of tables whose settings are out of range there is nothing to show.
    fn show(&self, print: &mut String) {
        let Head { d, memory, .. } = self.head;
        let in_range = (1..=MOST_COLUMNS).contains(&d) && (1..=LARGEST_MEMORY).contains(&memory);
        let places = if in_range { memory as usize } else { 0 };
        let cells = if in_range { places * d as usize } else { 0 };
        line_of("C", &self.columns[..cells], print);
        line_of("P", &self.positions[..places], print);
        line_of("E", &self.lower[..places], print);
        line_of("U", &self.upper[..places], print);
        line_of("W", &self.watches.map(|record| record.n), print);
        line_of("D", &self.watches.map(|record| record.desk), print);
    }

    /// Lends another length of a buffer; none if the buffer has no such length.
    fn lend(&mut self, name: &str, length: u32) -> Option<()> {
        let (lent, longest) = match name {
            "columns" => (&mut self.lent.columns, COLUMN_CELLS),
            "positions" => (&mut self.lent.positions, PLACES),
            "lower" => (&mut self.lent.lower, PLACES),
            "upper" => (&mut self.lent.upper, PLACES),
            "out" => (&mut self.lent.out, OUTPUT),
            "cells" => (&mut self.lent.cells, OUTPUT),
            _ => return None,
        };
        if length as usize > longest {
            return None;
        }
        *lent = length as usize;
        Some(())
    }

    /// Pokes a cell of a table or a record; none if there is no such cell.
    fn cell(&mut self, name: &str, i: u32, value: u32) -> Option<()> {
        let i = i as usize;
        let cell = match name {
            "columns" => self.columns.get_mut(i)?,
            "positions" => self.positions.get_mut(i)?,
            "lower" => self.lower.get_mut(i)?,
            "upper" => self.upper.get_mut(i)?,
            "watches" => &mut self.watches.get_mut(i)?.n,
            "desks" => &mut self.watches.get_mut(i)?.desk,
            _ => return None,
        };
        *cell = value;
        Some(())
    }

    /// Makes the call of a word and its numbers, or none if there is no such call.
    fn call(&mut self, word: &str, numbers: &[u32], print: &mut String) -> Option<()> {
        let answer = match (word, numbers) {
            ("open", &[d, memory, directions]) => self.open(d, memory, directions),
            ("quote", columns) => self.quote(columns),
            ("look", &[n]) => self.look(n, self.lent.out),
            ("past", &[n1, n2]) => self.past(n1, n2),
            ("pair", &[n1, n2]) => self.pair(n1, n2),
            ("unpair", &[]) => self.unpair(),
            ("due", &[]) => self.due(),
            ("watch", &[n]) => self.watch(1, n),
            ("end", &[n]) => self.end(1, n),
            ("watch2", &[n]) => self.watch(2, n),
            ("end2", &[n]) => self.end(2, n),
            _ => return None,
        };
        let refused_opening = word == "open" && answer.is_err();
        let head = if refused_opening { Head::default() } else { self.head };
        let each = if word == "due" && self.plant != Plant::DueCells { 2 } else { 1 };
        self.answer(answer, each, head, print);
        Some(())
    }

    /// The line of the audit's answer.
    fn verdict(&self, print: &mut String) {
        match self.audit() {
            Ok(true) => print.push_str("V yes\n"),
            Ok(false) => print.push_str("V no\n"),
            Err(number) => writeln!(print, "V {number}").unwrap(),
        }
    }

    /// Does what a line says, or none if it cannot be taken.
    fn take(&mut self, line: &str, print: &mut String) -> Option<()> {
        let words: Vec<_> = line.split(' ').collect();
        if let ["lend" | "cell", name, ref rest @ ..] = words[..] {
            return match (words[0], &numbers(rest)?[..]) {
                ("lend", &[length]) => self.lend(name, length),
                ("cell", &[i, value]) => self.cell(name, i, value),
                _ => None,
            };
        }
        match (words[0], &numbers(&words[1..])?[..]) {
            ("audit", &[]) => self.verdict(print),
            ("show", &[]) => self.show(print),
            ("preview", columns) => self.preview(columns, print),
            ("both", &[n, ref columns @ ..]) => self.quote_and_look(n, columns, print),
            ("head", &[d, memory, directions, newest, live, held, n1, n2]) => {
                self.head = Head { d, memory, directions, newest, live, held, pair: (n1, n2) }
            }
            (word, numbers) => return self.call(word, numbers, print),
        }
        Some(())
    }

    /// Does what the next line says and prints what is seen; a line that cannot be taken is named by its number.
    pub fn play(&mut self, line: &str, print: &mut String) {
        self.lines += 1;
        if self.take(line, print).is_none() {
            writeln!(print, "? {}", self.lines).unwrap();
        }
    }
}

/// The numbers of some words, each below 2^32; none if one is no such number.
fn numbers(words: &[&str]) -> Option<Vec<u32>> {
    words.iter().map(|word| word.parse().ok()).collect()
}

/// The line of an answer and a count, with the head handed back.
pub fn answer_line(number: u32, count: usize, head: Head, print: &mut String) {
    let Head { d, memory, directions, newest, live, held, pair: (n1, n2) } = head;
    writeln!(print, "A {number} {count} {d} {memory} {directions} {newest} {live} {held} {n1} {n2}").unwrap();
}

/// The line of an output, where anything was written.
pub fn output_line(output: &[u32], print: &mut String) {
    if !output.is_empty() {
        line_of("X", output, print);
    }
}

/// A letter and numbers, one space between.
fn line_of(letter: &str, numbers: &[u32], print: &mut String) {
    print.push_str(letter);
    for number in numbers {
        write!(print, " {number}").unwrap();
    }
    print.push('\n');
}
