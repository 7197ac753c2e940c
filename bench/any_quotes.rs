//! A quote on any tables: 11 and 12 are judged first, by passes that note where to look again, and no search is cut short but the one for
//! the new row's lower end.

use crate::book::{window_start, Book, Windows, LAST_POSITION};
use crate::compare::Ready;
use crate::notes::{Judged, Notes, NOWHERE};
use crate::print::{Pen, Print};
use crate::quotes::New;
use crate::tables::{places_within, Places, Rows, BLOCK};
use std::ops::Range;

/// What a quote on any tables finds beside the rows that it retires: the live rows whose lower end is the old start of a window, youngest
/// first, with these windows as the bits of a number; and for each place the windows that have their old start there, likewise.
pub struct Joining {
    found: Vec<(u32, u8)>,
    starts: [u8; 1 << 16],
}

impl Joining {
    /// Nothing.
    pub fn new() -> Joining {
        Joining { found: Vec::new(), starts: [0; 1 << 16] }
    }

    /// Takes down the old starts of windows that are full.
    pub fn set_starts(&mut self, windows: &Windows) {
        self.starts.fill(0);
        for (i, &place) in windows.before.iter().enumerate() {
            self.starts[place as usize] |= ((windows.full & windows.all) >> i & 1) as u8 * (1 << i);
        }
    }

    /// Notes a live row whose lower end names a place, if a window has its old start there.
    #[inline(always)]
    pub fn look_at(&mut self, place: usize, lower: i16) {
        if self.starts[usize::from(lower as u16)] != 0 {
            self.note(place, lower);
        }
    }

    /// Notes a live row whose lower end names the old start of a window.
    #[inline(never)]
    fn note(&mut self, place: usize, lower: i16) {
        self.found.push((place as u32, self.starts[usize::from(lower as u16)]));
    }
}

impl Book {
    /// The refusal of a quote of so many columns.
    fn refusal_of_any(&mut self, count: usize) -> Option<u32> {
        if !self.opened {
            return Some(7);
        }
        if self.short() {
            return Some(11);
        }
        let (first, held) = (self.first(), self.held());
        let (start, end) = self.pair.map_or((NOWHERE, NOWHERE), |(n1, n2)| {
            let end = (self.newest + 2).saturating_sub(n1);
            (self.place(window_start(self.newest, n2)), if end < first { NOWHERE } else { self.place(end) })
        });
        if self.torn_head() || self.notes.torn(&self.tables, self.live, &Judged { first, held, start, end }) {
            return Some(12);
        }
        if count != self.d {
            return Some(4);
        }
        (self.newest >= LAST_POSITION).then_some(6)
    }

    /// The place of a position of the window of N.
    fn place(&self, position: u32) -> i16 {
        (position - self.first()) as i16
    }

    /// A quote of some columns on any tables, with the changes that it brings.
    pub fn quote_any(&mut self, count: usize, columns: &[u32; 6], print: &mut Print) {
        if let Some(number) = self.refusal_of_any(count) {
            return print.refuse(number);
        }
        match count {
            1 => self.take_any::<1>(columns, print),
            2 => self.take_any::<2>(columns, print),
            3 => self.take_any::<3>(columns, print),
            4 => self.take_any::<4>(columns, print),
            5 => self.take_any::<5>(columns, print),
            _ => self.take_any::<6>(columns, print),
        }
    }

    /// Takes a quote of D columns.
    fn take_any<const D: usize>(&mut self, columns: &[u32; 6], print: &mut Print) {
        let (first, held, position) = (self.first(), self.held(), self.newest + 1);
        let expires = self.newest >= self.memory;
        if !expires || !self.steady {
            self.set_windows(expires);
            self.joining.set_starts(&self.windows);
        }
        self.retired.clear();
        self.named.clear();
        self.joining.found.clear();
        let (quote, rows, start) = (Ready::<D>::new(columns, &self.turn), self.tables.rows(D), usize::from(expires));
        let dense = 2 * self.live as usize >= held;
        let place = if dense {
            quote.find_dense(&rows, start..held, &self.notes, &mut self.retired)
        } else {
            quote.retire_few(&rows, start..held, &self.notes, &mut self.retired, &mut self.joining);
            quote.youngest_over(&rows, start..held)
        };
        let lower = if place == 0 { 0 } else { first + place as u32 - 1 };
        if expires {
            find_named(&self.notes, held, &mut self.named);
        }
        let gone = self.retired.all().len() as u32 + u32::from(expires && rows.upper(0) == 0);
        self.tables.retire(&self.retired, position);
        self.live = self.live + 1 - gone;
        self.texts.add(position);
        self.print_any(&self.tables.rows(D), &New { position, lower, first, held }, dense, print);
        if expires {
            self.tables.forget(&self.named);
            self.tables.expire(D, held);
        }
        self.tables.put::<D>(held - usize::from(expires), columns, position, lower);
        self.newest = position;
    }

    /// Prints the line of a quote and the changes that it brings; where most rows are live, rows that join are sought for each watch.
    #[inline(always)]
    fn print_any(&self, rows: &Rows, new: &New, dense: bool, print: &mut Print) {
        let mut pen = print.pen();
        pen.long_line(&self.texts.quote, self.texts.of(new.position), self.texts.count(self.live));
        let sought = dense && self.notes.any_lower();
        let found = self.joining.found.iter().fold(0, |windows, &(_, more)| windows | u32::from(more));
        let joined = if sought { self.windows.full & self.windows.all } else { found };
        let mut touched = self.touched(rows, new) | joined;
        while touched != 0 {
            let i = touched.trailing_zeros() as usize;
            self.leaves(rows, i, new, &mut pen);
            if joined >> i & 1 == 1 {
                self.any_joins(rows, i, sought, new, &mut pen);
            }
            self.new_join(i, new, &mut pen);
            touched &= touched - 1;
        }
        if let Some((n1, n2)) = self.pair {
            self.any_pair_changes(rows, n1, n2, new, &mut pen);
        }
        print.written(pen);
    }

    /// The joins of the live rows whose lower end is a watch's old start, whoever stands there.
    #[inline(always)]
    fn any_joins(&self, rows: &Rows, i: usize, sought: bool, new: &New, pen: &mut Pen) {
        let mut join = |place: usize| {
            if rows.upper(place) == 0 {
                pen.line(&self.watches[i].joins, self.texts.of(new.first + place as u32));
            }
        };
        let out = self.windows.before[i];
        if sought {
            return self.notes.each_lower_of(out as usize + 1..new.held, out, join);
        }
        for &(place, windows) in self.joining.found.iter().rev() {
            if windows >> i & 1 == 1 {
                join(place as usize);
            }
        }
    }

    /// The changes of the pair: the row at the window's old start leaves if it was listed, and rows whose upper end is its new end; rows
    /// whose lower end is the old start join, and the row at the new end. Only the blocks that were noted are looked at again.
    #[inline(always)]
    fn any_pair_changes(&self, rows: &Rows, n1: u32, n2: u32, new: &New, pen: &mut Pen) {
        let newest = self.newest;
        let (a, b) = (window_start(newest, n2), (newest + 1).saturating_sub(n1));
        let (start, end) = (window_start(newest + 1, n2), (newest + 2).saturating_sub(n1));
        let place = |p: u32| (p - new.first) as usize;
        let open = |place: usize, end: u32| rows.upper(place) == 0 || rows.upper(place) > end;
        if start > a && a <= b && open(place(a), b) {
            pen.line(&self.texts.leaves, self.texts.of(a));
        }
        if end > b {
            for &from in self.notes.ended() {
                places_within(rows.upper_ends, from as usize, place(start)..place(end), end, |place| {
                    if rows.lower(place) < a {
                        pen.line(&self.texts.leaves, self.texts.of(new.first + place as u32));
                    }
                });
            }
        }
        if start > a && a <= b {
            for &from in self.notes.named() {
                self.notes.each_lower(from as usize, place(b + 1), place(a) as i16, |place| {
                    if open(place, end) {
                        pen.line(&self.texts.joins, self.texts.of(new.first + place as u32));
                    }
                });
            }
        }
        if end > b && rows.lower(place(end)) < start {
            pen.line(&self.texts.joins, self.texts.of(end));
        }
    }
}

/// Notes the rows whose lower end names the oldest row.
#[inline(always)]
fn find_named(notes: &Notes, held: usize, named: &mut Places) {
    for &from in notes.named() {
        notes.each_lower(from as usize, held, 0, |place| named.push(place));
    }
}

impl<const D: usize> Ready<D> {
    /// Notes the live ones of some rows that the quote is over, youngest first, and those that join a window.
    #[inline(always)]
    fn retire_few(&self, rows: &Rows, places: Range<usize>, notes: &Notes, retired: &mut Places, joining: &mut Joining) {
        for block in (1..places.end.div_ceil(BLOCK)).rev() {
            self.retire_live_of(rows, block * BLOCK, notes.live(block), notes, retired, joining);
        }
        if places.end > 0 {
            self.retire_live_of(rows, 0, notes.live(0) & u32::MAX << places.start, notes, retired, joining);
        }
    }

    /// The same of some live rows of a block from a place on.
    #[inline(always)]
    fn retire_live_of(&self, rows: &Rows, from: usize, mut bits: u32, notes: &Notes, retired: &mut Places, joining: &mut Joining) {
        while bits != 0 {
            let i = 31 - bits.leading_zeros();
            bits &= !(1 << i);
            let place = from + i as usize;
            joining.look_at(place, notes.lower(place));
            if !self.worse(rows.columns, place) {
                retired.push(place);
            }
        }
    }
}
