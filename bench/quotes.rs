//! A quote on a book that calls left, on which searches may end early.

use crate::book::{window_start, Book, Watch, Windows, RECORDS};
use crate::compare::Ready;
use crate::print::{Pen, Print};
use crate::tables::{places_of, Rows};
use std::arch::x86_64::*;

/// What the changes of all watches by one quote have in common: its position and lower end, the position at place 0, and how many rows
/// are held.
pub struct New {
    pub position: u32,
    pub lower: u32,
    pub first: u32,
    pub held: usize,
}

impl Book {
    /// Takes a quote of D columns.
    pub fn take<const D: usize>(&mut self, columns: &[u32; 6], print: &mut Print) {
        let (first, held, position) = (self.first(), self.held(), self.newest + 1);
        let expires = self.newest >= self.memory;
        if !expires || !self.steady {
            self.set_windows(expires);
        }
        let (quote, rows) = (Ready::<D>::new(columns, &self.turn), self.tables.rows(D));
        self.retired.clear();
        self.named.clear();
        let place = quote.find(&rows, usize::from(expires)..held, self.live, &mut self.retired);
        let lower = if place == 0 { 0 } else { first + place as u32 - 1 };
        let mut gone = self.retired.all().len() as u32;
        self.ended = self.live as usize != held;
        self.lowered = self.ended || lower != 0 || rows.any_lower(held);
        if expires {
            gone += u32::from(rows.upper(0) == 0);
            if self.lowered {
                rows.find_named(first, held, &mut self.named);
            }
        }
        self.tables.retire(&self.retired, position);
        self.live = self.live + 1 - gone;
        self.texts.add(position);
        self.print_quote(&self.tables.rows(D), &New { position, lower, first, held }, print);
        if expires {
            self.tables.forget(&self.named);
            self.tables.expire(D, held);
        }
        self.tables.put::<D>(held - usize::from(expires), columns, position, lower);
        self.newest = position;
    }

    /// Takes down where the windows of the watches start.
    #[cold]
    pub fn set_windows(&mut self, steady: bool) {
        self.windows = Windows::new(&self.watches, self.newest, self.first());
        self.steady = steady;
    }

    /// Prints the line of a quote and the changes that it brings.
    #[inline(always)]
    fn print_quote(&self, rows: &Rows, new: &New, print: &mut Print) {
        let mut pen = print.pen();
        pen.long_line(&self.texts.quote, self.texts.of(new.position), self.texts.count(self.live));
        let mut touched = self.touched(rows, new);
        while touched != 0 {
            self.changes(rows, touched.trailing_zeros() as usize, new, &mut pen);
            touched &= touched - 1;
        }
        if let Some((n1, n2)) = self.pair {
            self.pair_changes(rows, n1, n2, new, &mut pen);
        }
        print.written(pen);
    }

    /// The watches that a quote changes, as the bits of a number: those whose old start was live, those that the new row joins, and those
    /// that listed a row which is now retired. All eight are looked at at once.
    #[inline(always)]
    pub fn touched(&self, rows: &Rows, new: &New) -> u32 {
        let eight = |places: &[i16; RECORDS]| unsafe { _mm_loadu_si128(places.as_ptr().cast()) };
        let lanes = |place: i32| unsafe { _mm_set1_epi16(place.max(-1) as i16) };
        let (before, after) = (eight(&self.windows.before), eight(&self.windows.after));
        let place_of = |position: u32| position as i32 - new.first as i32;
        let bits = |lanes: __m128i| unsafe { _mm_movemask_epi8(_mm_packs_epi16(lanes, lanes)) as u32 };
        let mut changed = unsafe { _mm_cmpgt_epi16(after, lanes(place_of(new.lower))) };
        for &place in self.retired.all() {
            let lower = lanes(place_of(rows.lower(place as usize)));
            let left = unsafe { _mm_andnot_si128(_mm_cmpgt_epi16(after, lanes(place as i32)), _mm_cmpgt_epi16(before, lower)) };
            changed = unsafe { _mm_or_si128(changed, left) };
        }
        (bits(changed) | self.left(rows, new.position) & self.windows.full) & self.windows.all
    }

    /// The watches at whose old starts rows are live, or were until a quote at a position, as the bits of a number.
    #[inline(always)]
    fn left(&self, rows: &Rows, position: u32) -> u32 {
        let end = |i: usize| rows.upper(self.windows.before[i] as usize) as i32;
        let four = |i: usize| unsafe {
            let ends = _mm_set_epi32(end(i + 3), end(i + 2), end(i + 1), end(i));
            let quoted = _mm_cmpeq_epi32(ends, _mm_set1_epi32(position as i32));
            _mm_or_si128(_mm_cmpeq_epi32(ends, _mm_setzero_si128()), quoted)
        };
        unsafe { _mm_movemask_epi8(_mm_packs_epi16(_mm_packs_epi32(four(0), four(4)), _mm_setzero_si128())) as u32 }
    }

    /// The changes of a watch: leaves, then a join for each live row whose lower end falls out of the window, and for the new row. On a
    /// book that calls left, live rows with a lower end are there only if the row at it is live.
    #[inline(always)]
    fn changes(&self, rows: &Rows, i: usize, new: &New, pen: &mut Pen) {
        let live = self.leaves(rows, i, new, pen);
        if live && self.lowered {
            self.joins(rows, &self.watches[i], self.windows.before[i] as usize, new, pen);
        }
        self.new_join(i, new, pen);
    }

    /// The leaves of a watch: the row that falls out of the window if it is live, or was until this quote, and each listed row that is
    /// retired; says whether the first one is live. Rows that a quote retires have its position for an upper end already.
    #[inline(always)]
    pub fn leaves(&self, rows: &Rows, i: usize, new: &New, pen: &mut Pen) -> bool {
        let (watch, full) = (&self.watches[i], self.windows.full >> i & 1 == 1);
        let (out, after) = (self.windows.before[i] as usize, self.windows.after[i] as usize);
        let before = new.first + out as u32;
        let end = if full { rows.upper(out) } else { u32::MAX };
        if end == 0 || end == new.position {
            pen.line(&watch.leaves, self.texts.of(before));
        }
        for &place in self.retired.all().iter().rev() {
            if place as usize >= after && rows.lower(place as usize) < before {
                pen.line(&watch.leaves, self.texts.of(new.first + place));
            }
        }
        end == 0
    }

    /// The join of the new row.
    #[inline(always)]
    pub fn new_join(&self, i: usize, new: &New, pen: &mut Pen) {
        if new.lower < new.first + self.windows.after[i] as u32 {
            pen.line(&self.watches[i].joins, self.texts.of(new.position));
        }
    }

    /// The joins of the live rows whose lower end is the row at a watch's old start.
    #[inline(always)]
    fn joins(&self, rows: &Rows, watch: &Watch, out: usize, new: &New, pen: &mut Pen) {
        let mut join = |place: usize| {
            if rows.upper(place) == 0 {
                pen.line(&watch.joins, self.texts.of(new.first + place as u32));
            }
        };
        if out == 0 && self.steady {
            self.named.all().iter().for_each(|&place| join(place as usize));
        } else {
            places_of(rows.lower_ends, out + 1..new.held, new.first + out as u32, join);
        }
    }

    /// The changes of the pair: the row at the window's old start leaves, and rows whose upper end is its new end, which lie behind that
    /// row's lower end; rows whose lower end is the old start join, which are there only if the row at it was listed, and the row at the
    /// new end. Upper ends that name the new quote are above both ends.
    #[inline(always)]
    fn pair_changes(&self, rows: &Rows, n1: u32, n2: u32, new: &New, pen: &mut Pen) {
        let newest = self.newest;
        let (a, b) = (window_start(newest, n2), (newest + 1).saturating_sub(n1));
        let (start, end) = (window_start(newest + 1, n2), (newest + 2).saturating_sub(n1));
        let place = |p: u32| (p - new.first) as usize;
        let open = |place: usize, end: u32| rows.upper(place) == 0 || rows.upper(place) > end;
        let left = start > a && a <= b && open(place(a), b);
        if left {
            pen.line(&self.texts.leaves, self.texts.of(a));
        }
        if end > b && self.ended {
            let from = start.max(rows.lower(place(end)) + 1);
            places_of(rows.upper_ends, place(from)..place(end), end, |place| {
                if rows.lower(place) < a {
                    pen.line(&self.texts.leaves, self.texts.of(new.first + place as u32));
                }
            });
        }
        if left && self.lowered {
            places_of(rows.lower_ends, place(start)..place(b + 1), a, |place| {
                if open(place, end) {
                    pen.line(&self.texts.joins, self.texts.of(new.first + place as u32));
                }
            });
        }
        if end > b && rows.lower(place(end)) < start {
            pen.line(&self.texts.joins, self.texts.of(end));
        }
    }
}
