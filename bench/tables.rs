//! The four tables of a book, rows oldest first, and the loops over them.

use std::arch::x86_64::*;
use std::ops::Range;

pub const CAPACITY: usize = 1024;
/// So many rows or ends are looked at together.
pub const BLOCK: usize = 32;
/// So many cells are moved at a time: larger memory moves are slower.
const PIECE: usize = 512;
/// Cells behind the last row that are read, and passed over, where a block of rows or of ends is read at once.
const SLACK: usize = 6 * BLOCK;

/// Four cells at a time.
pub type Four = __m128i;

/// Four cells of a table from one on, which are there.
#[inline(always)]
pub unsafe fn load(cells: &[u32], at: usize) -> Four {
    debug_assert!(at + 4 <= cells.len());
    _mm_loadu_si128(cells.as_ptr().add(at).cast())
}

/// Sixteen flags of four lanes each in one number of bytes.
#[inline(always)]
pub fn pack(a: Four, b: Four, c: Four, d: Four) -> Four {
    unsafe { _mm_packs_epi16(_mm_packs_epi32(a, b), _mm_packs_epi32(c, d)) }
}

/// Which cells of a block from a place on are flagged, as the bits of a number, by a function of four of them.
#[inline(always)]
fn flagged(from: usize, four: impl Fn(usize) -> Four) -> u32 {
    let sixteen = |at: usize| unsafe { _mm_movemask_epi8(pack(four(at), four(at + 4), four(at + 8), four(at + 12))) as u32 };
    sixteen(from) | sixteen(from + 16) << 16
}

/// The same of numbers of 16 bits, by a function of eight of them.
#[inline(always)]
pub fn flagged_words(from: usize, eight: impl Fn(usize) -> Four) -> u32 {
    let sixteen = |at: usize| unsafe { _mm_movemask_epi8(_mm_packs_epi16(eight(at), eight(at + 8))) as u32 };
    sixteen(from) | sixteen(from + 16) << 16
}

/// Which cells of a block from a place on have a value, as the bits of a number.
#[inline(always)]
fn equal(cells: &[u32], from: usize, value: u32) -> u32 {
    flagged(from, |at| unsafe { _mm_cmpeq_epi32(load(cells, at), _mm_set1_epi32(value as i32)) })
}

/// Which cells of a block are 0.
#[inline(always)]
pub fn zeros(cells: &[u32], from: usize) -> u32 {
    equal(cells, from, 0)
}

/// Calls back with each bit of a number, rising.
#[inline(always)]
pub fn each_bit(mut bits: u32, mut call: impl FnMut(usize)) {
    while bits != 0 {
        call(bits.trailing_zeros() as usize);
        bits &= bits - 1;
    }
}

/// The bits of a block's cells from a place on that stand before an end.
#[inline(always)]
pub fn before(bits: u32, from: usize, end: usize) -> u32 {
    bits & u32::MAX >> BLOCK.saturating_sub(end - from)
}

/// Calls back with each of some places that is flagged, rising, by a function of four cells from one on.
#[inline(always)]
fn each_flagged(places: Range<usize>, four: impl Fn(usize) -> Four, mut call: impl FnMut(usize)) {
    let mut from = places.start;
    while from < places.end {
        let bits = flagged(from, &four);
        if bits != 0 {
            each_bit(before(bits, from, places.end), |i| call(from + i));
        }
        from += BLOCK;
    }
}

/// Calls back with each of some places of a table that has a value, rising.
#[inline(always)]
pub fn places_of(cells: &[u32], places: Range<usize>, value: u32, call: impl FnMut(usize)) {
    let value = unsafe { _mm_set1_epi32(value as i32) };
    each_flagged(places, |at| unsafe { _mm_cmpeq_epi32(load(cells, at), value) }, call);
}

/// Calls back with each of some places, within a block from one on, that has a value, rising.
#[inline(always)]
pub fn places_within(cells: &[u32], from: usize, places: Range<usize>, value: u32, mut call: impl FnMut(usize)) {
    let bits = equal(cells, from, value);
    if bits != 0 && from < places.end {
        each_bit(before(bits, from, places.end), |i| {
            if from + i >= places.start {
                call(from + i);
            }
        });
    }
}

/// Moves a table's cells down by so many, in pieces.
fn move_down(cells: &mut [u32], by: usize) {
    let mut from = by;
    while from < cells.len() {
        let count = PIECE.min(cells.len() - from);
        unsafe { std::ptr::copy(cells.as_ptr().add(from), cells.as_mut_ptr().add(from - by), count) };
        from += count;
    }
}

/// The places of some rows, in the order in which they were found.
pub struct Places {
    places: [u32; CAPACITY],
    count: usize,
}

impl Places {
    /// No places.
    pub fn new() -> Places {
        Places { places: [0; CAPACITY], count: 0 }
    }

    /// Drops all places.
    #[inline(always)]
    pub fn clear(&mut self) {
        self.count = 0;
    }

    /// Notes one more place: of a row no more than once.
    #[inline(always)]
    pub fn push(&mut self, place: usize) {
        debug_assert!(self.count < CAPACITY);
        unsafe { *self.places.get_unchecked_mut(self.count) = place as u32 };
        self.count += 1;
    }

    /// All of them.
    #[inline(always)]
    pub fn all(&self) -> &[u32] {
        debug_assert!(self.count <= CAPACITY);
        unsafe { self.places.get_unchecked(..self.count) }
    }
}

/// The rows that tables hold: their cells from the oldest row on, and some more behind the youngest.
#[derive(Clone, Copy)]
pub struct Rows<'a> {
    pub columns: &'a [u32],
    pub lower_ends: &'a [u32],
    pub upper_ends: &'a [u32],
}

impl Rows<'_> {
    /// The lower end of the row at a place.
    #[inline(always)]
    pub fn lower(&self, place: usize) -> u32 {
        debug_assert!(place < self.lower_ends.len());
        unsafe { *self.lower_ends.get_unchecked(place) }
    }

    /// The upper end of the row at a place.
    #[inline(always)]
    pub fn upper(&self, place: usize) -> u32 {
        debug_assert!(place < self.upper_ends.len());
        unsafe { *self.upper_ends.get_unchecked(place) }
    }

    /// Calls back with each of some places whose row is listed from a to b, rising: lower end below a, upper end 0 or above b.
    #[inline(always)]
    pub fn listed(&self, places: Range<usize>, a: u32, b: u32, call: impl FnMut(usize)) {
        let four = |at: usize| unsafe {
            let upper = load(self.upper_ends, at);
            let open = _mm_or_si128(_mm_cmpeq_epi32(upper, _mm_setzero_si128()), _mm_cmpgt_epi32(upper, _mm_set1_epi32(b as i32)));
            _mm_and_si128(_mm_cmpgt_epi32(_mm_set1_epi32(a as i32), load(self.lower_ends, at)), open)
        };
        each_flagged(places, four, call);
    }

    /// Notes the rows whose lower end names the oldest row's position; on a book that a tape leaves they stand before that row's upper end.
    #[inline(always)]
    pub fn find_named(&self, position: u32, held: usize, named: &mut Places) {
        let end = if self.upper(0) == 0 { held } else { held.min((self.upper(0) - position) as usize) };
        places_of(self.lower_ends, 1..end, position, |place| named.push(place));
    }

    /// Whether some row has a lower end.
    #[inline(always)]
    pub fn any_lower(&self, held: usize) -> bool {
        let four = |at: usize| unsafe { load(self.lower_ends, at) };
        let mut from = 0;
        while from < held {
            let any = (4..BLOCK).step_by(4).fold(four(from), |any, i| unsafe { _mm_or_si128(any, four(from + i)) });
            let none = unsafe { _mm_movemask_epi8(_mm_cmpeq_epi8(any, _mm_setzero_si128())) == 0xffff };
            if !none && (from..held.min(from + BLOCK)).any(|place| self.lower(place) != 0) {
                return true;
            }
            from += BLOCK;
        }
        false
    }
}

/// The tables: of as many places as the memory, through which all rows move down where one expires, or of twice as many, through which
/// they slide up and go to the front once in a while.
pub struct Tables {
    pub columns: Vec<u32>,
    pub positions: Vec<u32>,
    pub lower_ends: Vec<u32>,
    pub upper_ends: Vec<u32>,
    slides: bool,
    /// The place of the oldest row.
    oldest: usize,
}

impl Tables {
    /// Tables of zeros.
    pub fn new(slides: bool) -> Tables {
        let places = if slides { 2 * CAPACITY } else { CAPACITY };
        let cells = || vec![0; places + SLACK];
        let (positions, lower_ends, upper_ends) = (cells(), cells(), cells());
        Tables { columns: vec![0; 6 * places + SLACK], positions, lower_ends, upper_ends, slides, oldest: 0 }
    }

    /// The rows of D columns that they hold.
    #[inline(always)]
    pub fn rows(&self, d: usize) -> Rows<'_> {
        let from = self.oldest;
        debug_assert!(from <= CAPACITY);
        unsafe {
            Rows {
                columns: self.columns.get_unchecked(from * d..),
                lower_ends: self.lower_ends.get_unchecked(from..),
                upper_ends: self.upper_ends.get_unchecked(from..),
            }
        }
    }

    /// Whether 12 holds of the rows: positions that are not those from a first one on, a lower end not below its position, an upper end
    /// other than 0 not above its position or above the newest, or a count of zero upper ends that is not the live one. Positions are
    /// below 2^24, so that the sign of a difference tells a comparison, or another one fails.
    pub fn torn(&self, first: u32, newest: u32, held: usize, live: u32) -> bool {
        let rows = self.oldest..self.oldest + held;
        let (positions, lower_ends, upper_ends) = (&self.positions[rows.clone()], &self.lower_ends[rows.clone()], &self.upper_ends[rows]);
        let (mut unlike, mut signs, mut below, mut zeros) = (0, 0, u32::MAX, 0u32);
        let mut position = first;
        for i in 0..held {
            let zero = if upper_ends[i] == 0 { u32::MAX } else { 0 };
            unlike |= positions[i] ^ position;
            signs |= lower_ends[i] | newest.wrapping_sub(upper_ends[i]);
            below &= lower_ends[i].wrapping_sub(position) & (position.wrapping_sub(upper_ends[i]) | zero);
            zeros = zeros.wrapping_sub(zero);
            position = position.wrapping_add(1);
        }
        unlike != 0 || signs >> 31 != 0 || below >> 31 != 1 || zeros != live
    }

    /// Gives the rows at some places an upper end.
    #[inline(always)]
    pub fn retire(&mut self, places: &Places, position: u32) {
        for &place in places.all() {
            debug_assert!(self.oldest + (place as usize) < self.upper_ends.len());
            unsafe { *self.upper_ends.get_unchecked_mut(self.oldest + place as usize) = position };
        }
    }

    /// The lower ends of the rows at some places become 0.
    #[inline(always)]
    pub fn forget(&mut self, places: &Places) {
        for &place in places.all() {
            debug_assert!(self.oldest + (place as usize) < self.lower_ends.len());
            unsafe { *self.lower_ends.get_unchecked_mut(self.oldest + place as usize) = 0 };
        }
    }

    /// The oldest row leaves: all others move down, or stay where they are, or go to the front.
    #[inline(always)]
    pub fn expire(&mut self, d: usize, held: usize) {
        if !self.slides {
            return self.move_all(d, held);
        }
        self.oldest += 1;
        if self.oldest > CAPACITY {
            self.go_to_front(d, held - 1);
        }
    }

    /// All rows move down by one.
    pub fn move_all(&mut self, d: usize, held: usize) {
        move_down(&mut self.columns[..held * d], d);
        move_down(&mut self.positions[..held], 1);
        move_down(&mut self.lower_ends[..held], 1);
        move_down(&mut self.upper_ends[..held], 1);
    }

    /// All rows go to the front.
    #[cold]
    fn go_to_front(&mut self, d: usize, held: usize) {
        let rows = self.oldest..self.oldest + held;
        self.columns.copy_within(rows.start * d..rows.end * d, 0);
        self.positions.copy_within(rows.clone(), 0);
        self.lower_ends.copy_within(rows.clone(), 0);
        self.upper_ends.copy_within(rows, 0);
        self.oldest = 0;
    }

    /// A row of D columns at a place.
    #[inline(always)]
    pub fn put<const D: usize>(&mut self, place: usize, columns: &[u32; 6], position: u32, lower_end: u32) {
        let place = self.oldest + place;
        debug_assert!(place < self.positions.len());
        unsafe {
            let row = self.columns.as_mut_ptr().add(place * D).cast::<[u32; D]>();
            *row = columns[..D].try_into().unwrap();
            *self.positions.get_unchecked_mut(place) = position;
            *self.lower_ends.get_unchecked_mut(place) = lower_end;
            *self.upper_ends.get_unchecked_mut(place) = 0;
        }
    }
}
